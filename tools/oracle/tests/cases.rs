//! The cases of crates/cases, whose file says how they are written: the oracle answers what they expect.

use oracle::calls::{Answer, Call, Lent, answer};
use oracle::ticket::{Record, UNDEF};

const CASES: &str = include_str!("../../../crates/cases/data/cases");

fn number(word: &str) -> u32 {
    if word == "X" { UNDEF } else { word.parse().expect("a number") }
}

fn record(fields: [u32; 6]) -> Record {
    let [kind, flags, bit, a, b, c] = fields;
    let [kind, flags] = [kind, flags].map(|field| u8::try_from(field).expect("a byte"));
    Record { kind, flags, bit: bit.try_into().expect("two bytes"), a, b, c }
}

/// Adds the records of a line to a ticket.
fn add(line: &str, ticket: &mut Vec<u8>) {
    let numbers: Vec<u32> = line.split_whitespace().map(number).collect();
    let mut fields: [u32; 6] = numbers[..6].try_into().unwrap();
    assert!([6, 7, 13].contains(&numbers.len()), "{line}");
    for _ in 0..numbers.get(6).copied().unwrap_or(1) {
        record(fields).write(ticket);
        for (field, step) in fields.iter_mut().zip(&numbers[numbers.len().min(7)..]) {
            *field += step;
        }
    }
}

fn ticket(lines: &[&str]) -> Vec<u8> {
    let mut ticket = vec![];
    for line in lines {
        match line.strip_prefix('-') {
            Some(bytes) => ticket.truncate(ticket.len() - number(bytes) as usize),
            None => add(line, &mut ticket),
        }
    }
    ticket
}

#[test]
fn the_oracle_answers_as_the_cases_expect() {
    let lines: Vec<&str> = CASES.lines().filter(|line| !line.is_empty() && !line.starts_with('#')).collect();
    let is_head = |line: &&str| line.starts_with(char::is_alphabetic);
    for case in lines.chunk_by(|_, line| !is_head(line)) {
        let figures: Vec<u32> = case[0].split_whitespace().skip(1).map(number).collect();
        let lent = Lent { work_words: figures[0] as usize, ..Lent::AMPLE };
        let Answer { refusal, place, count, extra, field, .. } = answer(Call::Check, &ticket(&case[1..]), lent);
        let mut answered = vec![refusal, place, count, extra];
        answered.extend(Some(field).filter(|&field| field != 0));
        assert_eq!(answered, figures[1..], "{}", case[0]);
    }
}
