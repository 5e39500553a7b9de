//! The lister's lines.

use crate::calls::{Answer, Call, Lent, answer};
use crate::ticket::{self, Record};

/// The lister reads this much and nothing after it.
pub const MOST_READ: usize = 8_208;

pub fn line(record: &Record) -> String {
    let Record { kind, flags, bit, a, b, c } = record;
    format!("{kind} {flags} {bit} {a} {b} {c}")
}

pub fn lines(records: &[Record]) -> String {
    records.iter().enumerate().map(|(slot, record)| format!("{slot} {}\n", line(record))).collect()
}

/// A refusal with its place, and its field after a 7 only.
pub fn refused(answer: &Answer) -> String {
    let Answer { refusal, place, field, .. } = answer;
    match refusal {
        7 => format!("refused {refusal} {place} {field}"),
        _ => format!("refused {refusal} {place}"),
    }
}

pub fn list(given: &[u8]) -> String {
    let ticket = &given[..given.len().min(MOST_READ)];
    let answer = answer(Call::Rewrite, ticket, Lent::AMPLE);
    match answer.refusal {
        0 => lines(&ticket::records(&answer.reply)),
        _ => refused(&answer) + "\n",
    }
}
