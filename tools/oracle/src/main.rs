//! The oracle at the command line: a ticket on standard input.

use std::fs::{create_dir_all, read_to_string, write};
use std::io::{Read, Write, stdin, stdout};
use std::process::ExitCode;

use oracle::arms::{self, Counts};
use oracle::calls::{Answer, Call, Lent, answer};
use oracle::draw::{self, Draw, Request};
use oracle::{ARMS, list, lister, page, search, text, ticket};

const USAGE: &str = "usage: oracle COMMAND < ticket
  check | compact | merge | rewrite   answer on standard error, reply bytes on standard output
  levels DIGITS                       one digit per input record; one digit per output record
  list                                the lister's lines
  show                                the ticket itself, a line per record
  pack                                a ticket from lines `kind flags bit a b c`
without a ticket:
  arms SEED COUNT FILE                a smallest ticket for each arm and order that drawn tickets and the file's meet
  exhaust                             how often each arm is taken over every ticket of two small families
  count SEED COUNT                    how often each arm is taken over drawn tickets
  draw REQUEST SEED COUNT DIR         tickets drawn for a request by the comparison's rules, a file each
  build-list DIR                      the files of the fixed list
  report                              tables about the fixed list: refusals, sizes, arms
  arms-page                           docs/ARMS.md
  definite SEED COUNT                 smallest tickets in which arms make an undefined level definite";

fn main() -> ExitCode {
    let arguments: Vec<String> = std::env::args().skip(1).collect();
    let arguments: Vec<&str> = arguments.iter().map(String::as_str).collect();
    match arguments[..] {
        ["list"] => print!("{}", lister::list(&given())),
        ["show"] => print!("{}", lister::lines(&ticket::records(&given()))),
        ["pack"] => put(&ticket::bytes(&text::records(&String::from_utf8(given()).unwrap()))),
        ["levels", digits] => levels(digits),
        ["build-list", folder] => build_list(folder),
        ["draw", name, seed, count, folder] => draw_tickets(name, number(seed), number(count), folder),
        ["report"] => print!("{}", page::report(&list::cases())),
        ["arms-page"] => print!("{}", page::arms()),
        ["exhaust"] => exhaust(),
        ["count", seed, drawn] => count(number(seed), number(drawn)),
        ["definite", seed, count] => definite(number(seed), number(count) as usize),
        ["arms", seed, count, file] => search_arms(number(seed), number(count) as usize, file),
        [name] if Call::from_name(name).is_some_and(|call| call != Call::Levels) => run(Call::from_name(name).unwrap()),
        _ => {
            eprintln!("{USAGE}");
            return ExitCode::FAILURE;
        }
    }
    ExitCode::SUCCESS
}

fn number(digits: &str) -> u64 {
    digits.parse().expect("a number")
}

fn search_arms(seed: u64, count: usize, file: &str) {
    let given = text::named(&read_to_string(file).expect("the file")).into_iter().map(|(_, records)| records);
    for (taken, records) in search::arms(seed, count, given.collect()) {
        println!("# {}", taken.name());
        records.iter().for_each(|record| println!("{}", text::line(record)));
    }
}

fn definite(seed: u64, count: usize) {
    for (arms, records) in search::definite(seed, count) {
        let names: Vec<&str> = arms.iter().map(|&arm| ARMS[arm].name).collect();
        println!("{}", page::definite(&names.join(" "), &records));
    }
}

fn build_list(folder: &str) {
    create_dir_all(folder).expect("the folder");
    for (name, bytes) in list::files(&list::cases()) {
        write(format!("{folder}/{name}"), bytes).expect("a file of the list");
    }
}

fn draw_tickets(name: &str, seed: u64, count: u64, folder: &str) {
    let request = Request::from_name(name).expect("a request");
    let mut draw = Draw(seed);
    create_dir_all(folder).expect("the folder");
    for index in 0..count {
        write(format!("{folder}/{index}"), list::drawn(&mut draw, Some(request)).ticket).expect("a ticket's file");
    }
}

/// Counts the arms over every small ticket of two families.
fn exhaust() {
    const AIGS: [(u8, u8); 6] = [(9, 0), (9, 1), (9, 2), (9, 3), (7, 0), (6, 0)];
    let mut counts = Counts::new();
    let mut tickets = 0_u64;
    for (inputs, gates, kinds, undefined) in [(3, 3, &AIGS[..], true), (2, 4, &AIGS[..5], false)] {
        for inputs_last in [false, true] {
            let every = search::Every { inputs, gates, kinds, undefined, inputs_last };
            every.visit(&mut |records| {
                tickets += 1;
                page::tally(&mut counts, arms::measure(records).1);
            });
        }
    }
    println!("{tickets} tickets");
    print!("{}", page::counts(&counts));
}

fn count(seed: u64, count: u64) {
    let mut draw = Draw(seed);
    let mut counts = Counts::new();
    for _ in 0..count {
        page::tally(&mut counts, arms::measure(&draw::accepted(&mut draw)).1);
    }
    print!("{}", page::counts(&counts));
}

fn given() -> Vec<u8> {
    let mut bytes = vec![];
    stdin().read_to_end(&mut bytes).expect("standard input");
    bytes
}

fn put(bytes: &[u8]) {
    stdout().write_all(bytes).expect("standard output");
}

fn tell(answer: &Answer) {
    match answer.refusal {
        0 => eprintln!("accepted {} {}", answer.count, answer.extra),
        _ => eprintln!("{}", lister::refused(answer)),
    }
}

fn run(call: Call) {
    let answer = answer(call, &given(), Lent::AMPLE);
    tell(&answer);
    put(&answer.reply);
}

fn levels(digits: &str) {
    let levels: Vec<u8> = digits.bytes().map(|digit| digit.wrapping_sub(b'0')).collect();
    let answer = answer(Call::Levels, &given(), Lent { levels: &levels, ..Lent::AMPLE });
    tell(&answer);
    put(&answer.reply.iter().map(|level| level + b'0').collect::<Vec<_>>());
}
