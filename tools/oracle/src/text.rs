//! Tickets as text: a line `kind flags bit a b c` per record, X for undefined.
//! A file of named tickets has a line `# name` before each.

use crate::ticket::{Record, UNDEF};

pub fn record(line: &str) -> Record {
    let word = |field: &str| if field == "X" { UNDEF } else { field.parse().expect("a field of a record") };
    let fields: Vec<u32> = line.split_whitespace().map(word).collect();
    let [kind, flags, bit, a, b, c] = fields[..] else { panic!("six fields: {line}") };
    Record { kind: kind as u8, flags: flags as u8, bit: bit as u16, a, b, c }
}

pub fn records(text: &str) -> Vec<Record> {
    text.lines().map(str::trim).filter(|line| !line.is_empty()).map(record).collect()
}

pub fn line(record: &Record) -> String {
    let word = |word: u32| if word == UNDEF { "X".into() } else { word.to_string() };
    let Record { kind, flags, bit, a, b, c } = *record;
    format!("{kind} {flags} {bit} {} {} {}", word(a), word(b), word(c))
}

/// A record as `and(2,3)`, a bit above 0 as `and.1(2,3)`, labels left out.
fn short_record(record: &Record) -> String {
    const NAMES: [&str; 10] = ["?", "in", "out", "buf", "not", "and", "or", "xor", "mux", "aig"];
    let net = |(place, net): (usize, u32)| {
        let sign = if record.flags >> place & 1 != 0 { "~" } else { "" };
        let name = if net == UNDEF { "X".into() } else { net.to_string() };
        format!("{sign}{name}")
    };
    let bit = if record.bit == 0 { String::new() } else { format!(".{}", record.bit) };
    let nets: Vec<String> = record.operands().enumerate().map(net).collect();
    let operands = if nets.is_empty() { String::new() } else { format!("({})", nets.join(",")) };
    format!("{}{bit}{operands}", NAMES[record.kind as usize])
}

pub fn short(records: &[Record]) -> String {
    records.iter().map(short_record).collect::<Vec<_>>().join(", ")
}

pub fn named(text: &str) -> Vec<(String, Vec<Record>)> {
    let tickets = text.split("# ").filter(|part| !part.is_empty());
    tickets.map(|part| part.split_once('\n').unwrap()).map(|(name, lines)| (name.into(), records(lines))).collect()
}
