//! Pages for docs/, made from measurement.

use std::collections::BTreeMap;
use std::fmt::Write;

use crate::arms::{Arm, Counts, Taken, impossible, measure, named, thinkable};
use crate::calls::{CALLS, Call, answer};
use crate::checking::{WORK_WORDS, check};
use crate::list::{ASSIGNMENTS, Case};
use crate::ticket::{RECORD_BYTES, Record};
use crate::{kleene, search, text};

pub fn tally(counts: &mut Counts, more: Counts) {
    for (taken, count) in more {
        *counts.entry(taken).or_default() += count;
    }
}

/// A table row per arm: how often in all, then variant and order by variant and order.
pub fn counts(counts: &Counts) -> String {
    let mut page = "| arm | taken | by variant and order |\n|---|---|---|\n".to_string();
    let mut rows: BTreeMap<usize, Vec<(&Taken, u64)>> = BTreeMap::new();
    for (taken, &count) in counts {
        rows.entry(taken.arm).or_default().push((taken, count));
    }
    for row in rows.values() {
        let Arm { file, name, .. } = row[0].0.arm();
        let all: u64 = row.iter().map(|(_, count)| count).sum();
        let parts: Vec<String> = row.iter().map(|(taken, count)| part(taken, *count)).collect();
        writeln!(page, "| {file} {name} | {all} | {} |", parts.join(", ")).unwrap();
    }
    match strays(counts).as_str() {
        "" => page + "\nNone that impossible.txt has a reason against.\n",
        strays => panic!("taken against impossible.txt: {strays}"),
    }
}

/// Arms taken although impossible.txt has a reason against them.
fn strays(counts: &Counts) -> String {
    let reasons: Vec<&str> = impossible().into_iter().flat_map(|(_, _, rows)| rows).collect();
    let strays = counts.keys().map(Taken::name).filter(|name| reasons.contains(&name.as_str()));
    strays.collect::<Vec<_>>().join(", ")
}

fn part(taken: &Taken, count: u64) -> String {
    let variant = if taken.variant() == "-" { String::new() } else { format!("`{}` ", taken.variant()) };
    format!("{variant}`{}` {count}", taken.orders())
}

const ARMS_HEAD: &str = "# Arms and their tickets

Made by `oracle arms-page` from tools/oracle/arms.txt and tools/oracle/impossible.txt; a test of tools/oracle measures each row and compares this page.
An arm is a place of aig.rs or normalize.rs where a rule ends; its line is given. tools/oracle/arms.tsv tells where an arm has variants (signs, or which half of its condition held).
The order is three digits, one for each loop over two orders that the arm stands in: the operands of the cell itself, of the cell looked up for the first of them, and of the cell looked up for the second. 0 is the order first tried, 1 the exchanged one, a dot stands for a loop that the arm is not in.
A ticket's name in arms.txt is its file, arm, variant and order.
Records are short here: `aig(~2,3)` is an and-inverter with flag 1, `xor.1` is bit 1 of its cell, X is undefined. Inputs are labelled from 1, outputs from 101. The last column is what rewriting leaves.

";

pub fn arms() -> String {
    let mut page = ARMS_HEAD.to_string();
    let tickets: BTreeMap<String, Vec<Record>> = named().into_iter().collect();
    let taken: Vec<Taken> = tickets.values().flat_map(|records| measure(records).1.into_keys()).collect();
    let names = thinkable(taken.iter());
    page += "| arm | does | variant | order | ticket | result |\n|---|---|---|---|---|---|\n";
    for row in names.iter().filter(|row| tickets.contains_key(&row.name())) {
        page += &arm_row(row, &tickets[&row.name()]);
    }
    page += "\n## Orders that no ticket takes\n\nEach reason stands before the rows it holds for. None of these was met in any run of docs/ORACLE.md.\n";
    for (name, reason, rows) in impossible() {
        write!(page, "\n**{name}.** {reason}\n\n").unwrap();
        rows.iter().for_each(|row| writeln!(page, "- `{row}`").unwrap());
    }
    page
}

fn arm_row(row: &Taken, records: &[Record]) -> String {
    let Arm { file, line, name, effect, .. } = row.arm();
    let (ticket, result) = (text::short(records), text::short(&measure(records).0));
    let cells =
        [format!("{name} ({file}.rs {line})"), effect.to_string(), row.variant().into(), row.orders(), ticket, result];
    format!("| {} |\n", cells.join(" | "))
}

/// A table row: arms, ticket, result, the levels given, and the output levels before and after.
pub fn definite(arms: &str, records: &[Record]) -> String {
    let rewritten = measure(records).0;
    let given = search::made_definite(records, &rewritten).unwrap();
    let digits = |levels: &[u8]| levels.iter().map(|level| ["0", "1", "X"][*level as usize]).collect::<String>();
    let [before, after] = [records, &rewritten].map(|records| digits(&kleene::levels(records, &given)));
    let [ticket, result] = [records, &rewritten].map(text::short);
    format!("| {arms} | {ticket} | {result} | {} | {before} | {after} |", digits(&given))
}

/// Tables about the fixed list: refusals by call, fields of loose wires, sizes, and how often its tickets take each arm.
pub fn report(cases: &[Case]) -> String {
    let mut taken = Counts::new();
    let mut sizes = [0; SIZES.len()];
    let mut refusals = [[0; 13]; CALLS.len()];
    for case in cases {
        for (row, call) in refusals.iter_mut().zip(CALLS) {
            let answers = if call == Call::Levels { 0..ASSIGNMENTS } else { 0..1 };
            answers.for_each(|i| row[answer(call, &case.ticket, case.lent(call, i)).refusal as usize] += 1);
        }
        let records = case.ticket.len() / RECORD_BYTES;
        sizes[SIZES.iter().position(|&(_, most)| records <= most).unwrap()] += 1;
        if let Ok(records) = check(&case.ticket, WORK_WORDS) {
            tally(&mut taken, measure(&records).1);
        }
    }
    let digits = |row: &[usize]| row.iter().map(usize::to_string).collect::<Vec<_>>().join(" | ");
    let mut page =
        format!("{} tickets\n\n| call | {} |\n|{}\n", cases.len(), digits(&Vec::from_iter(0..13)), "---|".repeat(14));
    for (row, call) in refusals.iter().zip(CALLS) {
        writeln!(page, "| {} | {} |", call.name(), digits(row)).unwrap();
    }
    page += &loose_fields(cases);
    page += "\n| records | tickets |\n|---|---|\n";
    for ((name, _), count) in SIZES.iter().zip(sizes) {
        writeln!(page, "| {name} | {count} |").unwrap();
    }
    format!("{page}\n{}", counts(&taken))
}

/// How often checking names each field with 7.
fn loose_fields(cases: &[Case]) -> String {
    let fields: Vec<u32> = cases.iter().map(|case| case.answer(Call::Check).field).collect();
    let row = |field: u32| format!("| {field} | {} |\n", fields.iter().filter(|&&named| named == field).count());
    format!("\n| field with 7 | tickets |\n|---|---|\n{}{}{}", row(1), row(2), row(3))
}

const SIZES: [(&str, usize); 6] =
    [("0 to 4", 4), ("5 to 40", 40), ("41 to 120", 120), ("121 to 511", 511), ("512", 512), ("above", usize::MAX)];
