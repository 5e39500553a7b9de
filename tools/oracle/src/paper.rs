//! The paper's tickets to try. Labels that it leaves open are separate.

use crate::text;
use crate::ticket::{INPUT, OR, OUTPUT, Record, net_of};

const NAMED: &str = include_str!("../paper.txt");

/// T2 to T12 and T15, by name.
pub fn named() -> Vec<(String, Vec<Record>)> {
    text::named(NAMED)
}

pub fn ticket(name: &str) -> Vec<Record> {
    let found = named().into_iter().find(|(held, _)| held == name);
    found.unwrap_or_else(|| panic!("no ticket {name}")).1
}

/// Inputs with labels from 0.
pub fn inputs(count: u32) -> Vec<Record> {
    (0..count).map(|label| Record::new(INPUT, label, 0, 0)).collect()
}

/// So many inputs and ors of different pairs of them; T14 has 40 inputs.
pub fn ors(inputs: u32, count: usize) -> Vec<Record> {
    let pairs = (0..inputs as usize).flat_map(|b| (0..b).map(move |a| (net_of(a), net_of(b))));
    let ors = pairs.take(count).map(|(a, b)| Record::new(OR, a, b, 0));
    self::inputs(inputs).into_iter().chain(ors).collect()
}

/// 20 inputs, 170 ors and an output of each: the rewritten ticket is longer than a ticket may be.
pub fn outgrown() -> Vec<Record> {
    let mut records = ors(20, 170);
    records.extend((20..190).map(|slot| Record::new(OUTPUT, net_of(slot), slot as u32, 0)));
    records
}
