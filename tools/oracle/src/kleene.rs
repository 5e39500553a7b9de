//! Levels by Kleene's tables, read from the paper: 0, 1, or 2 for undefined.

use crate::ticket::*;

fn not(x: u8) -> u8 {
    [1, 0, 2][x as usize]
}

fn and(x: u8, y: u8) -> u8 {
    match (x, y) {
        (0, _) | (_, 0) => 0,
        (1, 1) => 1,
        _ => 2,
    }
}

fn or(x: u8, y: u8) -> u8 {
    not(and(not(x), not(y)))
}

fn xor(x: u8, y: u8) -> u8 {
    if x == 2 || y == 2 { 2 } else { x ^ y }
}

fn mux(select: u8, one: u8, zero: u8) -> u8 {
    match select {
        1 => one,
        0 => zero,
        _ if one == zero => one,
        _ => 2,
    }
}

fn invert_if(invert: bool, level: u8) -> u8 {
    if invert { not(level) } else { level }
}

struct Valuation<'a> {
    records: &'a [Record],
    levels: Vec<Option<u8>>,
}

impl Valuation<'_> {
    fn net(&mut self, net: u32) -> u8 {
        match net {
            ZERO => 0,
            ONE => 1,
            UNDEF => 2,
            _ => self.slot(net as usize - 2),
        }
    }

    fn slot(&mut self, slot: usize) -> u8 {
        if let Some(level) = self.levels[slot] {
            return level;
        }
        let record = self.records[slot];
        let [a, b, c] = [record.a, record.b, record.c];
        let level = match record.kind {
            NOT => not(self.net(a)),
            AND => and(self.net(a), self.net(b)),
            OR => or(self.net(a), self.net(b)),
            XOR => xor(self.net(a), self.net(b)),
            MUX => mux(self.net(a), self.net(b), self.net(c)),
            AIG => {
                let level_a = invert_if(record.flags & 1 != 0, self.net(a));
                let level_b = invert_if(record.flags & 2 != 0, self.net(b));
                and(level_a, level_b)
            }
            _ => self.net(a),
        };
        self.levels[slot] = Some(level);
        level
    }
}

/// One level per output record, from one level per input record, on a ticket without loops.
pub fn levels(records: &[Record], inputs: &[u8]) -> Vec<u8> {
    let mut given = inputs.iter();
    let start = |record: &Record| if record.kind == INPUT { given.next().copied() } else { None };
    let levels = records.iter().map(start).collect();
    let mut valuation = Valuation { records, levels };
    let outputs = (0..records.len()).filter(|&slot| records[slot].kind == OUTPUT);
    outputs.map(|slot| valuation.slot(slot)).collect()
}
