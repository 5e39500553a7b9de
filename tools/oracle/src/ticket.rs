//! Tickets as records, after the paper's table of kinds.

use std::ops::Range;

pub const INPUT: u8 = 1;
pub const OUTPUT: u8 = 2;
pub const BUF: u8 = 3;
pub const NOT: u8 = 4;
pub const AND: u8 = 5;
pub const OR: u8 = 6;
pub const XOR: u8 = 7;
pub const MUX: u8 = 8;
pub const AIG: u8 = 9;

pub const ZERO: u32 = 0;
pub const ONE: u32 = 1;
pub const UNDEF: u32 = u32::MAX;

pub const RECORD_BYTES: usize = 16;
pub const MOST_RECORDS: usize = 512;
pub const MOST_SLOTS: usize = 1024;

#[derive(Clone, Copy, Debug, Default, PartialEq, Eq, PartialOrd, Ord, Hash)]
pub struct Record {
    pub kind: u8,
    pub flags: u8,
    pub bit: u16,
    pub a: u32,
    pub b: u32,
    pub c: u32,
}

pub fn is_const(net: u32) -> bool {
    matches!(net, ZERO | ONE | UNDEF)
}

pub fn net_of(slot: usize) -> u32 {
    slot as u32 + 2
}

/// The slot that a net names, if it is no constant.
pub fn slot_of(net: u32) -> Option<usize> {
    if is_const(net) { None } else { Some(net as usize - 2) }
}

impl Record {
    pub fn new(kind: u8, a: u32, b: u32, c: u32) -> Record {
        Record { kind, flags: 0, bit: 0, a, b, c }
    }

    pub fn read(bytes: &[u8]) -> Record {
        let word = |at: usize| u32::from_le_bytes(bytes[at..at + 4].try_into().unwrap());
        let bit = u16::from_le_bytes([bytes[2], bytes[3]]);
        Record { kind: bytes[0], flags: bytes[1], bit, a: word(4), b: word(8), c: word(12) }
    }

    pub fn write(&self, bytes: &mut Vec<u8>) {
        bytes.extend([self.kind, self.flags]);
        bytes.extend(self.bit.to_le_bytes());
        for word in [self.a, self.b, self.c] {
            bytes.extend(word.to_le_bytes());
        }
    }

    /// How many of a, b, c are nets; they are always the first ones.
    pub fn operand_count(&self) -> usize {
        match self.kind {
            OUTPUT | BUF | NOT => 1,
            AND | OR | XOR | AIG => 2,
            MUX => 3,
            _ => 0,
        }
    }

    pub fn operands(&self) -> impl Iterator<Item = u32> + use<> {
        [self.a, self.b, self.c].into_iter().take(self.operand_count())
    }

    pub fn operands_mut(&mut self) -> impl Iterator<Item = &mut u32> {
        let count = self.operand_count();
        [&mut self.a, &mut self.b, &mut self.c].into_iter().take(count)
    }

    /// Neither input nor output, whether charged or not.
    pub fn is_gate(&self) -> bool {
        !matches!(self.kind, INPUT | OUTPUT)
    }

    /// Whether the gate count charges for the record: buf and not are free (request 2026-03).
    pub fn is_charged(&self) -> bool {
        matches!(self.kind, AND | OR | XOR | MUX | AIG)
    }
}

/// The whole records of a ticket; a torn rest is not looked at.
pub fn records(ticket: &[u8]) -> Vec<Record> {
    ticket.chunks_exact(RECORD_BYTES).map(Record::read).collect()
}

pub fn bytes(records: &[Record]) -> Vec<u8> {
    let mut bytes = Vec::with_capacity(records.len() * RECORD_BYTES);
    records.iter().for_each(|record| record.write(&mut bytes));
    bytes
}

pub fn count_kind(records: &[Record], kind: u8) -> usize {
    records.iter().filter(|record| record.kind == kind).count()
}

/// The slots of the cell that a record belongs to, in a ticket without a broken bus.
pub fn cell_at(records: &[Record], slot: usize) -> Range<usize> {
    let first = slot - records[slot].bit as usize;
    let next_cell = (slot + 1..records.len()).find(|&later| records[later].bit == 0);
    first..next_cell.unwrap_or(records.len())
}

/// Whether no two input cells, and no two outputs, have the same label.
pub fn has_separate_labels(records: &[Record]) -> bool {
    let separate = |kind: u8, label: fn(&Record) -> u32| {
        let cells = records.iter().filter(|record| record.kind == kind && record.bit == 0);
        let mut labels: Vec<u32> = cells.map(label).collect();
        labels.sort();
        labels.windows(2).all(|pair| pair[0] != pair[1])
    };
    separate(INPUT, |record| record.a) && separate(OUTPUT, |record| record.b)
}
