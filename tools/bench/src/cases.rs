//! The tickets that are timed: drawn ones, and the worst of their size.

use oracle::checking::{WORK_WORDS, check};
use oracle::draw::{self, Draw, renumber};
use oracle::paper;
use oracle::ticket::{AND, BUF, MUX, NOT, OUTPUT, Record, XOR, bytes, net_of};

/// Sizes between which growth is told.
pub const SMALL: usize = 64;
pub const FULL: usize = 512;
const DRAWN_SIZES: [usize; 3] = [16, SMALL, FULL];
const DRAWN_EACH: u64 = 8;

/// Tickets of one size that share a row of the table.
pub struct Case {
    pub name: &'static str,
    pub records: usize,
    pub tickets: Vec<Vec<u8>>,
}

impl Case {
    pub fn is_accepted(&self) -> bool {
        self.tickets.iter().all(|ticket| check(ticket, WORK_WORDS).is_ok())
    }
}

type Make = fn(usize) -> Vec<Record>;

const WORST: [(&str, Make); 14] = [
    ("chain", chain),
    ("chain, readers first", |size| renumber(&chain(size), &(0..size).rev().collect::<Vec<_>>())),
    ("ladder", ladder),
    ("all reached, operands far", far),
    ("muxes", muxes),
    ("one wide cell", wide),
    ("one wide cell that reads itself", wide_chain),
    ("eight wide cells", wide_cells),
    ("all inputs", |size| paper::inputs(size as u32)),
    ("equal gates", |size| framed(2, size, |_| Record::new(AND, net_of(0), net_of(1), 0))),
    ("gates of different pairs", pairs),
    ("ors and their outputs", ors_and_outputs),
    ("ring", |size| (0..size).map(|slot| Record::new(BUF, net_of((slot + 1) % size), 0, 0)).collect()),
    ("muxes before a loop", late_loop),
];

/// The empty ticket first: what a call costs at least.
pub fn all() -> Vec<Case> {
    let drawn = DRAWN_SIZES.map(|size| Case { name: "drawn", records: size, tickets: drawn(size) });
    let worst = WORST.into_iter().flat_map(|(name, ticket)| {
        [SMALL, FULL].map(|size| Case { name, records: size, tickets: vec![bytes(&ticket(size))] })
    });
    let empty = Case { name: "empty", records: 0, tickets: vec![vec![]] };
    [empty].into_iter().chain(drawn).chain(worst).collect()
}

fn drawn(size: usize) -> Vec<Vec<u8>> {
    (1..=DRAWN_EACH).map(|seed| bytes(&draw::ticket(&mut Draw(seed), size))).collect()
}

/// Inputs, then gates, then an output that reads the last gate.
fn framed(inputs: usize, size: usize, gate: impl Fn(usize) -> Record) -> Vec<Record> {
    let mut records = paper::inputs(inputs as u32);
    records.extend((inputs..size - 1).map(gate));
    records.push(Record::new(OUTPUT, net_of(size - 2), 0, 0));
    records
}

fn inverter_of(slot: usize) -> Record {
    Record::new(NOT, net_of(slot), 0, 0)
}

fn chain(size: usize) -> Vec<Record> {
    framed(1, size, |slot| inverter_of(slot - 1))
}

/// Each gate reads the two before it: as many paths as Fibonacci's numbers, and no two gates equal.
fn ladder(size: usize) -> Vec<Record> {
    framed(2, size, |slot| Record::new(AND, net_of(slot - 1), net_of(slot - 2), 0))
}

/// Each gate reads the one before, so that all are reached, and the one at half its slot: as far from it as from the
/// first.
fn far(size: usize) -> Vec<Record> {
    framed(2, size, |slot| Record::new(AND, net_of(slot - 1), net_of(slot / 2), 0))
}

/// Each reads the three records before: as many operands as records can have.
fn muxes(size: usize) -> Vec<Record> {
    framed(3, size, |slot| Record::new(MUX, net_of(slot - 1), net_of(slot - 2), net_of(slot - 3)))
}

fn wide(size: usize) -> Vec<Record> {
    framed(1, size, |slot| Record { bit: slot as u16 - 1, ..inverter_of(0) })
}

fn wide_chain(size: usize) -> Vec<Record> {
    framed(1, size, |slot| Record { bit: slot as u16 - 1, ..inverter_of(slot - 1) })
}

/// Each bit reads the bit of its place in the cell before, and the input.
fn wide_cells(size: usize) -> Vec<Record> {
    let width = size / 8;
    framed(1, size, |slot| {
        let before = slot.saturating_sub(width);
        Record { bit: ((slot - 1) % width) as u16, ..Record::new(XOR, net_of(before), net_of(0), 0) }
    })
}

/// Ors of different pairs of inputs, with no more inputs than that takes.
fn pairs(size: usize) -> Vec<Record> {
    let inputs = (2..size).find(|inputs| inputs * (inputs - 1) / 2 + inputs + 1 >= size).unwrap();
    let ors = paper::ors(inputs as u32, size - 1 - inputs);
    framed(inputs, size, |slot| ors[slot])
}

/// Half of the records are ors of different pairs of inputs, of which the outputs read all but a few. An or is rewritten
/// into two new cells, so rewriting takes twice as many slots as there are records: 1,024 for a full ticket.
fn ors_and_outputs(size: usize) -> Vec<Record> {
    let ors = size / 2;
    let inputs = (2..size).find(|inputs| inputs * (inputs - 1) / 2 >= ors).unwrap();
    let mut records = paper::ors(inputs as u32, ors);
    records.extend((0..size - inputs - ors).map(|label| Record::new(OUTPUT, net_of(inputs + label), label as u32, 0)));
    records
}

/// Every record reaches all later ones, and only the last reaches itself.
fn late_loop(size: usize) -> Vec<Record> {
    let after = |slot: usize, steps: usize| net_of((slot + steps).min(size - 1));
    (0..size).map(|slot| Record::new(MUX, after(slot, 1), after(slot, 2), after(slot, 3))).collect()
}
