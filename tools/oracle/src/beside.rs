//! Tickets carried into the Rust's `Design` and back.

use std::cell::Cell as Count;

use crate::aig::SimpleAigOpt;
use crate::normalize::Normalize;
use crate::ticket::{self, AIG, AND, BUF, INPUT, MUX, NOT, OR, OUTPUT, Record, XOR};
use crate::{Cell, ControlNet, Design, Net, RewriteRuleset, Value};

/// The design of an accepted ticket.
pub fn design(records: &[Record]) -> Design {
    let mut design = Design::new();
    let starts_cell = |_: &Record, next: &Record| next.bit != 0;
    for bits in records.chunk_by(starts_cell) {
        design.add_cell(cell(bits));
        // The change queue would answer an equal cell with the first one.
        design.apply();
    }
    design
}

fn net(index: u32) -> Net {
    Net { index }
}

fn control(index: u32, invert: bool) -> ControlNet {
    ControlNet::from_net_invert(net(index), invert)
}

fn cell(bits: &[Record]) -> Cell {
    let value = |field: fn(&Record) -> u32| Value::from(bits.iter().map(|bit| net(field(bit))).collect::<Vec<_>>());
    let first = &bits[0];
    let [a, b, c] = [value(|bit| bit.a), value(|bit| bit.b), value(|bit| bit.c)];
    match first.kind {
        INPUT => Cell::Input(first.a.to_string(), bits.len()),
        OUTPUT => Cell::Output(first.b.to_string(), a),
        BUF => Cell::Buf(a),
        NOT => Cell::Not(a),
        AND => Cell::And(a, b),
        OR => Cell::Or(a, b),
        XOR => Cell::Xor(a, b),
        MUX => Cell::Mux(net(first.a), b, c),
        AIG => Cell::Aig(control(first.a, first.flags & 1 != 0), control(first.b, first.flags & 2 != 0)),
        other => unreachable!("kind {other} in an accepted ticket"),
    }
}

/// The records of a design without pending changes.
pub fn records(design: &Design) -> Vec<Record> {
    let mut records = vec![];
    for cell_ref in design.iter_cells() {
        assert_eq!(cell_ref.debug_index(), records.len());
        write_cell(&cell_ref.get(), &mut records);
    }
    records
}

fn write_cell(cell: &Cell, records: &mut Vec<Record>) {
    let label = |name: &String| name.parse::<u32>().unwrap();
    let mut write = |kind: u8, width: usize, fields: &dyn Fn(usize) -> [u32; 3]| {
        for bit in 0..width {
            let [a, b, c] = fields(bit);
            records.push(Record { kind, flags: 0, bit: bit as u16, a, b, c });
        }
    };
    let unary = |arg: &Value, bit: usize| [arg[bit].index, 0, 0];
    let binary = |arg1: &Value, arg2: &Value, bit: usize| [arg1[bit].index, arg2[bit].index, 0];
    match cell {
        Cell::Input(name, width) => write(INPUT, *width, &|_| [label(name), 0, 0]),
        Cell::Output(name, arg) => write(OUTPUT, arg.len(), &|bit| [arg[bit].index, label(name), 0]),
        Cell::Buf(arg) => write(BUF, arg.len(), &|bit| unary(arg, bit)),
        Cell::Not(arg) => write(NOT, arg.len(), &|bit| unary(arg, bit)),
        Cell::And(arg1, arg2) => write(AND, arg1.len(), &|bit| binary(arg1, arg2, bit)),
        Cell::Or(arg1, arg2) => write(OR, arg1.len(), &|bit| binary(arg1, arg2, bit)),
        Cell::Xor(arg1, arg2) => write(XOR, arg1.len(), &|bit| binary(arg1, arg2, bit)),
        Cell::Mux(select, arg1, arg2) => {
            write(MUX, arg1.len(), &|bit| [select.index, arg1[bit].index, arg2[bit].index])
        }
        Cell::Aig(arg1, arg2) => {
            let flags = u8::from(arg1.is_negative()) + 2 * u8::from(arg2.is_negative());
            records.push(Record { flags, ..Record::new(AIG, arg1.net().index, arg2.net().index, 0) });
        }
        other => unreachable!("{other:?} in a ticket's design"),
    }
}

pub fn compact(records: &[Record]) -> Vec<Record> {
    let mut design = design(records);
    design.compact();
    self::records(&design)
}

/// The merged records and the changed flag.
pub fn merge(records: &[Record]) -> (Vec<Record>, bool) {
    let mut design = design(records);
    let changed = crate::merge::merge(&mut design);
    (self::records(&design), changed)
}

/// A rule that never applies; it sees each cell that the rewriter adds or leaves.
struct Slots(Count<usize>);

impl RewriteRuleset for Slots {
    fn cell_added(&self, _: &Design, _: &Cell, output: &Value) {
        for net in output {
            self.0.set(self.0.get().max(ticket::slot_of(net.index).unwrap() + 1));
        }
    }
}

/// The rewritten records, and the slots taken on the way, dead ones too.
pub fn rewrite(records: &[Record]) -> (Vec<Record>, usize) {
    rewrite_with(records, &Normalize, &SimpleAigOpt)
}

pub fn rewrite_with(
    records: &[Record],
    normalize: &dyn RewriteRuleset,
    aig: &dyn RewriteRuleset,
) -> (Vec<Record>, usize) {
    let mut design = design(records);
    let slots = Slots(Count::new(records.len()));
    design.rewrite(&[normalize, aig, &slots]);
    (self::records(&design), slots.0.get())
}
