//! Compacting read once more, from module 6 of the paper and request 2026-05, beside the Rust's `compact`. A record's
//! new slot is found in two ways: by counting the kept records before it afresh, and by a tally kept while walking.

mod request;

use std::ops::Range;

use oracle::calls::{Call, Lent, answer};
use oracle::draw::{Draw, accepted};
use oracle::ticket::{self, MOST_RECORDS, MOST_SLOTS, NOT, OUTPUT, Record, cell_at, net_of, slot_of};
use oracle::{beside, paper, text};
use request::Have;

/// An accepted ticket, what is kept of it, and the tally before each slot and behind the last.
struct Compacting {
    records: Vec<Record>,
    kept: Vec<bool>,
    tallies: Vec<usize>,
}

/// Inputs, outputs and whole cells that these reach, through any bit of a kept cell.
fn kept(records: &[Record]) -> Vec<bool> {
    let mut kept = vec![false; records.len()];
    let mut reached: Vec<usize> = (0..records.len()).filter(|&slot| !records[slot].is_gate()).collect();
    while let Some(slot) = reached.pop() {
        if kept[slot] {
            continue;
        }
        for bit in cell_at(records, slot) {
            kept[bit] = true;
            reached.extend(records[bit].operands().filter_map(slot_of));
        }
    }
    kept
}

/// The walk hands out each slot once, so none can be looked at again.
fn tallies(walk: impl Iterator<Item = bool>) -> Vec<usize> {
    let mut tally = 0;
    let mut tallies = vec![tally];
    for is_kept in walk {
        tally += usize::from(is_kept);
        tallies.push(tally);
    }
    tallies
}

impl Compacting {
    fn of(records: Vec<Record>) -> Compacting {
        let kept = kept(&records);
        let tallies = tallies(kept.iter().copied());
        Compacting { records, kept, tallies }
    }

    /// The kept records before the slot, counted afresh.
    fn count(&self, slot: usize) -> usize {
        (0..slot).filter(|&before| self.kept[before]).count()
    }

    /// Each kept record at its new slot; a slot given twice or to none would leave an empty record.
    fn renumbered(&self, new_slot: impl Fn(usize) -> usize) -> Vec<Record> {
        let mut renumbered = vec![Record::default(); new_slot(self.records.len())];
        for slot in self.kept_slots() {
            let mut record = self.records[slot];
            for net in record.operands_mut() {
                *net = slot_of(*net).map_or(*net, |operand| net_of(new_slot(operand)));
            }
            renumbered[new_slot(slot)] = record;
        }
        renumbered
    }

    fn kept_slots(&self) -> impl Iterator<Item = usize> {
        (0..self.records.len()).filter(|&slot| self.kept[slot])
    }

    /// Pairs of a kept record and a record that it reads, by slot.
    fn wires(&self) -> impl Iterator<Item = (usize, usize)> {
        self.kept_slots().flat_map(|slot| {
            let operands = self.records[slot].operands().filter_map(slot_of);
            operands.map(move |operand| (slot, operand))
        })
    }

    /// Gates of more than one bit.
    fn wide_gates(&self) -> impl Iterator<Item = Range<usize>> {
        let firsts =
            (0..self.records.len()).filter(|&slot| self.records[slot].bit == 0 && self.records[slot].is_gate());
        firsts.map(|slot| cell_at(&self.records, slot)).filter(|cell| cell.len() > 1)
    }

    /// By how much a kept record's slot falls.
    fn fall(&self, slot: usize) -> usize {
        slot - self.tallies[slot]
    }

    fn some_record_moves(&self) -> bool {
        self.kept_slots().any(|slot| self.fall(slot) > 0)
    }

    fn some_operand_falls_otherwise(&self) -> bool {
        self.wires().any(|(reader, operand)| self.fall(reader) != self.fall(operand))
    }

    fn falls_by_many_amounts(&self) -> bool {
        let mut falls: Vec<usize> = self.kept_slots().map(|slot| self.fall(slot)).collect();
        // They never grow less from slot to slot.
        falls.dedup();
        falls.len() >= 4
    }

    fn reads_far_both_ways(&self) -> bool {
        let far_back = self.wires().any(|(reader, operand)| operand + 10 < reader);
        far_back && self.wires().any(|(reader, operand)| reader + 10 < operand)
    }

    fn keeps_a_wide_gate_for_one_bit(&self) -> bool {
        let is_read = |&bit: &usize| self.wires().any(|(_, operand)| operand == bit);
        self.wide_gates().any(|cell| self.kept[cell.start] && cell.filter(is_read).count() == 1)
    }

    fn drops_a_wide_gate(&self) -> bool {
        self.wide_gates().any(|cell| !self.kept[cell.start])
    }

    fn is_large(&self) -> bool {
        self.records.len() > 120
    }

    fn is_full(&self) -> bool {
        self.records.len() == MOST_RECORDS
    }

    /// Fewer records could do so too, but the rewriting of every ticket would take long.
    fn takes_all_slots(&self) -> bool {
        self.is_full() && beside::rewrite(&self.records).1 == MOST_SLOTS
    }
}

/// The compacted records, once tally and count are equal and both renumberings are the Rust's.
fn compacted(records: &[Record]) -> Vec<Record> {
    let compacting = Compacting::of(records.to_vec());
    let counts: Vec<usize> = (0..=records.len()).map(|slot| compacting.count(slot)).collect();
    assert_eq!(compacting.tallies, counts, "{records:?}");
    let compacted = beside::compact(records);
    assert_eq!(compacting.renumbered(|slot| compacting.count(slot)), compacted, "{records:?}");
    assert_eq!(compacting.renumbered(|slot| compacting.tallies[slot]), compacted, "{records:?}");
    compacted
}

fn is_accepted(records: &[Record]) -> bool {
    answer(Call::Check, &ticket::bytes(records), Lent::AMPLE).refusal == 0
}

/// A name, a ticket, and that ticket compacted.
const CORNERS: [(&str, &str, &str); 15] = [
    ("empty", "", ""),
    ("nothing kept", "4 0 0 3 0 0\n3 0 0 1 0 0\n5 0 0 2 3 0\n5 0 1 3 2 0", ""),
    (
        "all kept",
        "1 0 0 1 0 0\n4 0 0 2 0 0\n4 0 1 3 0 0\n2 0 0 4 9 0",
        "1 0 0 1 0 0\n4 0 0 2 0 0\n4 0 1 3 0 0\n2 0 0 4 9 0",
    ),
    (
        "one bit of a wide cell read, the feed of another lies before it",
        "1 0 0 1 0 0\n4 0 0 2 0 0\n4 0 0 2 0 0\n3 0 0 2 0 0\n3 0 1 4 0 0\n2 0 0 5 9 0",
        "1 0 0 1 0 0\n4 0 0 2 0 0\n3 0 0 2 0 0\n3 0 1 3 0 0\n2 0 0 4 9 0",
    ),
    (
        "the last bit of a wide cell read, the feed of the first lies behind it",
        "3 0 0 1 0 0\n5 0 0 8 X 0\n5 0 1 1 0 0\n5 0 2 X X 0\n2 0 0 5 9 0\n3 0 0 8 0 0\n4 0 0 1 0 0",
        "5 0 0 6 X 0\n5 0 1 1 0 0\n5 0 2 X X 0\n2 0 0 4 9 0\n4 0 0 1 0 0",
    ),
    (
        "a bit that reads a bit of its own cell",
        "1 0 0 1 0 0\n3 0 0 2 0 0\n4 0 0 5 0 0\n4 0 1 2 0 0\n2 0 0 4 9 0",
        "1 0 0 1 0 0\n4 0 0 4 0 0\n4 0 1 2 0 0\n2 0 0 3 9 0",
    ),
    (
        "a wide cell dropped whole beside one of its kind",
        "1 0 0 1 0 0\n7 0 0 2 0 0\n7 0 1 2 1 0\n7 0 2 3 4 0\n7 0 0 2 2 0\n7 0 1 2 X 0\n2 0 0 6 9 0",
        "1 0 0 1 0 0\n7 0 0 2 2 0\n7 0 1 2 X 0\n2 0 0 3 9 0",
    ),
    (
        "a wide input of which one bit is read",
        "3 0 0 1 0 0\n1 0 0 7 0 0\n1 0 1 7 0 0\n1 0 2 7 0 0\n2 0 0 4 9 0",
        "1 0 0 7 0 0\n1 0 1 7 0 0\n1 0 2 7 0 0\n2 0 0 3 9 0",
    ),
    ("an input that nothing reads", "3 0 0 3 0 0\n1 0 0 1 0 0\n2 0 0 0 9 0", "1 0 0 1 0 0\n2 0 0 0 9 0"),
    (
        "a wide mux kept with select and both arms",
        "4 0 0 1 0 0\n3 0 0 1 0 0\n3 0 0 0 0 0\n8 0 0 3 1 0\n8 0 1 3 4 2\n2 0 0 5 9 0\n8 0 0 3 4 2",
        "4 0 0 1 0 0\n3 0 0 1 0 0\n3 0 0 0 0 0\n8 0 0 3 1 0\n8 0 1 3 4 2\n2 0 0 5 9 0",
    ),
    (
        "forward references",
        "2 0 0 4 9 0\n4 0 0 6 0 0\n4 0 0 6 0 0\n3 0 0 3 0 0\n1 0 0 1 0 0",
        "2 0 0 3 9 0\n4 0 0 4 0 0\n1 0 0 1 0 0",
    ),
    (
        "dropped first, in between and last",
        "4 0 0 3 0 0\n1 0 0 1 0 0\n5 0 0 3 0 0\n7 0 0 3 1 0\n8 0 0 3 5 0\n6 0 0 6 5 0\n2 0 0 5 9 0\n4 0 0 5 0 0",
        "1 0 0 1 0 0\n7 0 0 2 1 0\n2 0 0 3 9 0",
    ),
    (
        "dropped ones that read each other and kept ones",
        "3 0 0 3 0 0\n4 0 0 4 0 0\n1 0 0 1 0 0\n6 0 0 2 3 0\n2 0 0 4 9 0",
        "1 0 0 1 0 0\n2 0 0 2 9 0",
    ),
    (
        "constants, labels and flags stay",
        "4 0 0 X 0 0\n1 0 0 3 0 0\n2 0 0 0 4 0\n2 0 0 1 3 0\n2 0 0 X 2 0\n9 3 0 1 3 0\n2 0 0 7 7 0\n9 1 0 7 X 0\n2 0 0 9 6 0",
        "1 0 0 3 0 0\n2 0 0 0 4 0\n2 0 0 1 3 0\n2 0 0 X 2 0\n9 3 0 1 2 0\n2 0 0 6 7 0\n9 1 0 6 X 0\n2 0 0 8 6 0",
    ),
    (
        "two readers of one record, either side of it",
        "2 0 0 5 8 0\n3 0 0 1 0 0\n3 0 0 1 0 0\n9 2 0 7 7 0\n3 0 0 5 0 0\n1 0 0 1 0 0\n2 0 0 5 9 0",
        "2 0 0 3 8 0\n9 2 0 4 4 0\n1 0 0 1 0 0\n2 0 0 3 9 0",
    ),
];

#[test]
fn corners() {
    for (name, ticket, expected) in CORNERS {
        let records = text::records(ticket);
        assert!(is_accepted(&records), "{name}");
        assert_eq!(compacted(&records), text::records(expected), "{name}");
    }
}

#[test]
fn the_papers_tickets() {
    let named = paper::named().into_iter().map(|(_, records)| records).filter(|records| is_accepted(records));
    let lengths: Vec<usize> = named.map(|records| compacted(&records).len()).collect();
    // T2 to T8, T8 with a further output, T10 of one, T11's two and T12, of which only the input is kept.
    assert_eq!(lengths, [4, 4, 2, 4, 9, 9, 3, 5, 1, 2, 2, 1]);
    assert_eq!(compacted(&paper::ors(40, 328)), paper::inputs(40));
    assert_eq!(compacted(&paper::outgrown()), paper::outgrown());
}

/// 512 inputs, but for those that are not kept a gate that nothing reads.
fn full(is_kept: fn(&usize) -> bool) -> Vec<Record> {
    let mut records = paper::inputs(512);
    (0..512).filter(|slot| !is_kept(slot)).for_each(|slot| records[slot] = Record::new(NOT, 1, 0, 0));
    records
}

#[test]
fn full_tickets() {
    let length = |is_kept| compacted(&full(is_kept)).len();
    assert_eq!(length(|_| false), 0);
    assert_eq!(length(|&slot| slot == 0), 1);
    assert_eq!(length(|&slot| slot == 511), 1);
    assert_eq!(length(|&slot| slot % 2 == 1), 256);
    assert_eq!(length(|&slot| slot > 0), 511);
    assert_eq!(length(|_| true), 512);
}

/// 254 dropped records lie between each output and what it reads.
#[test]
fn operands_at_the_other_end() {
    let mut records = full(|slot| slot % 2 == 1);
    records[0] = Record::new(OUTPUT, net_of(510), 8, 0);
    records[510] = Record::new(NOT, net_of(509), 0, 0);
    records[511] = Record::new(OUTPUT, net_of(1), 9, 0);
    let compacted = compacted(&records);
    assert_eq!(compacted.len(), 258);
    assert_eq!(compacted[0].a, net_of(256));
    assert_eq!(compacted[255], records[509]);
    assert_eq!(compacted[256].a, net_of(255));
    assert_eq!(compacted[257].a, net_of(1));
}

#[test]
fn drawn_tickets() {
    let mut draw = Draw(5);
    for _ in 0..3000 {
        compacted(&accepted(&mut draw));
    }
}

fn drawn_for_the_request(seed: u64) -> Vec<Vec<Record>> {
    request::drawn("2026-05", seed, 3000)
}

#[test]
fn tickets_drawn_for_the_request() {
    for records in drawn_for_the_request(6) {
        compacted(&records);
    }
}

/// Merging and rewriting compact at their end, so nothing is left to drop; results of over 512 records are among these.
#[test]
fn results_stay_as_they_are() {
    for records in drawn_for_the_request(7).iter().take(1000) {
        for result in [beside::merge(records).0, beside::rewrite(records).0] {
            assert_eq!(compacted(&result), result);
        }
    }
}

/// How many of 3,000 tickets drawn for the request have what they are drawn for.
const HAVE: [Have<Compacting>; 9] = [
    ("some record moves", Compacting::some_record_moves, 2850..=3000),
    ("some operand falls otherwise than its reader", Compacting::some_operand_falls_otherwise, 2700..=3000),
    ("falls by four amounts or more", Compacting::falls_by_many_amounts, 1500..=3000),
    ("reads over ten slots off both ways", Compacting::reads_far_both_ways, 700..=3000),
    ("keeps a wide gate for one bit", Compacting::keeps_a_wide_gate_for_one_bit, 500..=3000),
    ("drops a wide gate", Compacting::drops_a_wide_gate, 600..=3000),
    ("over 120 records", Compacting::is_large, 120..=210),
    ("512 records", Compacting::is_full, 50..=130),
    ("1,024 slots in rewriting", Compacting::takes_all_slots, 15..=60),
];

#[test]
fn the_draw_has_what_the_request_is_about() {
    let tickets = drawn_for_the_request(8);
    assert!(tickets.iter().all(|records| is_accepted(records)));
    let tickets: Vec<Compacting> = tickets.into_iter().map(Compacting::of).collect();
    request::assert_have(&tickets, &HAVE);
    let repeats = tickets.iter().filter(|compacting| !ticket::has_separate_labels(&compacting.records)).count();
    assert!(repeats <= 60, "{repeats}");
}
