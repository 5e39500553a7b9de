//! Request 2026-06 read once more, over a ticket's bytes, beside `checking`: which field is loose, in every call.

mod request;

use oracle::calls::{Answer, CALLS, Call, Lent, answer};
use oracle::checking::{Refusal, check};
use oracle::draw::{Draw, Request};
use oracle::list::{self, ASSIGNMENTS};
use oracle::lister::{self, MOST_READ};
use oracle::ticket::{self, INPUT, Record};
use oracle::{paper, text};
use request::Have;

/// Of a kind: the fields that are nets, those that are labels, and the flags.
type Row = (&'static [usize], &'static [usize], u64);

/// The paper's table, from kind 1 on. Fields 1, 2 and 3 are a, b and c.
const KINDS: [Row; 9] = [
    (&[], &[1], 0),
    (&[1], &[2], 0),
    (&[1], &[], 0),
    (&[1], &[], 0),
    (&[1, 2], &[], 0),
    (&[1, 2], &[], 0),
    (&[1, 2], &[], 0),
    (&[1, 2, 3], &[], 0),
    (&[1, 2], &[], 3),
];

/// A ticket of whole records.
#[derive(Clone, Copy)]
struct Bytes<'a>(&'a [u8]);

impl Bytes<'_> {
    fn records(self) -> usize {
        self.0.len() / 16
    }

    fn number(self, slot: usize, byte: usize, bytes: usize) -> u64 {
        let record = &self.0[16 * slot..16 * slot + 16];
        record[byte..byte + bytes].iter().rev().fold(0, |number, &byte| 256 * number + u64::from(byte))
    }

    fn kind(self, slot: usize) -> u64 {
        self.number(slot, 0, 1)
    }

    fn bit(self, slot: usize) -> u64 {
        self.number(slot, 2, 2)
    }

    fn field(self, slot: usize, field: usize) -> u64 {
        self.number(slot, 4 * field, 4)
    }

    fn row(self, slot: usize) -> Option<Row> {
        let kind = self.kind(slot) as usize;
        KINDS.get(kind.checked_sub(1)?).copied()
    }

    fn is_spoilt(self, slot: usize, (nets, labels, flags): Row) -> bool {
        let unused = (1..=3).filter(|field| !nets.contains(field) && !labels.contains(field));
        // Flags are none or all of the lowest.
        self.number(slot, 1, 1) > flags || unused.into_iter().any(|field| self.field(slot, field) != 0)
    }

    fn is_broken(self, slot: usize) -> bool {
        let (kind, bit) = (self.kind(slot), self.bit(slot));
        let follows = |before: usize| {
            let shares_a = !matches!(kind, 1 | 8) || self.field(before, 1) == self.field(slot, 1);
            self.kind(before) == kind && self.bit(before) + 1 == bit && shares_a
        };
        bit != 0 && (matches!(kind, 2 | 9) || slot == 0 || !follows(slot - 1))
    }

    fn is_loose(self, slot: usize, field: usize) -> bool {
        match self.field(slot, field) {
            0 | 1 | 4_294_967_295 => false,
            net => net >= self.records() as u64 + 2 || self.kind(net as usize - 2) == 2,
        }
    }

    /// The fields for which a test holds, among those that are nets.
    fn fields(self, slot: usize, holds: impl Fn(usize) -> bool) -> Vec<usize> {
        let nets = self.row(slot).map_or(&[][..], |(nets, ..)| nets);
        nets.iter().copied().filter(|&field| holds(field)).collect()
    }

    fn loose_fields(self, slot: usize) -> Vec<usize> {
        self.fields(slot, |field| self.is_loose(slot, field))
    }

    fn is_own(self, slot: usize, field: usize) -> bool {
        self.field(slot, field) == slot as u64 + 2
    }

    /// Number and field of the lowest of refusals 4 to 7 that a record meets.
    fn fault(self, slot: usize) -> Option<(u32, usize)> {
        let Some(row) = self.row(slot) else { return Some((4, 0)) };
        if self.is_spoilt(slot, row) {
            return Some((5, 0));
        }
        if self.is_broken(slot) {
            return Some((6, 0));
        }
        self.loose_fields(slot).first().map(|&field| (7, field))
    }
}

/// The first of refusals 1 to 7 that a ticket meets.
fn refusal(ticket: &[u8], work_words: usize) -> Option<Refusal> {
    let whole = |number: u32| Some(Refusal { number, place: 0, field: 0 });
    if work_words < 16_384 {
        return whole(1);
    }
    if !ticket.len().is_multiple_of(16) {
        return whole(2);
    }
    if ticket.len() > 16 * 512 {
        return whole(3);
    }
    (0..ticket.len() / 16).find_map(|slot| {
        let (number, field) = Bytes(ticket).fault(slot)?;
        Some(Refusal { number, place: slot as u32, field: field as u32 })
    })
}

fn lines(ticket: &[u8]) -> String {
    lister::lines(&ticket::records(ticket))
}

/// A call answers by the refusal read here; where there is none, by another number and without a field.
fn compare(call: Call, ticket: &[u8], lent: Lent) {
    let answered = answer(call, ticket, lent);
    match refusal(ticket, lent.work_words) {
        Some(Refusal { number, place, field }) => {
            let expected = Answer { refusal: number, place, field, ..Answer::default() };
            assert_eq!(answered, expected, "{}", lines(ticket));
        }
        None => {
            assert!(!(1..=7).contains(&answered.refusal) && answered.field == 0, "{answered:?}\n{}", lines(ticket));
        }
    }
}

fn compare_list(ticket: &[u8]) {
    let listed = lister::list(ticket);
    match refusal(&ticket[..ticket.len().min(MOST_READ)], 16_384) {
        Some(Refusal { number: 7, place, field }) => assert_eq!(listed, format!("refused 7 {place} {field}\n")),
        Some(Refusal { number, place, .. }) => assert_eq!(listed, format!("refused {number} {place}\n")),
        None => {
            let figures = listed.strip_prefix("refused ");
            assert!(figures.is_none_or(|figures| figures.split(' ').count() == 2), "{listed}");
        }
    }
}

/// Number, place and field of checking, once the five calls and the lister answer as is read here.
fn compared(ticket: &[u8]) -> [u32; 3] {
    let levels = vec![2; ticket::count_kind(&ticket::records(ticket), INPUT)];
    for call in CALLS {
        compare(call, ticket, Lent { levels: &levels, ..Lent::AMPLE });
    }
    compare_list(ticket);
    let checked = check(ticket, 16_384).err();
    assert_eq!(checked.filter(|refusal| refusal.number != 8), refusal(ticket, 16_384));
    checked.map_or([0; 3], |Refusal { number, place, field }| [number, place, field])
}

/// A name, a ticket, and number, place and field.
const CORNERS: [(&str, &str, [u32; 3]); 12] = [
    ("select of a wide mux", "1 0 0 1 0 0\n8 0 0 5 2 2\n8 0 1 5 2 2", [7, 1, 1]),
    ("select of a wide mux, and arms of bit 1", "1 0 0 1 0 0\n8 0 0 5 2 2\n8 0 1 5 5 5", [7, 1, 1]),
    ("select in bit 0 alone", "1 0 0 1 0 0\n8 0 0 5 2 2\n8 0 1 2 2 2", [7, 1, 1]),
    ("select in bit 1 alone", "1 0 0 1 0 0\n8 0 0 2 2 2\n8 0 1 5 2 2", [6, 2, 0]),
    ("arm of bit 1", "1 0 0 1 0 0\n8 0 0 2 2 2\n8 0 1 2 5 2", [7, 2, 2]),
    ("arms of both bits, the later field first", "1 0 0 1 0 0\n8 0 0 2 2 5\n8 0 1 2 5 2", [7, 1, 3]),
    ("bit 1 of a wide xor", "7 0 0 1 0 0\n7 0 1 X 4 0", [7, 1, 2]),
    ("reader of a loose record", "3 0 0 3 0 0\n5 0 0 1 4 0", [7, 1, 2]),
    ("output behind, spoilt", "8 0 0 1 3 0\n2 1 0 1 9 0", [7, 0, 2]),
    ("unknown kind behind, read", "8 0 0 1 3 0\n77 0 0 0 0 0", [4, 1, 0]),
    ("loop before", "3 0 0 3 0 0\n3 0 0 2 0 0\n9 3 0 2 5 0", [7, 2, 2]),
    ("loop alone", "8 0 0 0 1 2", [8, 0, 0]),
];

#[test]
fn corners() {
    for (name, lines, expected) in CORNERS {
        assert_eq!(compared(&ticket::bytes(&text::records(lines))), expected, "{name}");
    }
}

/// Between an input and an output every kind with every three of these nets: constants, the input's, the record's own,
/// the output's, two past the last, and the last that is no constant.
#[test]
fn every_kind_with_every_operand() {
    const NETS: [u32; 9] = [0, 1, 4_294_967_295, 2, 3, 4, 5, 6, 4_294_967_294];
    const LOOSE: [u32; 4] = [4, 5, 6, 4_294_967_294];
    for kind in 1..=9 {
        for fields in (0..9 * 9 * 9).map(|n| [n / 81, n / 9 % 9, n % 9].map(|place| NETS[place])) {
            let [a, b, c] = fields;
            let records = [Record::new(1, 4, 0, 0), Record::new(kind, a, b, c), Record::new(2, 2, 5, 0)];
            let [number, place, field] = compared(&ticket::bytes(&records));
            let (nets, labels, _) = KINDS[kind as usize - 1];
            let is_spoilt = fields[nets.len() + labels.len()..].iter().any(|&net| net != 0);
            let is_loose = |net: &u32| LOOSE.contains(net) || kind == 2 && *net == 3;
            let expected = match fields[..nets.len()].iter().position(is_loose) {
                _ if is_spoilt => [5, 1, 0],
                Some(place) => [7, 1, place as u32 + 1],
                None if fields[..nets.len()].contains(&3) => [8, 1, 0],
                None => [0; 3],
            };
            assert_eq!([number, place, field], expected, "{kind} {fields:?}");
        }
    }
}

#[test]
fn the_papers_tickets() {
    for (name, records) in paper::named() {
        let expected = match name.as_str() {
            "T9" => [8, 0, 0],
            "T10" => [7, 0, 1],
            _ if name.starts_with("T15") => [5, 0, 0],
            _ => [0; 3],
        };
        assert_eq!(compared(&ticket::bytes(&records)), expected, "{name}");
    }
    for records in [paper::inputs(512), paper::ors(40, 328), paper::ors(40, 329), paper::outgrown()] {
        assert_eq!(compared(&ticket::bytes(&records)), [0; 3]);
    }
    assert_eq!(compared(&ticket::bytes(&paper::inputs(513))), [3, 0, 0]);
    assert_eq!(compared(&[0; 17]), [2, 0, 0]);
}

const REQUEST: &str = "2026-06";
const DRAWN: usize = 5000;

fn drawn_for_the_request(seed: u64) -> Vec<Vec<u8>> {
    request::drawn(REQUEST, seed, DRAWN).iter().map(|records| ticket::bytes(records)).collect()
}

#[test]
fn tickets_drawn_for_the_request() {
    for ticket in drawn_for_the_request(9) {
        compared(&ticket);
    }
}

/// As the comparison draws them: some damaged, some with scant slices, so that other refusals than checking's come too.
#[test]
fn cases_drawn_for_the_request() {
    let mut draw = Draw(10);
    for _ in 0..DRAWN {
        let case = list::drawn(&mut draw, Request::from_name(REQUEST));
        for call in CALLS {
            (0..ASSIGNMENTS).for_each(|assignment| compare(call, &case.ticket, case.lent(call, assignment)));
        }
    }
}

/// A drawn ticket with number, place and field of checking.
struct Drawn {
    ticket: Vec<u8>,
    figures: [u32; 3],
}

impl Drawn {
    fn bytes(&self) -> Bytes<'_> {
        Bytes(&self.ticket)
    }

    fn some_record(&self, holds: impl Fn(usize) -> bool) -> bool {
        (0..self.bytes().records()).any(holds)
    }

    fn is_loose(&self, slot: usize) -> bool {
        !self.bytes().loose_fields(slot).is_empty()
    }

    fn is_refused(&self, number: u32) -> bool {
        self.figures[0] == number
    }

    /// Whether a test holds of slot and field of a loose wire.
    fn names(&self, holds: impl Fn(usize, usize) -> bool) -> bool {
        let [number, place, field] = self.figures;
        number == 7 && holds(place as usize, field as usize)
    }

    fn names_field(&self, field: usize) -> bool {
        self.names(|_, named| named == field)
    }

    fn names_one_of(&self, fields: usize) -> bool {
        self.names(|slot, _| self.bytes().loose_fields(slot).len() == fields)
    }

    fn names_a_wide_select(&self) -> bool {
        let bytes = self.bytes();
        let has_bit_1 = |slot: usize| slot + 1 < bytes.records() && bytes.bit(slot + 1) == 1;
        self.names(|slot, field| bytes.kind(slot) == 8 && field == 1 && has_bit_1(slot))
    }

    fn names_an_output(&self) -> bool {
        self.names(|slot, field| self.bytes().field(slot, field) < self.bytes().records() as u64 + 2)
    }

    fn names_its_own_net(&self) -> bool {
        self.names(|slot, field| self.bytes().is_own(slot, field))
    }

    fn names_the_net_past_the_last(&self) -> bool {
        self.names(|slot, field| self.bytes().field(slot, field) == self.bytes().records() as u64 + 2)
    }

    fn names_the_greatest_net(&self) -> bool {
        self.names(|slot, field| self.bytes().field(slot, field) == 4_294_967_294)
    }

    fn stands_before_loose_records(&self) -> bool {
        self.names(|named, _| self.some_record(|slot| slot > named && self.is_loose(slot)))
    }

    fn stands_before_another_fault(&self) -> bool {
        let has_another = |slot: usize| self.bytes().fault(slot).is_some_and(|(number, _)| number != 7);
        self.is_refused(7) && self.some_record(has_another)
    }

    fn stands_beside_a_loop(&self) -> bool {
        let bytes = self.bytes();
        let is_loop = |slot: usize| bytes.kind(slot) != 2 && !bytes.fields(slot, |f| bytes.is_own(slot, f)).is_empty();
        self.is_refused(7) && self.some_record(is_loop)
    }

    fn stands_behind_another_fault(&self) -> bool {
        (4..=6).contains(&self.figures[0]) && self.some_record(|slot| self.is_loose(slot))
    }
}

/// How many of 5,000 tickets drawn for the request have what they are drawn for.
const HAVE: [Have<Drawn>; 21] = [
    ("7", |drawn| drawn.is_refused(7), 2750..=3750),
    ("7 in field 1", |drawn| drawn.names_field(1), 600..=2000),
    ("7 in field 2", |drawn| drawn.names_field(2), 600..=2000),
    ("7 in field 3", |drawn| drawn.names_field(3), 600..=2000),
    ("7 at a record with one loose field", |drawn| drawn.names_one_of(1), 1500..=3000),
    ("7 at a record with two", |drawn| drawn.names_one_of(2), 600..=2000),
    ("7 at a record with three", |drawn| drawn.names_one_of(3), 100..=1000),
    ("7 at the select of a wide mux", Drawn::names_a_wide_select, 250..=1000),
    ("7 for an output's net", Drawn::names_an_output, 1000..=2500),
    ("7 for an output's own net", Drawn::names_its_own_net, 25..=250),
    ("7 for the net past the last", Drawn::names_the_net_past_the_last, 400..=1500),
    ("7 for net 4,294,967,294", Drawn::names_the_greatest_net, 200..=1000),
    ("7 before loose records", Drawn::stands_before_loose_records, 1000..=3000),
    ("7 before another fault", Drawn::stands_before_another_fault, 300..=1000),
    ("7 beside a loop", Drawn::stands_beside_a_loop, 100..=1000),
    ("4 to 6 before a loose record or in it", Drawn::stands_behind_another_fault, 300..=1000),
    ("4", |drawn| drawn.is_refused(4), 100..=500),
    ("5", |drawn| drawn.is_refused(5), 100..=500),
    ("6", |drawn| drawn.is_refused(6), 100..=500),
    ("8", |drawn| drawn.is_refused(8), 25..=250),
    ("accepted", |drawn| drawn.is_refused(0), 300..=1000),
];

#[test]
fn the_draw_has_what_the_request_is_about() {
    let drawn = |ticket: Vec<u8>| {
        let checked = answer(Call::Check, &ticket, Lent::AMPLE);
        Drawn { ticket, figures: [checked.refusal, checked.place, checked.field] }
    };
    let tickets: Vec<Drawn> = drawn_for_the_request(11).into_iter().map(drawn).collect();
    request::assert_have(&tickets, &HAVE);
}
