//! Refusals 1 to 8, read from the paper and request 2026-06.

use crate::ticket::*;

pub const WORK_WORDS: usize = 16_384;

#[derive(Clone, Copy, Debug, PartialEq, Eq)]
pub struct Refusal {
    pub number: u32,
    pub place: u32,
    /// With 7 the first field whose operand is loose: 1 for a, 2 for b, 3 for c. Otherwise 0.
    pub field: u32,
}

pub fn refuse<T>(number: u32, place: usize) -> Result<T, Refusal> {
    refuse_field(number, place, 0)
}

fn refuse_field<T>(number: u32, place: usize, field: u32) -> Result<T, Refusal> {
    Err(Refusal { number, place: place as u32, field })
}

/// The records of a ticket that checking accepts.
pub fn check(ticket: &[u8], work_words: usize) -> Result<Vec<Record>, Refusal> {
    if work_words < WORK_WORDS {
        return refuse(1, 0);
    }
    if !ticket.len().is_multiple_of(RECORD_BYTES) {
        return refuse(2, 0);
    }
    if ticket.len() / RECORD_BYTES > MOST_RECORDS {
        return refuse(3, 0);
    }
    let records = records(ticket);
    for place in 0..records.len() {
        check_record(&records, place)?;
    }
    match lowest_on_loop(&records) {
        Some(place) => refuse(8, place),
        None => Ok(records),
    }
}

/// The lowest of refusals 4 to 7 that one record meets.
fn check_record(records: &[Record], place: usize) -> Result<(), Refusal> {
    let record = &records[place];
    if !(INPUT..=AIG).contains(&record.kind) {
        refuse(4, place)
    } else if is_spoilt(record) {
        refuse(5, place)
    } else if is_broken_bus(records, place) {
        refuse(6, place)
    } else if let Some(field) = loose_field(records, record) {
        refuse_field(7, place, field)
    } else {
        Ok(())
    }
}

fn is_spoilt(record: &Record) -> bool {
    // A label takes one field beside the operands.
    let labels = usize::from(!record.is_gate());
    let used = record.operand_count() + labels;
    let flags = if record.kind == AIG { 3 } else { 0 };
    record.flags & !flags != 0 || [record.a, record.b, record.c][used..].iter().any(|&field| field != 0)
}

fn is_broken_bus(records: &[Record], place: usize) -> bool {
    let record = &records[place];
    if record.bit == 0 {
        return false;
    }
    if matches!(record.kind, OUTPUT | AIG) {
        return true;
    }
    let Some(before) = place.checked_sub(1).map(|place| &records[place]) else {
        return true;
    };
    // Field a is an input's label and a mux's select.
    let shares_a = matches!(record.kind, INPUT | MUX);
    before.kind != record.kind || before.bit != record.bit - 1 || (shares_a && before.a != record.a)
}

/// The first field whose operand is loose.
fn loose_field(records: &[Record], record: &Record) -> Option<u32> {
    (1..).zip(record.operands()).find(|&(_, net)| is_loose(records, net)).map(|(field, _)| field)
}

fn is_loose(records: &[Record], net: u32) -> bool {
    match slot_of(net) {
        None => false,
        Some(slot) => records.get(slot).is_none_or(|record| record.kind == OUTPUT),
    }
}

/// The lowest record from which a path of one operand or more leads back to it.
fn lowest_on_loop(records: &[Record]) -> Option<usize> {
    if is_loop_free(records) {
        return None;
    }
    (0..records.len()).find(|&place| reaches(records, place, place))
}

/// Takes away records all of whose operands are gone; on a loop nothing can go first.
fn is_loop_free(records: &[Record]) -> bool {
    let sources = |record: &Record| record.operands().filter_map(slot_of).collect::<Vec<_>>();
    let mut readers = vec![vec![]; records.len()];
    let mut waiting = vec![0; records.len()];
    for (place, record) in records.iter().enumerate() {
        for source in sources(record) {
            readers[source].push(place);
            waiting[place] += 1;
        }
    }
    let mut ready: Vec<usize> = (0..records.len()).filter(|&place| waiting[place] == 0).collect();
    let mut gone = 0;
    while let Some(place) = ready.pop() {
        gone += 1;
        for &reader in &readers[place] {
            waiting[reader] -= 1;
            if waiting[reader] == 0 {
                ready.push(reader);
            }
        }
    }
    gone == records.len()
}

fn reaches(records: &[Record], from: usize, to: usize) -> bool {
    let mut seen = vec![false; records.len()];
    let mut open = vec![from];
    while let Some(place) = open.pop() {
        for source in records[place].operands().filter_map(slot_of) {
            if source == to {
                return true;
            }
            if !seen[source] {
                seen[source] = true;
                open.push(source);
            }
        }
    }
    false
}
