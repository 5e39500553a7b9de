//! The five calls with all their refusals, as the paper and request 2026-06 word them.

use crate::checking::{Refusal, check, refuse};
use crate::ticket::{self, INPUT, MOST_SLOTS, Record};
use crate::{beside, kleene};

#[derive(Clone, Copy, Debug, PartialEq, Eq)]
pub enum Call {
    Check,
    Compact,
    Merge,
    Rewrite,
    Levels,
}

pub const CALLS: [Call; 5] = [Call::Check, Call::Compact, Call::Merge, Call::Rewrite, Call::Levels];

impl Call {
    pub fn name(self) -> &'static str {
        match self {
            Call::Check => "check",
            Call::Compact => "compact",
            Call::Merge => "merge",
            Call::Rewrite => "rewrite",
            Call::Levels => "levels",
        }
    }

    pub fn from_name(name: &str) -> Option<Call> {
        CALLS.into_iter().find(|call| call.name() == name)
    }
}

/// What a call is given besides the ticket: lengths of the lent slices, and levels.
#[derive(Clone, Copy, Debug)]
pub struct Lent<'a> {
    pub work_words: usize,
    pub reply_bytes: usize,
    pub levels: &'a [u8],
}

impl Lent<'_> {
    /// Slices long enough for every ticket.
    pub const AMPLE: Lent<'static> = Lent { work_words: 16_384, reply_bytes: 16_384, levels: &[] };
}

/// What a call answers; the reply is what it writes from the reply slice's start.
#[derive(Clone, Debug, Default, PartialEq, Eq)]
pub struct Answer {
    pub refusal: u32,
    pub place: u32,
    /// The refusal's field.
    pub field: u32,
    /// Bytes of the reply; checking gives the record count.
    pub count: u32,
    /// Checking's gate count or merge's changed flag.
    pub extra: u32,
    pub reply: Vec<u8>,
}

impl From<Refusal> for Answer {
    fn from(Refusal { number, place, field }: Refusal) -> Answer {
        Answer { refusal: number, place, field, ..Answer::default() }
    }
}

pub fn answer(call: Call, ticket: &[u8], lent: Lent) -> Answer {
    accepted(call, ticket, lent).unwrap_or_else(Answer::from)
}

fn accepted(call: Call, ticket: &[u8], lent: Lent) -> Result<Answer, Refusal> {
    let records = check(ticket, lent.work_words)?;
    let (reply, extra) = match call {
        Call::Check => return Ok(checked(&records)),
        Call::Compact => (ticket::bytes(&beside::compact(&records)), false),
        Call::Merge => {
            let (merged, changed) = beside::merge(&records);
            (ticket::bytes(&merged), changed)
        }
        Call::Rewrite => (rewritten(&records)?, false),
        Call::Levels => (levels(&records, lent.levels)?, false),
    };
    if reply.len() > lent.reply_bytes {
        return refuse(12, 0);
    }
    Ok(Answer { count: reply.len() as u32, extra: extra.into(), reply, ..Answer::default() })
}

fn checked(records: &[Record]) -> Answer {
    let gates = records.iter().filter(|record| record.is_charged()).count();
    Answer { count: records.len() as u32, extra: gates as u32, ..Answer::default() }
}

fn rewritten(records: &[Record]) -> Result<Vec<u8>, Refusal> {
    let (rewritten, slots) = beside::rewrite(records);
    if slots > MOST_SLOTS {
        return refuse(9, 0);
    }
    Ok(ticket::bytes(&rewritten))
}

fn levels(records: &[Record], levels: &[u8]) -> Result<Vec<u8>, Refusal> {
    if levels.len() != ticket::count_kind(records, INPUT) {
        return refuse(10, 0);
    }
    match levels.iter().position(|&level| level > 2) {
        Some(place) => refuse(11, place),
        None => Ok(kleene::levels(records, levels)),
    }
}
