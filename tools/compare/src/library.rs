//! The library's calls, each with guarded slices.

use oracle::calls::{Answer, Call, Lent};
use oracle::checking::WORK_WORDS;
use oracle::draw::Draw;

use crate::guarded::Guarded;

type CheckCall = unsafe extern "C" fn(*const u8, usize, *mut u32, usize, *mut u32) -> u32;
type TicketCall = unsafe extern "C" fn(*const u8, usize, *mut u32, usize, *mut u8, usize, *mut u32) -> u32;
type LevelsCall =
    unsafe extern "C" fn(*const u8, usize, *const u8, usize, *mut u32, usize, *mut u8, usize, *mut u32) -> u32;

mod bound {
    use super::{CheckCall, LevelsCall, TicketCall};
    include!(concat!(env!("OUT_DIR"), "/library.rs"));
}

/// The calls that a build of the library has.
#[derive(Clone, Copy)]
pub struct Calls {
    pub check: Option<CheckCall>,
    pub levels: Option<LevelsCall>,
    pub compact: Option<TicketCall>,
    pub merge: Option<TicketCall>,
    pub rewrite: Option<TicketCall>,
}

impl Calls {
    /// Those of the build that this program is linked with.
    pub fn linked() -> Calls {
        Calls {
            check: bound::check(),
            levels: bound::levels(),
            compact: bound::compact(),
            merge: bound::merge(),
            rewrite: bound::rewrite(),
        }
    }

    pub fn has(&self, call: Call) -> bool {
        match call {
            Call::Check => self.check.is_some(),
            Call::Levels => self.levels.is_some(),
            _ => self.ticket_call(call).is_some(),
        }
    }

    fn ticket_call(&self, call: Call) -> Option<TicketCall> {
        match call {
            Call::Compact => self.compact,
            Call::Merge => self.merge,
            _ => self.rewrite,
        }
    }
}

/// Everything lent to one call.
pub struct Bench {
    ticket: Guarded<u8>,
    levels: Guarded<u8>,
    work: Guarded<u32>,
    reply: Guarded<u8>,
    answer: Guarded<u32>,
}

impl Bench {
    /// Slices of the lent lengths; work, reply and answer hold anything.
    pub fn new(ticket: &[u8], lent: Lent, draw: &mut Draw) -> Bench {
        let byte: fn(u64) -> u8 = |number| number as u8;
        let word: fn(u64) -> u32 = |number| number as u32;
        let litter = draw.number() | 0x0101_0101;
        let work = vec![litter as u32; lent.work_words];
        let reply: Vec<u8> = (0..lent.reply_bytes).map(|place| (litter >> (place % 32)) as u8).collect();
        Bench {
            ticket: Guarded::new(ticket, draw, byte),
            levels: Guarded::new(lent.levels, draw, byte),
            work: Guarded::new(&work, draw, word),
            reply: Guarded::new(&reply, draw, byte),
            answer: Guarded::new(&[litter as u32; 8], draw, word),
        }
    }

    /// The number that a build's call returns.
    pub fn run(&mut self, calls: &Calls, call: Call) -> u32 {
        let Bench { ticket, levels, work, reply, answer } = self;
        let (ticket_len, levels_len, work_len, reply_len) = (ticket.len(), levels.len(), work.len(), reply.len());
        let (ticket, levels, work) = (ticket.pointer(), levels.pointer(), work.pointer());
        let (reply, answer) = (reply.pointer(), answer.pointer());
        // SAFETY: each pointer is followed by its length, and no two slices overlap.
        unsafe {
            match call {
                Call::Check => calls.check.unwrap()(ticket, ticket_len, work, work_len, answer),
                Call::Levels => calls.levels.unwrap()(
                    ticket, ticket_len, levels, levels_len, work, work_len, reply, reply_len, answer,
                ),
                _ => calls.ticket_call(call).unwrap()(ticket, ticket_len, work, work_len, reply, reply_len, answer),
            }
        }
    }

    /// The first way in which the call went wrong.
    pub fn fault(&self, refusal: u32, expected: &Answer) -> Option<&'static str> {
        let Answer { place, count, extra, field, reply, .. } = expected;
        let wiped = if self.work.len() < WORK_WORDS { 0 } else { WORK_WORDS };
        let tests = [
            (refusal == expected.refusal, "refusal number"),
            (self.answer.content() == [*place, *count, *extra, *field, 0, 0, 0, 0], "answer words"),
            (self.answer.is_kept_behind(8), "bytes around the answer"),
            (self.reply.content().starts_with(reply), "reply bytes"),
            (self.reply.is_kept_behind(reply.len()), "bytes around or behind the reply"),
            (self.work.content()[..wiped].iter().all(|&word| word == 0), "work slice not wiped"),
            (self.work.is_kept_behind(wiped), "words around or behind the work slice"),
            (self.ticket.is_kept_behind(0), "the ticket or bytes around it"),
            (self.levels.is_kept_behind(0), "the levels or bytes around them"),
        ];
        tests.into_iter().find(|(holds, _)| !holds).map(|(_, fault)| fault)
    }

    pub fn answer_words(&self) -> &[u32] {
        self.answer.content()
    }

    pub fn reply(&self) -> &[u8] {
        self.reply.content()
    }
}
