//! The fixed list: tickets, the slices and levels lent with each, and the expected answers.
//! docs/ORACLE.md has the format of each file.

use crate::calls::{Answer, Call, Lent, answer};
use crate::draw::{Draw, Request, accepted, damaged, damaged_from, requested};
use crate::ticket::{self, INPUT, MOST_RECORDS};
use crate::{arms, paper};

const SEED: u64 = 20_260_111;
const ACCEPTED: usize = 10_000;
const DAMAGED: usize = 2_000;
/// Tickets with slices of other lengths than ample ones.
const SCANT: usize = 400;
/// Tickets drawn for each request that has some.
const REQUESTED: usize = 200;
pub const ASSIGNMENTS: usize = 3;

/// A ticket with everything that is lent with it.
pub struct Case {
    pub ticket: Vec<u8>,
    pub work_words: usize,
    pub reply_bytes: usize,
    pub level_reply_bytes: usize,
    pub levels: [Vec<u8>; ASSIGNMENTS],
}

impl Case {
    fn ample(draw: &mut Draw, ticket: Vec<u8>) -> Case {
        let records = ticket::records(&ticket);
        let inputs = ticket::count_kind(&records[..records.len().min(MOST_RECORDS)], INPUT);
        let levels = std::array::from_fn(|assignment| levels(draw, inputs, assignment));
        let Lent { work_words, reply_bytes, .. } = Lent::AMPLE;
        Case { ticket, work_words, reply_bytes, level_reply_bytes: MOST_RECORDS, levels }
    }

    /// Slices about as long as needed, and benches that are short, exact or longer.
    fn scant(draw: &mut Draw, ticket: Vec<u8>) -> Case {
        let ample = Case::ample(draw, ticket);
        let short =
            |draw: &mut Draw, needed: usize| (needed + 2).saturating_sub(draw.pick(&[0, 1, 2, 2, 3, 18, 10_000]));
        let call = draw.pick(&[Call::Compact, Call::Merge, Call::Rewrite]);
        let needed = ample.answer(call).count as usize;
        let outputs = ample.answer_levels(0).count as usize;
        Case {
            work_words: draw.pick(&[16_384, 16_384, 16_384, 16_384, 16_385, 17_000, 16_383, 100, 0]),
            reply_bytes: short(draw, needed),
            level_reply_bytes: short(draw, outputs),
            ..ample
        }
    }

    pub fn lent(&self, call: Call, assignment: usize) -> Lent<'_> {
        let reply_bytes = if call == Call::Levels { self.level_reply_bytes } else { self.reply_bytes };
        Lent { work_words: self.work_words, reply_bytes, levels: &self.levels[assignment] }
    }

    pub fn answer(&self, call: Call) -> Answer {
        answer(call, &self.ticket, self.lent(call, 0))
    }

    pub fn answer_levels(&self, assignment: usize) -> Answer {
        answer(Call::Levels, &self.ticket, self.lent(Call::Levels, assignment))
    }
}

/// The first assignment is definite; the last is sometimes of the wrong number or has no level somewhere.
fn levels(draw: &mut Draw, inputs: usize, assignment: usize) -> Vec<u8> {
    let mut levels: Vec<u8> = (0..inputs).map(|_| draw.below(if assignment == 0 { 2 } else { 3 }) as u8).collect();
    if assignment + 1 < ASSIGNMENTS {
        return levels;
    }
    if inputs > 0 && draw.percent(8) {
        for _ in 0..draw.within(1, 2) {
            levels[draw.below(inputs)] = draw.pick(&[3, 4, 128, 255]);
        }
    }
    match draw.below(25) {
        0 => levels.push(draw.below(4) as u8),
        1 => drop(levels.pop()),
        _ => {}
    }
    levels
}

/// A drawn case of any sort, as the comparison uses it.
pub fn drawn(draw: &mut Draw, request: Option<Request>) -> Case {
    let is_damaged = draw.percent(20);
    let records = requested(draw, request);
    let ticket = if is_damaged { damaged_from(draw, &records) } else { ticket::bytes(&records) };
    if draw.percent(10) { Case::scant(draw, ticket) } else { Case::ample(draw, ticket) }
}

/// The paper's tickets and the arms' first, then the drawn ones.
pub fn cases() -> Vec<Case> {
    let mut draw = Draw(SEED);
    let mut tickets: Vec<Vec<u8>> = vec![vec![], vec![0; 17], ticket::bytes(&paper::inputs(513))];
    let named = paper::named().into_iter().chain(arms::named()).map(|(_, records)| records);
    let large = [paper::inputs(512), paper::ors(40, 328), paper::ors(40, 329), paper::outgrown()];
    tickets.extend(named.chain(large).map(|records| ticket::bytes(&records)));
    tickets.extend((0..ACCEPTED).map(|_| ticket::bytes(&accepted(&mut draw))));
    tickets.extend((0..DAMAGED).map(|_| damaged(&mut draw)));
    let mut cases: Vec<Case> = tickets.into_iter().map(|ticket| Case::ample(&mut draw, ticket)).collect();
    for _ in 0..SCANT {
        let ticket = ticket::bytes(&accepted(&mut draw));
        cases.push(Case::scant(&mut draw, ticket));
    }
    // Seeds of their own, so that a request adds its tickets without a change of what stands before.
    for (request, seed) in [(Request::Renumbering, SEED + 5), (Request::LooseWire, SEED + 6)] {
        let mut draw = Draw(seed);
        for _ in 0..REQUESTED {
            let ticket = ticket::bytes(&requested(&mut draw, Some(request)));
            cases.push(Case::ample(&mut draw, ticket));
        }
    }
    cases
}

/// Two sums over the bytes, each modulo 2^32.
pub fn digests(bytes: &[u8]) -> [u32; 2] {
    let step = |sum: u32, times: u32, byte: u8| sum.wrapping_mul(times).wrapping_add(u32::from(byte) + 1);
    let start = [2_166_136_261; 2];
    bytes.iter().fold(start, |[one, two], &byte| [step(one, 16_777_619, byte), step(two, 22_695_477, byte)])
}

fn put_words(file: &mut Vec<u8>, words: &[usize]) {
    words.iter().for_each(|&word| file.extend(u16::try_from(word).unwrap().to_le_bytes()));
}

/// The last word stands for an answer word that is 0 as yet.
fn put_figures(file: &mut Vec<u8>, answer: &Answer) {
    let Answer { refusal, place, count, extra, field, .. } = *answer;
    put_words(file, &[refusal, place, count, extra, field, 0].map(|word| word as usize));
}

fn put_answer(file: &mut Vec<u8>, answer: &Answer) {
    put_figures(file, answer);
    digests(&answer.reply).iter().for_each(|sum| file.extend(sum.to_le_bytes()));
}

/// The files of the list by name.
pub fn files(cases: &[Case]) -> Vec<(&'static str, Vec<u8>)> {
    let file = |put: &dyn Fn(&mut Vec<u8>, &Case)| {
        let mut file = vec![];
        cases.iter().for_each(|case| put(&mut file, case));
        file
    };
    let tickets = file(&|file, case| {
        file.extend((case.ticket.len() as u32).to_le_bytes());
        file.extend(&case.ticket);
    });
    let slices = file(&|file, case| put_words(file, &[case.work_words, case.reply_bytes, case.level_reply_bytes]));
    let stimuli = file(&|file, case| {
        for levels in &case.levels {
            put_words(file, &[levels.len()]);
            file.extend(levels);
        }
    });
    let answers = |call: Call| file(&|file, case| put_answer(file, &case.answer(call)));
    vec![
        ("tickets", tickets),
        ("slices", slices),
        ("stimuli", stimuli),
        ("check", file(&|file, case| put_figures(file, &case.answer(Call::Check)))),
        ("compact", answers(Call::Compact)),
        ("merge", answers(Call::Merge)),
        ("rewrite", answers(Call::Rewrite)),
        ("levels", file(&|file, case| (0..ASSIGNMENTS).for_each(|i| put_answer(file, &case.answer_levels(i))))),
    ]
}
