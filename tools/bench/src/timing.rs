//! Times of one call on one ticket: the library's beside the Rust's.

use std::array;
use std::hint::black_box;
use std::time::Instant;

use oracle::aig::SimpleAigOpt;
use oracle::calls::{Call, Lent, answer};
use oracle::draw::Draw;
use oracle::normalize::Normalize;
use oracle::ticket::{self, INPUT, count_kind};
use oracle::{Design, beside, merge};

use crate::library::{Bench, Calls};

/// Calls of one side before the other's turn. The first of a block find the other side's data in the cache.
pub const BLOCK: usize = 8;

/// Microseconds: the lowest, the lower quartile, the median, the upper quartile.
#[derive(Clone, Copy)]
pub struct Figure(pub [f64; 4]);

impl Figure {
    fn of(mut samples: Vec<f64>) -> Figure {
        samples.sort_by(f64::total_cmp);
        Figure(array::from_fn(|quarters| samples[(samples.len() - 1) * quarters / 4]))
    }

    /// The figures' mean, for tickets that share a row.
    fn mean(figures: &[Figure]) -> Figure {
        Figure(array::from_fn(|at| figures.iter().map(|figure| figure.0[at]).sum::<f64>() / figures.len() as f64))
    }

    /// What ratios and growth are told of: other processes stretch the others.
    pub fn lowest(&self) -> f64 {
        self.0[0]
    }

    pub fn median(&self) -> f64 {
        self.0[2]
    }

    pub fn spread(&self) -> f64 {
        let [_, low, median, high] = self.0;
        (high - low) / median
    }
}

/// Whether the Rust has this call, or only the oracle's own reading of the paper.
pub fn is_pass(call: Call) -> bool {
    !matches!(call, Call::Check | Call::Levels)
}

/// What is timed, the library first.
pub fn columns(call: Call) -> &'static [&'static str] {
    match is_pass(call) {
        true => &["library", "Rust pass", "Rust from bytes to bytes", "of it building", "of it reading back"],
        false => &["library", "oracle's reading"],
    }
}

/// One call on one ticket, with the slices lent and the times so far by column.
pub struct Trial {
    call: Call,
    ticket: Vec<u8>,
    levels: Vec<u8>,
    bench: Bench,
    samples: Vec<Vec<f64>>,
}

impl Trial {
    pub fn new(call: Call, ticket: &[u8]) -> Trial {
        let levels = levels_for(ticket);
        let bench = checked(&Calls::linked(), call, ticket, &levels);
        Trial { call, ticket: ticket.to_vec(), levels, bench, samples: vec![vec![]; columns(call).len()] }
    }

    /// A block of the library's calls, then one of the Rust's.
    pub fn round(&mut self) {
        let linked = Calls::linked();
        for _ in 0..BLOCK {
            let time = timed(|| self.bench.run(&linked, black_box(self.call)));
            self.samples[0].push(time);
        }
        for _ in 0..BLOCK {
            for (column, time) in self.samples[1..].iter_mut().zip(rust_times(self.call, &self.ticket, &self.levels)) {
                column.push(time);
            }
        }
    }

    pub fn forget(&mut self) {
        self.samples.iter_mut().for_each(Vec::clear);
    }
}

/// Levels of all three kinds, one for each input.
pub fn levels_for(ticket: &[u8]) -> Vec<u8> {
    let inputs = count_kind(&ticket::records(ticket), INPUT);
    (0..inputs).map(|input| (input % 3) as u8).collect()
}

/// What is lent to a build's call, after a first call. Ends the run if its answer is not the oracle's.
pub fn checked(calls: &Calls, call: Call, ticket: &[u8], levels: &[u8]) -> Bench {
    let lent = Lent { levels, ..Lent::AMPLE };
    let mut bench = Bench::new(ticket, lent, &mut Draw(1));
    let refusal = bench.run(calls, call);
    let fault = bench.fault(refusal, &answer(call, ticket, lent));
    assert_eq!(fault, None, "{} on a ticket of {} bytes", call.name(), ticket.len());
    bench
}

/// A figure for each column, over trials of one call.
pub fn figures(trials: &[Trial]) -> Vec<Figure> {
    let column = |at: usize| trials.iter().map(|trial| Figure::of(trial.samples[at].clone())).collect::<Vec<_>>();
    (0..trials[0].samples.len()).map(|at| Figure::mean(&column(at))).collect()
}

fn micros(from: Instant, to: Instant) -> f64 {
    (to - from).as_nanos() as f64 / 1000.0
}

pub fn timed<T>(run: impl FnOnce() -> T) -> f64 {
    let start = Instant::now();
    let result = black_box(run());
    let end = Instant::now();
    drop(result);
    micros(start, end)
}

fn rust_times(call: Call, ticket: &[u8], levels: &[u8]) -> Vec<f64> {
    match is_pass(call) {
        true => pass_times(call, ticket),
        false => vec![timed(|| answer(call, black_box(ticket), Lent { levels, ..Lent::AMPLE }))],
    }
}

/// The pass on a built design, then all from bytes to bytes, building, reading back. Freeing the design is not timed.
fn pass_times(call: Call, ticket: &[u8]) -> Vec<f64> {
    let start = Instant::now();
    let mut design = black_box(beside::design(&ticket::records(black_box(ticket))));
    let built = Instant::now();
    pass(call, &mut design);
    let passed = Instant::now();
    let reply = black_box(ticket::bytes(&beside::records(black_box(&design))));
    let end = Instant::now();
    drop(reply);
    vec![micros(built, passed), micros(start, end), micros(start, built), micros(passed, end)]
}

fn pass(call: Call, design: &mut Design) {
    match call {
        Call::Compact => _ = black_box(design.compact()),
        Call::Merge => _ = black_box(merge::merge(design)),
        _ => design.rewrite(&[&Normalize, &SimpleAigOpt]),
    }
}
