//! Compares the static library with the oracle on drawn tickets.

mod guarded;
mod library;

use std::process::ExitCode;

use library::{Bench, Calls};
use oracle::calls::{Answer, CALLS, Call, answer};
use oracle::draw::{Draw, Request};
use oracle::list::{self, ASSIGNMENTS, Case};
use oracle::{lister, ticket};

const USAGE: &str =
    "usage: compare [--request 2026-03|2026-05|2026-06] [--calls check,compact,merge,rewrite,levels] SEED COUNT";

fn main() -> ExitCode {
    let arguments: Vec<String> = std::env::args().skip(1).collect();
    let arguments: Vec<&str> = arguments.iter().map(String::as_str).collect();
    let (request, rest) = match arguments[..] {
        ["--request", name, ref rest @ ..] => (Request::from_name(name).map(Some), rest),
        ref rest => (Some(None), rest),
    };
    let linked = Calls::linked();
    let (calls, rest): (Option<Vec<Call>>, &[&str]) = match rest[..] {
        ["--calls", names, ref rest @ ..] => (names.split(',').map(Call::from_name).collect(), rest),
        ref rest => (Some(CALLS.into_iter().filter(|&call| linked.has(call)).collect()), rest),
    };
    let (Some(request), Some(calls), [seed, count]) = (request, calls, rest) else { return usage() };
    let (Ok(seed), Ok(count)) = (seed.parse(), count.parse()) else { return usage() };
    if let Some(missing) = calls.iter().find(|&&call| !linked.has(call)) {
        eprintln!("the library has no {}", missing.name());
        return ExitCode::FAILURE;
    }
    compare(&calls, request, seed, count)
}

fn usage() -> ExitCode {
    eprintln!("{USAGE}");
    ExitCode::FAILURE
}

fn compare(calls: &[Call], request: Option<Request>, seed: u64, count: u64) -> ExitCode {
    let mut draw = Draw(seed);
    let mut accepted = vec![0_u64; calls.len()];
    let mut run = vec![0_u64; calls.len()];
    for index in 0..count {
        let case = list::drawn(&mut draw, request);
        for (place, &call) in calls.iter().enumerate() {
            let assignments = if call == Call::Levels { ASSIGNMENTS } else { 1 };
            for assignment in 0..assignments {
                let Some(refusal) = agree(&case, call, assignment, &mut draw) else {
                    eprintln!("seed {seed}, ticket {index}");
                    return ExitCode::FAILURE;
                };
                run[place] += 1;
                accepted[place] += u64::from(refusal == 0);
            }
        }
    }
    print!("{count} tickets, no difference:");
    for (call, (run, accepted)) in calls.iter().zip(run.iter().zip(accepted)) {
        print!(" {} {run} ({accepted} accepted)", call.name());
    }
    println!();
    ExitCode::SUCCESS
}

/// The refusal number, if library and oracle agree on one call; else the difference is listed.
fn agree(case: &Case, call: Call, assignment: usize, draw: &mut Draw) -> Option<u32> {
    let lent = case.lent(call, assignment);
    let expected = answer(call, &case.ticket, lent);
    let mut bench = Bench::new(&case.ticket, lent, draw);
    let refusal = bench.run(&Calls::linked(), call);
    let Some(fault) = bench.fault(refusal, &expected) else { return Some(refusal) };
    let Answer { refusal: number, place, field, count, extra, ref reply } = expected;
    let figures = format!("refusal {number}, place {place}, count {count}, extra {extra}, field {field}");
    println!("{} differs: {fault}", call.name());
    println!("work {} words, reply {} bytes, levels {:?}", lent.work_words, lent.reply_bytes, lent.levels);
    println!("ticket of {} bytes\n{}", case.ticket.len(), lister::lines(&ticket::records(&case.ticket)));
    println!("oracle: {figures}\n{}", listing(call, reply));
    let got = bench.answer_words();
    let written = bench.reply().len().min(got[1] as usize);
    println!("library: refusal {refusal}, answer {got:?}\n{}", listing(call, &bench.reply()[..written]));
    None
}

fn listing(call: Call, reply: &[u8]) -> String {
    match call {
        Call::Levels => format!("{reply:?}\n"),
        _ => lister::lines(&ticket::records(reply)),
    }
}
