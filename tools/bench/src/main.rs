//! Times the static library's calls beside the Rust's passes, or several builds of the library beside each other, and
//! prints tables for docs/BENCH.md.

mod builds;
mod cases;
#[path = "../../compare/src/guarded.rs"]
mod guarded;
// What the comparison alone needs is not called here.
#[allow(dead_code)]
#[path = "../../compare/src/library.rs"]
mod library;
mod table;
mod timing;

use std::process::ExitCode;
use std::thread::available_parallelism;
use std::{env, fs};

use oracle::calls::{CALLS, Call};

use builds::Build;
use cases::Case;
use library::Calls;
use table::Row;
use timing::{BLOCK, Trial};

const ROUNDS: usize = 25;

const USAGE: &str = "usage: bench [ROUNDS], or bench --builds ROUNDS NAME=LIBRARY,.. ..";

fn main() -> ExitCode {
    let arguments: Vec<String> = env::args().skip(1).collect();
    let arguments: Vec<&str> = arguments.iter().map(String::as_str).collect();
    let (builds, digits) = match arguments[..] {
        ["--builds", digits, ref named @ ..] => (named.iter().map(|name| Build::open(name)).collect(), Some(digits)),
        [digits] => (Some(vec![]), Some(digits)),
        [] => (Some(vec![]), None),
        _ => (None, None),
    };
    let rounds = digits.map_or(Ok(ROUNDS), str::parse);
    let (Some(builds), Some(rounds)) = (builds, rounds.ok().filter(|&rounds| rounds > 0)) else {
        eprintln!("{USAGE}");
        return ExitCode::FAILURE;
    };
    let before = load();
    let tables: Box<dyn FnOnce()> = match builds.is_empty() {
        true => beside_the_rust(rounds),
        false => builds::timed(&builds, rounds),
    };
    println!("{} calls behind each time. {}, {} cores.", rounds * BLOCK, processor(), cores());
    println!("Processes that shared the cores, by the load: {before} before, {} after, this run among them.", load());
    tables();
    ExitCode::SUCCESS
}

/// What prints the tables of the library beside the Rust.
fn beside_the_rust(rounds: usize) -> Box<dyn FnOnce()> {
    let calls: Vec<Call> = CALLS.into_iter().filter(|&call| Calls::linked().has(call)).collect();
    let rows = rows(&calls, rounds);
    Box::new(move || {
        calls.iter().for_each(|&call| table::call_table(&rows, call));
        if calls.len() > 1 {
            table::summary(&rows, &calls);
        }
        table::noise(&rows);
    })
}

/// Every round takes all rows in turn, so that no busy spell of the machine falls on one of them alone.
fn rows(calls: &[Call], rounds: usize) -> Vec<Row> {
    let cases = cases::all();
    let mut rows: Vec<(&Case, Call, Vec<Trial>)> = vec![];
    for case in &cases {
        let calls = calls.iter().filter(|&&call| call == Call::Check || case.is_accepted());
        let trials = |call: Call| case.tickets.iter().map(|ticket| Trial::new(call, ticket)).collect();
        rows.extend(calls.map(|&call| (case, call, trials(call))));
    }
    for round in 0..=rounds {
        rows.iter_mut().flat_map(|(.., trials)| trials).for_each(Trial::round);
        // The first round warms up.
        if round == 0 {
            rows.iter_mut().flat_map(|(.., trials)| trials).for_each(Trial::forget);
        }
    }
    let row = |(case, call, trials): (&Case, Call, Vec<Trial>)| {
        let figures = timing::figures(&trials);
        Row { call, name: case.name, records: case.records, figures }
    };
    rows.into_iter().map(row).collect()
}

fn cores() -> usize {
    available_parallelism().map_or(0, usize::from)
}

/// Linux's name of the processor.
fn processor() -> String {
    let text = fs::read_to_string("/proc/cpuinfo").unwrap_or_default();
    let name = text.lines().find_map(|line| line.strip_prefix("model name")?.split_once(": "));
    name.map_or("unknown processor", |(_, name)| name).to_string()
}

/// Processes that ran or waited, over one minute.
fn load() -> String {
    let text = fs::read_to_string("/proc/loadavg").unwrap_or_default();
    text.split(' ').next().unwrap_or_default().to_string()
}
