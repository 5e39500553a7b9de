//! Several builds of the library beside each other, in one run.

use std::ffi::{CString, c_char, c_int, c_void};
use std::hint::black_box;
use std::mem;

use oracle::calls::{CALLS, Call};

use crate::cases::{self, FULL};
use crate::library::{Bench, Calls};
use crate::table::{head, line};
use crate::timing::{self, BLOCK};

unsafe extern "C" {
    fn dlopen(path: *const c_char, flags: c_int) -> *mut c_void;
    fn dlsym(library: *mut c_void, symbol: *const c_char) -> *mut c_void;
}

/// Linux's flag: every symbol is looked up at once.
const RTLD_NOW: c_int = 2;

/// A build, as shared libraries that differ only in where its code lies.
pub struct Build {
    name: String,
    places: Vec<Calls>,
}

impl Build {
    /// From `NAME=LIBRARY,..`, if all of them can be opened.
    pub fn open(named: &str) -> Option<Build> {
        let (name, paths) = named.split_once('=')?;
        let places: Option<Vec<Calls>> = paths.split(',').map(open).collect();
        Some(Build { name: name.to_string(), places: places? })
    }

    fn has(&self, call: Call) -> bool {
        self.places.iter().all(|calls| calls.has(call))
    }
}

fn open(path: &str) -> Option<Calls> {
    let path = CString::new(path).ok()?;
    // SAFETY: the path ends in a zero byte; the library's own code does nothing when it is opened.
    let library = unsafe { dlopen(path.as_ptr(), RTLD_NOW) };
    if library.is_null() {
        return None;
    }
    // SAFETY: the exports have the types that the header gives them.
    Some(unsafe {
        Calls {
            check: call(library, "check"),
            levels: call(library, "levels"),
            compact: call(library, "compact"),
            merge: call(library, "merge"),
            rewrite: call(library, "rewrite"),
        }
    })
}

/// An export of an open library, if it has that one.
///
/// # Safety
/// `F` is the export's type.
unsafe fn call<F: Copy>(library: *mut c_void, name: &str) -> Option<F> {
    let symbol = CString::new(format!("cabbagetier_{name}")).ok()?;
    // SAFETY: the name ends in a zero byte, and the library is open.
    let address = unsafe { dlsym(library, symbol.as_ptr()) };
    // SAFETY: a function's address has the size of a pointer to it.
    (!address.is_null()).then(|| unsafe { mem::transmute_copy(&address) })
}

/// One call on one ticket. The slices are lent to all libraries in turn, so that where they lie makes no difference.
struct Trial {
    call: Call,
    bench: Bench,
    /// The lowest time so far, by build and place.
    lowest: Vec<Vec<f64>>,
}

impl Trial {
    fn new(builds: &[Build], call: Call, ticket: &[u8]) -> Trial {
        let levels = timing::levels_for(ticket);
        let all = builds.iter().flat_map(|build| &build.places);
        let bench = all.map(|calls| timing::checked(calls, call, ticket, &levels)).last().unwrap();
        Trial { call, bench, lowest: builds.iter().map(|build| vec![f64::INFINITY; build.places.len()]).collect() }
    }

    /// A block of calls of each library; every round begins with another build.
    fn round(&mut self, builds: &[Build], round: usize) {
        for turn in 0..builds.len() {
            let at = (round + turn) % builds.len();
            for (calls, lowest) in builds[at].places.iter().zip(&mut self.lowest[at]) {
                for _ in 0..BLOCK {
                    *lowest = lowest.min(timing::timed(|| self.bench.run(calls, black_box(self.call))));
                }
            }
        }
    }

    fn forget(&mut self) {
        self.lowest.iter_mut().flatten().for_each(|time| *time = f64::INFINITY);
    }
}

/// A row of a call's table: the ticket's name, and for each build the lowest time at each place.
type Row = (Call, &'static str, Vec<Vec<f64>>);

/// Times every call that all builds have on the empty and the full tickets; gives what prints the tables.
pub fn timed(builds: &[Build], rounds: usize) -> Box<dyn FnOnce()> {
    let cases: Vec<_> = cases::all().into_iter().filter(|case| matches!(case.records, 0 | FULL)).collect();
    let calls: Vec<Call> = CALLS.into_iter().filter(|&call| builds.iter().all(|build| build.has(call))).collect();
    let mut rows: Vec<(Call, &'static str, Vec<Trial>)> = vec![];
    for case in &cases {
        for &call in calls.iter().filter(|&&call| call == Call::Check || case.is_accepted()) {
            rows.push((call, case.name, case.tickets.iter().map(|ticket| Trial::new(builds, call, ticket)).collect()));
        }
    }
    for round in 0..=rounds {
        rows.iter_mut().flat_map(|(.., trials)| trials).for_each(|trial| trial.round(builds, round));
        // The first round warms up.
        if round == 0 {
            rows.iter_mut().flat_map(|(.., trials)| trials).for_each(Trial::forget);
        }
    }
    let rows: Vec<Row> = rows.into_iter().map(|(call, name, trials)| (call, name, means(&trials))).collect();
    let names: Vec<String> = builds.iter().map(|build| build.name.clone()).collect();
    Box::new(move || calls.iter().for_each(|&call| table(&rows, &names, call)))
}

fn mean(times: impl ExactSizeIterator<Item = f64>) -> f64 {
    let count = times.len();
    times.sum::<f64>() / count as f64
}

/// The mean of the tickets that share a row, by build and place.
fn means(trials: &[Trial]) -> Vec<Vec<f64>> {
    let place = |build: usize, place: usize| mean(trials.iter().map(|trial| trial.lowest[build][place]));
    let builds = trials[0].lowest.iter().enumerate();
    builds.map(|(build, places)| (0..places.len()).map(|at| place(build, at)).collect()).collect()
}

/// Lowest times, a mean over the places with the least and the most, and the means by the first build's.
fn table(rows: &[Row], names: &[String], call: Call) {
    println!("\n### {}, lowest times\n", call.name());
    let mut heads = vec!["ticket".to_string()];
    heads.extend(names.iter().map(|name| format!("{name}, µs")));
    heads.extend(names[1..].iter().map(|name| format!("{name} / {}", names[0])));
    head(heads);
    for (_, name, builds) in rows.iter().filter(|row| row.0 == call) {
        let means: Vec<f64> = builds.iter().map(|places| mean(places.iter().copied())).collect();
        let time = |(mean, places): (&f64, &Vec<f64>)| {
            let least = places.iter().copied().fold(f64::INFINITY, f64::min);
            let most = places.iter().copied().fold(0.0, f64::max);
            format!("{mean:.1} ({least:.1} to {most:.1})")
        };
        let mut cells = vec![name.to_string()];
        cells.extend(means.iter().zip(builds).map(time));
        cells.extend(means[1..].iter().map(|mean| format!("{:.2}", mean / means[0])));
        line(cells);
    }
}
