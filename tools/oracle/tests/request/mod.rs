//! What the tests of a request share: tickets drawn for it, and how many of them have what they are drawn for.

use std::ops::RangeInclusive;

use oracle::draw::{Draw, Request, requested};
use oracle::ticket::Record;

/// So many tickets drawn for a request.
pub fn drawn(name: &str, seed: u64, count: usize) -> Vec<Vec<Record>> {
    let request = Request::from_name(name);
    assert!(request.is_some(), "{name}");
    let mut draw = Draw(seed);
    (0..count).map(|_| requested(&mut draw, request)).collect()
}

/// What a ticket may have, by name, and how many of those drawn have it.
pub type Have<T> = (&'static str, fn(&T) -> bool, RangeInclusive<usize>);

pub fn assert_have<T>(drawn: &[T], have: &[Have<T>]) {
    for (name, has, bounds) in have {
        let count = drawn.iter().filter(|ticket| has(ticket)).count();
        println!("{name}: {count}");
        assert!(bounds.contains(&count), "{name}: {count}");
    }
}
