//! Every arm has a ticket that takes it, by measurement, or a reason.

use oracle::arms::{Taken, impossible, measure, named, thinkable};
use oracle::calls::{Call, Lent, answer};
use oracle::{list, page, search, ticket};

#[test]
fn each_named_ticket_takes_its_arm() {
    for (name, records) in named() {
        let taken: Vec<String> = measure(&records).1.keys().map(Taken::name).collect();
        assert!(taken.contains(&name), "{name}");
        assert!(records.len() <= search::SMALL && ticket::has_separate_labels(&records));
        assert_eq!(answer(Call::Check, &ticket::bytes(&records), Lent::AMPLE).refusal, 0);
    }
}

#[test]
fn each_arm_has_a_ticket_or_a_reason() {
    let taken: Vec<Taken> = named().iter().flat_map(|(_, records)| measure(records).1.into_keys()).collect();
    let all: Vec<String> = thinkable(taken.iter()).iter().map(Taken::name).collect();
    let tickets = named().into_iter().map(|(name, _)| name);
    let reasons = impossible().into_iter().flat_map(|(_, _, rows)| rows).map(String::from);
    let mut given: Vec<String> = tickets.chain(reasons).collect();
    given.sort();
    let mut all = all;
    all.sort();
    assert_eq!(given, all);
}

fn docs(name: &str) -> String {
    std::fs::read_to_string(format!("{}/../../docs/{name}", env!("CARGO_MANIFEST_DIR"))).unwrap()
}

#[test]
fn the_page_is_the_measured_one() {
    assert!(docs("ARMS.md") == page::arms(), "oracle arms-page > docs/ARMS.md");
}

#[test]
fn the_report_is_the_measured_one() {
    assert!(docs("ORACLE.md").contains(&page::report(&list::cases())), "oracle report, into docs/ORACLE.md");
}
