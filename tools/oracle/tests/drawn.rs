//! Facts about drawn tickets that the rest of the tool leans on.

use oracle::calls::{Call, Lent, answer};
use oracle::draw::{Draw, accepted, damaged};
use oracle::{Const, Trit, arms, beside, kleene, search, text, ticket};

#[test]
fn drawn_tickets_are_accepted_and_counting_changes_nothing() {
    let mut draw = Draw(1);
    for _ in 0..3000 {
        let records = accepted(&mut draw);
        let check = answer(Call::Check, &ticket::bytes(&records), Lent::AMPLE);
        assert_eq!((check.refusal, check.place), (0, 0), "{records:?}");
        let (rewritten, _) = arms::measure(&records);
        assert_eq!(rewritten, beside::rewrite(&records).0);
    }
}

#[test]
fn labels_repeat_seldom() {
    // One ticket in a hundred is drawn so; the bound is twice that.
    let mut draw = Draw(4);
    let repeats = (0..3000).filter(|_| !ticket::has_separate_labels(&accepted(&mut draw))).count();
    assert!((1..=60).contains(&repeats), "{repeats}");
}

#[test]
fn levels_are_refined() {
    let mut draw = Draw(2);
    for _ in 0..3000 {
        let records = accepted(&mut draw);
        let inputs = ticket::count_kind(&records, ticket::INPUT);
        let levels: Vec<u8> = (0..inputs).map(|_| draw.below(3) as u8).collect();
        let before = kleene::levels(&records, &levels);
        let after = kleene::levels(&beside::rewrite(&records).0, &levels);
        assert!(before.iter().zip(&after).all(|(&before, &after)| before == 2 || before == after));
        assert_eq!(before, kleene::levels(&beside::merge(&records).0, &levels));
        assert_eq!(before, kleene::levels(&beside::compact(&records), &levels));
    }
}

/// The oracle's levels are read from the paper; the Rust's own tables say the same.
#[test]
fn tables_are_those_of_the_rust() {
    let trit = |level: u8| [Trit::Zero, Trit::One, Trit::Undef][level as usize];
    for given in search::assignments(3) {
        let [x, y, z] = [trit(given[0]), trit(given[1]), trit(given[2])];
        let mux = x.mux(Const::from(y), Const::from(z))[0];
        for (gate, level) in [
            ("4 0 0 2 0 0", !x),
            ("5 0 0 2 3 0", x & y),
            ("6 0 0 2 3 0", x | y),
            ("7 0 0 2 3 0", x ^ y),
            ("8 0 0 2 3 4", mux),
        ] {
            let records = text::records(&format!("1 0 0 1 0 0\n1 0 0 2 0 0\n1 0 0 3 0 0\n{gate}\n2 0 0 5 9 0"));
            assert_eq!(trit(kleene::levels(&records, &given)[0]), level, "{gate} {given:?}");
        }
    }
}

#[test]
fn damage_meets_every_refusal_of_checking() {
    let mut draw = Draw(3);
    let mut met = [0; 9];
    for _ in 0..4000 {
        met[answer(Call::Check, &damaged(&mut draw), Lent::AMPLE).refusal as usize] += 1;
    }
    println!("{met:?}");
    assert!(met.iter().enumerate().all(|(number, &count)| number == 1 || count > 10));
}
