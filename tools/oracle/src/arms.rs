//! Counters of the arms taken by the counted copies of the rule files.

use std::cell::RefCell;
use std::collections::{BTreeMap, BTreeSet};

use crate::aig_counted::SimpleAigOpt;
use crate::normalize_counted::Normalize;
use crate::ticket::Record;
use crate::{ARMS, beside, text};

/// The order of a loop that the arm is not in.
pub const NO_ORDER: usize = 2;

/// A row of arms.tsv.
pub struct Arm {
    pub file: &'static str,
    pub line: usize,
    pub name: &'static str,
    pub effect: &'static str,
    pub variants: &'static str,
}

/// An arm, its variant, and the turns of the loops around it: outer, within a, within b.
#[derive(Clone, Copy, Debug, PartialEq, Eq, PartialOrd, Ord, Hash)]
pub struct Taken {
    pub arm: usize,
    pub variant: usize,
    pub orders: [usize; 3],
}

impl Taken {
    pub fn arm(&self) -> &'static Arm {
        &ARMS[self.arm]
    }

    pub fn variant(&self) -> &'static str {
        self.arm().variants.split(' ').nth(self.variant).unwrap()
    }

    /// A digit per loop, a dot for a loop that the arm is not in.
    pub fn orders(&self) -> String {
        self.orders.iter().map(|&order| ["0", "1", "."][order]).collect()
    }

    pub fn name(&self) -> String {
        let Arm { file, name, .. } = self.arm();
        format!("{file} {name} {} {}", self.variant(), self.orders())
    }

    /// All variants and orders of the arm of one that was taken.
    fn kin(&self) -> Vec<Taken> {
        let turns = |order: usize| if order == NO_ORDER { NO_ORDER..NO_ORDER + 1 } else { 0..2 };
        let [outer, within_a, within_b] = self.orders.map(turns);
        let mut kin = vec![];
        for variant in 0..self.arm().variants.split(' ').count() {
            for order in outer.clone() {
                for order_a in within_a.clone() {
                    kin.extend(within_b.clone().map(|order_b| [order, order_a, order_b]).map(|orders| Taken {
                        arm: self.arm,
                        variant,
                        orders,
                    }));
                }
            }
        }
        kin
    }
}

/// Every arm in every variant and order, from the arms that were taken in some; an arm never taken has none.
pub fn thinkable<'a>(taken: impl Iterator<Item = &'a Taken>) -> BTreeSet<Taken> {
    let mut all: BTreeSet<Taken> = taken.flat_map(Taken::kin).collect();
    for arm in 0..ARMS.len() {
        if !all.iter().any(|taken| taken.arm == arm) {
            all.insert(Taken { arm, variant: 0, orders: [NO_ORDER; 3] });
        }
    }
    all
}

/// The named tickets, a smallest one for each arm, variant and order that some ticket takes.
pub fn named() -> Vec<(String, Vec<Record>)> {
    text::named(include_str!("../arms.txt"))
}

/// Reasons why no ticket takes an arm in an order: a name, the reason, and what it is for.
pub fn impossible() -> Vec<(&'static str, &'static str, Vec<&'static str>)> {
    let mut reasons: Vec<(&str, &str, Vec<&str>)> = vec![];
    for line in include_str!("../impossible.txt").lines() {
        match line.strip_prefix("  ") {
            Some(name) => reasons.last_mut().unwrap().2.push(name),
            None => {
                let (name, reason) = line.split_once(' ').unwrap();
                reasons.push((name, reason, vec![]));
            }
        }
    }
    reasons
}

pub type Counts = BTreeMap<Taken, u64>;

thread_local! {
    static COUNTS: RefCell<Counts> = const { RefCell::new(Counts::new()) };
}

/// Called by the counted copies.
pub fn hit(arm: usize, variant: usize, orders: [usize; 3]) {
    COUNTS.with_borrow_mut(|counts| *counts.entry(Taken { arm, variant, orders }).or_default() += 1);
}

/// Rewrites with the counted rules; the records are those of the uncounted ones.
pub fn measure(records: &[Record]) -> (Vec<Record>, Counts) {
    COUNTS.take();
    let (rewritten, _) = beside::rewrite_with(records, &Normalize, &SimpleAigOpt);
    (rewritten, COUNTS.take())
}
