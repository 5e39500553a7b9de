//! Small tickets that have a wished property, found by drawing and made smaller.

use std::collections::{BTreeMap, BTreeSet};

use crate::arms::{Taken, measure};
use crate::checking::{WORK_WORDS, check};
use crate::draw::{Draw, renumber, ticket};
use crate::kleene::levels;
use crate::ticket::*;
use crate::{ARMS, beside, paper};

/// The named tickets have no more records than this.
pub const SMALL: usize = 8;

/// Few records and constants, operands before readers, few wide bits, little undefined, then by the records.
fn cost(records: &[Record]) -> (usize, usize, u16, usize, usize, Vec<Record>) {
    let constants: Vec<u32> = records.iter().flat_map(Record::operands).filter(|&net| is_const(net)).collect();
    let undefined = constants.iter().filter(|&&net| net == UNDEF).count();
    let forward = |(slot, record): (usize, &Record)| record.operands().filter(|&net| slot_of(net) > Some(slot)).count();
    let forwards = records.iter().enumerate().map(forward).sum();
    let wide = records.iter().map(|record| record.bit).sum();
    (records.len() + constants.len(), forwards, wide, undefined, records.len(), records.to_vec())
}

/// Accepted, and every gate is reached from an output, so that what an arm does is seen.
fn is_proper(records: &[Record]) -> bool {
    count_kind(records, OUTPUT) > 0 && check(&bytes(records), WORK_WORDS).is_ok() && beside::compact(records) == records
}

/// Inputs labelled from 1, outputs from 101.
fn label(records: &mut [Record]) {
    let [mut inputs, mut outputs] = [0, 100];
    for record in records {
        match record.kind {
            INPUT => {
                inputs += u32::from(record.bit == 0);
                record.a = inputs;
            }
            OUTPUT => {
                outputs += 1;
                record.b = outputs;
            }
            _ => {}
        }
    }
}

fn without(records: &[Record], slot: usize, instead: u32) -> Vec<Record> {
    let mut fewer = records.to_vec();
    fewer.remove(slot);
    let gone = net_of(slot);
    for net in fewer.iter_mut().flat_map(Record::operands_mut) {
        if *net == gone {
            *net = instead;
        }
        if *net != UNDEF && *net > gone {
            *net -= 1;
        }
    }
    fewer
}

/// The tickets one step smaller or simpler.
fn steps(records: &[Record]) -> Vec<Vec<Record>> {
    let mut steps = vec![];
    let nets: Vec<u32> = [ZERO, ONE, UNDEF].into_iter().chain((0..records.len()).map(net_of)).collect();
    for slot in 0..records.len() {
        let others = nets.iter().filter(|&&net| net != net_of(slot));
        steps.extend(others.map(|&net| without(records, slot, net)));
        for (place, &net) in
            (0..records[slot].operand_count()).flat_map(|place| nets.iter().map(move |net| (place, net)))
        {
            let mut changed = records.to_vec();
            *changed[slot].operands_mut().nth(place).unwrap() = net;
            steps.push(changed);
        }
        for other in 0..slot {
            let mut order: Vec<usize> = (0..records.len()).collect();
            order.remove(slot);
            order.insert(other, slot);
            steps.push(renumber(records, &order));
        }
        steps.extend(plainer(records, slot));
    }
    steps
}

/// The ticket with a record of no flags and no bus, read as before or by the first output.
fn plainer(records: &[Record], slot: usize) -> [Vec<Record>; 3] {
    let mut steps = [records.to_vec(), records.to_vec(), records.to_vec()];
    steps[0][slot].flags = 0;
    for step in &mut steps[1..] {
        step[slot].bit = 0;
    }
    if let Some(output) = steps[2].iter_mut().find(|record| record.kind == OUTPUT) {
        output.a = net_of(slot);
    }
    steps
}

/// A ticket with the property from which no single step leads to a cheaper one.
pub fn shrink(records: &[Record], has: &dyn Fn(&[Record]) -> bool) -> Vec<Record> {
    let mut best = records.to_vec();
    label(&mut best);
    loop {
        let mut cheaper = steps(&best);
        cheaper.iter_mut().for_each(|step| label(step));
        cheaper.retain(|step| cost(step) < cost(&best) && is_proper(step) && has(step));
        match cheaper.into_iter().min_by_key(|step| cost(step)) {
            Some(step) => best = step,
            None => return best,
        }
    }
}

/// Keeps the cheapest ticket seen for each key.
pub struct Cheapest<K>(pub BTreeMap<K, Vec<Record>>);

impl<K: Ord> Cheapest<K> {
    pub fn offer(&mut self, key: K, records: &[Record]) {
        let held = self.0.entry(key).or_insert_with(|| records.to_vec());
        if cost(records) < cost(held) {
            *held = records.to_vec();
        }
    }
}

fn small(draw: &mut Draw) -> Vec<Record> {
    let size = draw.within(2, SMALL);
    ticket(draw, size)
}

/// The ticket with one thing drawn anew; it need not be accepted.
fn mutate(draw: &mut Draw, records: &[Record]) -> Vec<Record> {
    let mut changed = records.to_vec();
    let slot = draw.below(records.len());
    let net = net_of(draw.below(records.len()));
    let net = if draw.percent(10) { draw.pick(&[ZERO, ONE, UNDEF]) } else { net };
    match draw.below(5) {
        0 => changed[slot].flags ^= draw.within(1, 3) as u8,
        1 => {
            let mut order: Vec<usize> = (0..records.len()).collect();
            order.swap(slot, draw.below(records.len()));
            changed = renumber(records, &order);
        }
        2 if records.len() < SMALL => {
            let gate = Record::new(draw.pick(&[AND, OR, XOR, AIG]), net, net_of(slot), 0);
            changed.push(gate);
            if let Some(record) = changed.iter_mut().find(|record| record.kind == OUTPUT) {
                record.a = net_of(records.len());
            }
        }
        _ => {
            if let Some(operand) = changed[slot].operands_mut().nth(draw.below(2)) {
                *operand = net;
            }
        }
    }
    changed
}

fn try_arms(found: &mut Cheapest<Taken>, met: &mut Vec<Vec<Record>>, records: &[Record]) {
    if !is_proper(records) {
        return;
    }
    for taken in measure(records).1.into_keys() {
        if !found.0.contains_key(&taken) {
            met.push(records.to_vec());
        }
        found.offer(taken, records);
    }
}

/// For each arm and order that the given tickets and drawing meet, a smallest ticket that takes it.
pub fn arms(seed: u64, count: usize, given: Vec<Vec<Record>>) -> BTreeMap<Taken, Vec<Record>> {
    let mut draw = Draw(seed);
    let mut found = Cheapest(BTreeMap::new());
    let mut met = vec![];
    for records in given {
        try_arms(&mut found, &mut met, &records);
    }
    for _ in 0..count {
        // What met an arm first is worth a change more.
        let mut records =
            if met.is_empty() || draw.percent(50) { small(&mut draw) } else { draw.pick_of(&met).clone() };
        for _ in 0..draw.below(4) {
            records = mutate(&mut draw, &records);
        }
        try_arms(&mut found, &mut met, &records);
    }
    let shrunk = |(taken, records): (Taken, Vec<Record>)| {
        (taken, shrink(&records, &|records| measure(records).1.contains_key(&taken)))
    };
    found.0.into_iter().map(shrunk).collect()
}

/// Arms that only end a pass or write the cell in another form of the same level.
const FORMS: [&str; 12] = [
    "not-none",
    "and-none",
    "xor-none",
    "other",
    "kept",
    "buf",
    "and-split",
    "or-split",
    "and-exchange",
    "or-exchange",
    "xor-exchange",
    "aig-exchange",
];

fn simplifies(arm: usize) -> bool {
    !FORMS.contains(&ARMS[arm].name)
}

/// Every assignment of levels to so many inputs.
pub fn assignments(inputs: usize) -> impl Iterator<Item = Vec<u8>> {
    (0..3_u32.pow(inputs as u32)).map(move |code| (0..inputs as u32).map(|i| (code / 3_u32.pow(i) % 3) as u8).collect())
}

/// Levels under which rewriting makes an undefined output definite; no definite one may change.
pub fn made_definite(records: &[Record], rewritten: &[Record]) -> Option<Vec<u8>> {
    let differs = |given: &Vec<u8>| {
        let (before, after) = (levels(records, given), levels(rewritten, given));
        assert!(before.iter().zip(&after).all(|(&before, &after)| before == 2 || before == after));
        before != after
    };
    assignments(count_kind(records, INPUT)).find(differs)
}

/// Smallest tickets with a level made definite, by the set of arms that simplified something;
/// no set holds another.
pub fn definite(seed: u64, count: usize) -> BTreeMap<BTreeSet<usize>, Vec<Record>> {
    let mut draw = Draw(seed);
    let mut found = Cheapest(BTreeMap::new());
    let key = |records: &[Record]| {
        let (rewritten, counts) = measure(records);
        made_definite(records, &rewritten)?;
        Some(counts.into_keys().map(|taken| taken.arm).filter(|&arm| simplifies(arm)).collect::<BTreeSet<usize>>())
    };
    for _ in 0..count {
        let records = small(&mut draw);
        if is_proper(&records)
            && let Some(key) = key(&records)
        {
            found.offer(key, &records);
        }
    }
    let sets: Vec<BTreeSet<usize>> = found.0.keys().cloned().collect();
    found.0.retain(|arms, _| !sets.iter().any(|other| other != arms && other.is_subset(arms)));
    let shrunk = |(arms, records): (BTreeSet<usize>, Vec<Record>)| {
        let records = shrink(&records, &|records| key(records).as_ref() == Some(&arms));
        (arms, records)
    };
    found.0.into_iter().map(shrunk).collect()
}

/// Every ticket of so many gates and-inverter, or, xor over inputs and perhaps X, each gate reading what stands
/// before it, the last one read by an output; the inputs stand first or last.
pub struct Every {
    pub inputs: usize,
    pub gates: usize,
    pub kinds: &'static [(u8, u8)],
    pub undefined: bool,
    pub inputs_last: bool,
}

impl Every {
    pub fn visit(&self, visit: &mut dyn FnMut(&[Record])) {
        self.extend(&mut paper::inputs(self.inputs as u32), visit);
    }

    fn extend(&self, records: &mut Vec<Record>, visit: &mut dyn FnMut(&[Record])) {
        if records.len() == self.inputs + self.gates {
            return visit(&self.finished(records));
        }
        let nets: Vec<u32> = (0..records.len()).map(net_of).chain(self.undefined.then_some(UNDEF)).collect();
        for &(kind, flags) in self.kinds {
            for &a in &nets {
                for &b in &nets {
                    records.push(Record { flags, ..Record::new(kind, a, b, 0) });
                    self.extend(records, visit);
                    records.pop();
                }
            }
        }
    }

    fn finished(&self, records: &[Record]) -> Vec<Record> {
        let output = Record::new(OUTPUT, net_of(records.len() - 1), 0, 0);
        let finished = [records, &[output]].concat();
        if !self.inputs_last {
            return finished;
        }
        let order: Vec<usize> = (self.inputs..finished.len()).chain(0..self.inputs).collect();
        renumber(&finished, &order)
    }
}
