//! Drawn numbers and drawn tickets, fixed by a seed.

use crate::paper;
use crate::ticket::*;

/// Splitmix64.
#[derive(Clone)]
pub struct Draw(pub u64);

impl Draw {
    pub fn number(&mut self) -> u64 {
        self.0 = self.0.wrapping_add(0x9e37_79b9_7f4a_7c15);
        let mut z = self.0;
        z = (z ^ (z >> 30)).wrapping_mul(0xbf58_476d_1ce4_e5b9);
        z = (z ^ (z >> 27)).wrapping_mul(0x94d0_49bb_1331_11eb);
        z ^ (z >> 31)
    }

    pub fn below(&mut self, bound: usize) -> usize {
        (self.number() % bound as u64) as usize
    }

    /// A number of the range, both ends included.
    pub fn within(&mut self, least: usize, most: usize) -> usize {
        least + self.below(most - least + 1)
    }

    pub fn percent(&mut self, percent: usize) -> bool {
        self.below(100) < percent
    }

    pub fn pick<T: Copy>(&mut self, choices: &[T]) -> T {
        *self.pick_of(choices)
    }

    pub fn pick_of<'a, T>(&mut self, choices: &'a [T]) -> &'a T {
        &choices[self.below(choices.len())]
    }

    pub fn shuffle<T>(&mut self, items: &mut [T]) {
        for last in (1..items.len()).rev() {
            items.swap(last, self.below(last + 1));
        }
    }
}

const GATES: [u8; 7] = [BUF, NOT, AND, OR, XOR, MUX, AIG];

/// What kinds of gates a ticket is drawn from; a kind named twice comes twice as often.
const MIXES: [&[u8]; 5] =
    [&GATES, &[AIG], &[AIG, AIG, XOR, NOT], &[AND, OR, XOR, NOT, AIG], &[NOT, XOR, XOR, AND, OR, AIG, AIG, AIG, MUX]];

/// For request 2026-03: more than half of the gates are bufs and nots.
const INVERTERS: &[u8] = &[BUF, BUF, BUF, NOT, NOT, NOT, AND, OR, XOR, MUX, AIG];

/// For request 2026-06: three in five gates are muxes, since no other kind has a third operand.
const MUXES: &[u8] = &[MUX, MUX, MUX, MUX, MUX, MUX, MUX, MUX, MUX, BUF, NOT, AND, OR, XOR, AIG];

/// A change request for which the comparison has tickets of its own, since the common draw seldom meets what it is
/// about.
#[derive(Clone, Copy)]
pub enum Request {
    GateCount,
    Renumbering,
    LooseWire,
}

impl Request {
    pub fn from_name(name: &str) -> Option<Request> {
        match name {
            "2026-03" => Some(Request::GateCount),
            "2026-05" => Some(Request::Renumbering),
            "2026-06" => Some(Request::LooseWire),
            _ => None,
        }
    }
}

/// How the cells of a ticket lie.
#[derive(Clone, Copy)]
enum Lie {
    /// Operands before readers.
    Forward,
    /// Readers before operands.
    Backward,
    /// Gates first, then inputs.
    InputsLast,
    Anyhow,
}

/// The habits of one drawn ticket.
struct Style {
    mix: &'static [u8],
    widest: usize,
    lie: Lie,
    /// Whether bits of different cells are filled in turn, so that cells read each other.
    woven: bool,
    constants: usize,
    related: usize,
    copied: usize,
    repeated_labels: bool,
}

impl Style {
    fn draw(draw: &mut Draw) -> Style {
        Style {
            mix: draw.pick(&MIXES),
            widest: draw.pick(&[1, 1, 1, 2, 4, 4, 4, 64]),
            lie: draw.pick(&[Lie::Forward, Lie::Forward, Lie::Forward, Lie::Backward, Lie::InputsLast, Lie::Anyhow]),
            woven: draw.percent(25),
            constants: draw.pick(&[0, 0, 2, 5, 20]),
            related: draw.pick(&[20, 50, 70]),
            copied: draw.pick(&[0, 20, 40]),
            repeated_labels: draw.percent(1),
        }
    }
}

/// A ticket in the making. While it is filled, a bit's net is its number plus two;
/// the slots come with `lie`.
struct Making<'a> {
    draw: &'a mut Draw,
    style: Style,
    bits: Vec<Record>,
    /// First bit of each cell.
    cells: Vec<usize>,
    /// Nets that may be read, oldest first.
    ready: Vec<u32>,
}

/// A ticket of the given number of records that checking accepts.
pub fn ticket(draw: &mut Draw, size: usize) -> Vec<Record> {
    let style = Style::draw(draw);
    styled(draw, size, style)
}

fn styled(draw: &mut Draw, size: usize, style: Style) -> Vec<Record> {
    let mut making = Making { draw, style, bits: vec![], cells: vec![], ready: vec![] };
    making.plan(size);
    making.fill();
    making.label();
    making.lie()
}

impl Making<'_> {
    fn plan(&mut self, size: usize) {
        let few = if self.draw.percent(15) { 0 } else { 2 };
        let inputs = self.draw.within(few, 8).min(size / 2).max(size / 12);
        let outputs = self.draw.within(1, 4).min(size - inputs).max(size / 16);
        while self.bits.len() < inputs {
            self.plan_cell(INPUT, inputs);
        }
        while self.bits.len() < size - outputs {
            let kind = self.draw.pick(self.style.mix);
            self.plan_cell(kind, size - outputs);
        }
        while self.bits.len() < size {
            self.plan_cell(OUTPUT, size);
        }
    }

    fn plan_cell(&mut self, kind: u8, end: usize) {
        let widest = if matches!(kind, OUTPUT | AIG) || self.draw.percent(50) { 1 } else { self.style.widest };
        let width = self.draw.within(1, widest).min(end - self.bits.len());
        self.cells.push(self.bits.len());
        self.bits.extend((0..width).map(|bit| Record { kind, bit: bit as u16, ..Record::default() }));
    }

    fn fill(&mut self) {
        let mut turn: Vec<usize> = (0..self.bits.len()).collect();
        if self.style.woven {
            self.weave(&mut turn);
        }
        // Inputs are there from the start; outputs may read everything.
        turn.sort_by_key(|&bit| match self.bits[bit].kind {
            INPUT => 0,
            OUTPUT => 2,
            _ => 1,
        });
        for bit in turn {
            self.fill_bit(bit);
        }
    }

    fn weave(&mut self, turn: &mut [usize]) {
        for place in 0..turn.len() {
            let other = self.draw.within(place, (place + 5).min(turn.len() - 1));
            turn.swap(place, other);
        }
    }

    fn fill_bit(&mut self, bit: usize) {
        if !(self.draw.percent(self.style.copied) && (self.read_twins(bit) || self.copy(bit))) {
            let near = self.operand(None);
            let second = self.operand(Some(near));
            let third = self.operand(Some(second));
            let mut fields = [near, second, third];
            let count = self.bits[bit].operand_count();
            self.draw.shuffle(&mut fields[..count]);
            for (operand, net) in self.bits[bit].operands_mut().zip(fields) {
                *operand = net;
            }
            if self.bits[bit].kind == AIG {
                self.bits[bit].flags = self.draw.below(4) as u8;
            }
        }
        if self.bits[bit].kind == MUX {
            self.share_select(bit);
        }
        if self.bits[bit].kind != OUTPUT {
            self.ready.push(net_of(bit));
        }
    }

    /// Reads two and-inverters over the same nets, both mostly inverted, as a xor in disguise does.
    fn read_twins(&mut self, bit: usize) -> bool {
        let Some(net) = self.ready_net().filter(|_| self.bits[bit].kind == AIG) else { return false };
        let nets = |record: &Record| [record.a.min(record.b), record.a.max(record.b)];
        let model = self.bits[net as usize - 2];
        let is_twin = |&other: &u32| {
            let record = &self.bits[other as usize - 2];
            other != net && record.kind == AIG && nets(record) == nets(&model)
        };
        let Some(twin) = self.ready.iter().copied().filter(|_| model.kind == AIG).find(is_twin) else { return false };
        self.bits[bit].a = net;
        self.bits[bit].b = twin;
        self.bits[bit].flags = self.draw.pick(&[3, 3, 3, 2, 1, 0]);
        true
    }

    /// Repeats a gate of the same kind, perhaps with operands exchanged or a flag flipped.
    fn copy(&mut self, bit: usize) -> bool {
        let Some(net) = self.ready_net() else { return false };
        let model = self.bits[net as usize - 2];
        if model.kind != self.bits[bit].kind || !model.is_gate() {
            return false;
        }
        let Record { flags, bit: place, .. } = self.bits[bit];
        self.bits[bit] = Record { bit: place, flags, ..model };
        let record = &mut self.bits[bit];
        if model.operand_count() == 2 && self.draw.percent(50) {
            (record.a, record.b) = (record.b, record.a);
        }
        if model.kind == AIG {
            record.flags = model.flags ^ self.draw.pick(&[0, 1, 2, 3, 3, 3]);
        }
        true
    }

    /// The first filled bit of a mux decides the select; the others are ready later.
    fn share_select(&mut self, bit: usize) {
        let first = bit - self.bits[bit].bit as usize;
        let filled = |&other: &usize| self.ready.contains(&net_of(other));
        let width = self.bits[first..]
            .iter()
            .enumerate()
            .take_while(|(place, other)| other.kind == MUX && other.bit as usize == *place);
        let last = first + width.count();
        if let Some(other) = (first..last).find(filled) {
            self.bits[bit].a = self.bits[other].a;
        }
    }

    fn ready_net(&mut self) -> Option<u32> {
        if self.ready.is_empty() {
            return None;
        }
        let recent = self.ready.len().min(8);
        let from = if self.draw.percent(50) { self.ready.len() - recent } else { 0 };
        Some(self.ready[self.draw.within(from, self.ready.len() - 1)])
    }

    fn operand(&mut self, near: Option<u32>) -> u32 {
        if self.draw.percent(self.style.constants) {
            return self.draw.pick(&[ZERO, ONE, UNDEF]);
        }
        let relation = near.filter(|_| self.draw.percent(self.style.related)).and_then(|net| self.relation(net));
        relation.or_else(|| self.ready_net()).unwrap_or_else(|| self.draw.pick(&[ZERO, ONE, UNDEF]))
    }

    /// An operand of the gate behind the net, or another gate that reads such an operand.
    fn relation(&mut self, net: u32) -> Option<u32> {
        let operands: Vec<u32> = self.bits[slot_of(net)?].operands().collect();
        if operands.is_empty() {
            return None;
        }
        let operand = self.draw.pick(&operands);
        if self.draw.percent(40) {
            return Some(operand);
        }
        let reads =
            |&reader: &u32| reader != net && self.bits[reader as usize - 2].operands().any(|net| net == operand);
        let siblings: Vec<u32> = self.ready.iter().copied().filter(reads).collect();
        if siblings.is_empty() { Some(operand) } else { Some(self.draw.pick(&siblings)) }
    }

    fn label(&mut self) {
        let step = self.draw.pick(&[1, 3, 0x0101_0101, u32::MAX]);
        let mut label = self.draw.pick(&[0, 1, 100, u32::MAX]);
        for bit in 0..self.bits.len() {
            let first = self.bits[bit].bit == 0;
            if first && !(self.style.repeated_labels && self.draw.percent(50)) {
                label = label.wrapping_add(step);
            }
            match self.bits[bit].kind {
                INPUT => self.bits[bit].a = label,
                OUTPUT => self.bits[bit].b = label,
                _ => {}
            }
        }
    }

    fn lie(self) -> Vec<Record> {
        let ends = self.cells.iter().skip(1).copied().chain([self.bits.len()]);
        let mut cells: Vec<(usize, usize)> = self.cells.iter().copied().zip(ends).collect();
        match self.style.lie {
            Lie::Forward => {}
            Lie::Backward => cells.reverse(),
            Lie::InputsLast => cells.sort_by_key(|&(first, _)| self.bits[first].kind == INPUT),
            Lie::Anyhow => self.draw.shuffle(&mut cells),
        }
        let order: Vec<usize> = cells.into_iter().flat_map(|(first, end)| first..end).collect();
        renumber(&self.bits, &order)
    }
}

/// The records in the given order, their operands following them.
pub fn renumber(records: &[Record], order: &[usize]) -> Vec<Record> {
    let mut slots = vec![0; records.len()];
    for (slot, &old) in order.iter().enumerate() {
        slots[old] = slot;
    }
    let mut moved: Vec<Record> = order.iter().map(|&old| records[old]).collect();
    for net in moved.iter_mut().flat_map(Record::operands_mut) {
        if let Some(old) = slot_of(*net) {
            *net = net_of(slots[old]);
        }
    }
    moved
}

/// A ticket that takes about as many slots as there are, up to six fewer or more.
pub fn full_bench(draw: &mut Draw) -> Vec<Record> {
    let inputs = draw.within(27, 60);
    let outputs = draw.below(20);
    let target = draw.within(MOST_SLOTS - 6, MOST_SLOTS + 6);
    let mut records: Vec<Record> = (0..inputs).map(|slot| Record::new(INPUT, slot as u32, 0, 0)).collect();
    let mut pairs: Vec<(u32, u32)> = (1..inputs).flat_map(|b| (0..b).map(move |a| (net_of(a), net_of(b)))).collect();
    draw.shuffle(&mut pairs);
    let mut slots = inputs + outputs;
    // An or adds two cells, the others one.
    while slots + 3 <= target && records.len() + outputs < MOST_RECORDS {
        let kind = if draw.percent(90) { OR } else { draw.pick(&[AND, XOR]) };
        let (a, b) = pairs.pop().unwrap();
        records.push(Record::new(kind, a, b, 0));
        slots += if kind == OR { 3 } else { 2 };
    }
    for label in 0..outputs {
        let net = net_of(draw.within(inputs, records.len() - label - 1));
        records.push(Record::new(OUTPUT, net, label as u32, 0));
    }
    records
}

/// A size from 0 to 512, mostly 5 to 40.
fn size(draw: &mut Draw) -> usize {
    match draw.below(1000) {
        0..20 => draw.below(5),
        20..980 => 5 + draw.below(36).min(draw.below(36)),
        980..995 => draw.within(41, 120),
        _ => draw.within(121, MOST_RECORDS),
    }
}

/// A ticket as the fixed list and the comparison draw it.
pub fn accepted(draw: &mut Draw) -> Vec<Record> {
    if draw.below(1000) < 4 {
        return full_bench(draw);
    }
    let size = size(draw);
    ticket(draw, size)
}

/// A ticket for a request, if one is named. Checking accepts it, unless it is drawn to be loose.
pub fn requested(draw: &mut Draw, request: Option<Request>) -> Vec<Record> {
    match request {
        None => accepted(draw),
        Some(Request::GateCount) => inverters(draw),
        Some(Request::Renumbering) => scattered(draw),
        Some(Request::LooseWire) => loosened(draw),
    }
}

fn inverters(draw: &mut Draw) -> Vec<Record> {
    let size = size(draw);
    let style = Style { mix: INVERTERS, widest: draw.pick(&[1, 4, 64]), ..Style::draw(draw) };
    styled(draw, size, style)
}

/// For request 2026-05: dropped records between kept ones, and operands far off on either side of their readers.
fn scattered(draw: &mut Draw) -> Vec<Record> {
    let size = match draw.below(100) {
        0..2 => return spread_bench(draw),
        2 => MOST_RECORDS,
        3 => draw.within(121, MOST_RECORDS),
        _ => size(draw).max(size(draw)),
    };
    let idle = size * draw.pick(&[10, 20, 30, 50]) / 100;
    let style = Style {
        mix: &GATES,
        widest: draw.pick(&[1, 4, 4, 8, 64]),
        lie: draw.pick(&[Lie::Forward, Lie::Backward, Lie::InputsLast, Lie::Anyhow, Lie::Anyhow, Lie::Anyhow]),
        ..Style::draw(draw)
    };
    let records = styled(draw, size - idle, style);
    strewn(draw, records, idle)
}

/// The ticket with so many gates more, which lie anywhere between its cells and of which it reads none.
fn strewn(draw: &mut Draw, mut records: Vec<Record>, idle: usize) -> Vec<Record> {
    let has_net = |slot: &usize| records[*slot].kind != OUTPUT;
    let mut nets: Vec<u32> = (0..records.len()).filter(has_net).map(net_of).chain([ZERO, ONE, UNDEF]).collect();
    let mut order: Vec<usize> = (0..records.len()).collect();
    for slot in records.len()..records.len() + idle {
        let mut gate = Record::new(draw.pick(&GATES), 0, 0, 0);
        gate.operands_mut().for_each(|operand| *operand = draw.pick(&nets));
        let place = draw.within(0, order.len());
        let within_cell = order[place..].iter().take_while(|&&next| records[next].bit != 0).count();
        order.insert(place + within_cell, slot);
        nets.push(net_of(slot));
        records.push(gate);
    }
    renumber(&records, &order)
}

/// A full ticket that takes all slots there are, or up to eight fewer, of which rewriting keeps two in three: each
/// output reads an or of its own, anywhere among them.
fn spread_bench(draw: &mut Draw) -> Vec<Record> {
    let inputs = draw.within(24, 40);
    // An or adds two cells.
    let ors = (MOST_SLOTS - MOST_RECORDS) / 2 - draw.pick(&[0, 0, 0, 1, 4]);
    let mut records = paper::ors(inputs as u32, usize::MAX);
    draw.shuffle(&mut records[inputs..]);
    records.truncate(inputs + ors);
    let mut read: Vec<usize> = (inputs..inputs + ors).collect();
    draw.shuffle(&mut read);
    let outputs = read.into_iter().zip(0..).map(|(slot, label)| Record::new(OUTPUT, net_of(slot), label, 0));
    records.extend(outputs.take(MOST_RECORDS - inputs - ors));
    let mut order: Vec<usize> = (0..MOST_RECORDS).collect();
    if draw.percent(50) {
        draw.shuffle(&mut order);
    }
    renumber(&records, &order)
}

/// For request 2026-06: loose operands in every field, often several in one record and in several records, now and then
/// with another fault beside them. Some tickets are accepted still.
fn loosened(draw: &mut Draw) -> Vec<Record> {
    let size = size(draw).max(size(draw));
    let style = Style { mix: MUXES, widest: draw.pick(&[1, 4, 4, 8]), ..Style::draw(draw) };
    let mut records = styled(draw, size, style);
    let readers: Vec<usize> = (0..size).filter(|&slot| records[slot].operand_count() > 0).collect();
    if readers.is_empty() || draw.percent(12) {
        return records;
    }
    let mut slot = 0;
    for _ in 0..draw.pick(&[1, 1, 2, 3]) {
        // Of two the one with more operands: that is mostly a mux.
        let pair = [(); 2].map(|_| draw.pick(&readers));
        slot = pair.into_iter().max_by_key(|&reader| records[reader].operand_count()).unwrap();
        loosen(draw, &mut records, slot);
    }
    if draw.percent(40) {
        let slot = if draw.percent(40) { slot } else { draw.below(size) };
        add_fault(draw, &mut records, slot);
    }
    records
}

/// Loosens the operand of one field, each as often, and perhaps of fields behind it.
fn loosen(draw: &mut Draw, records: &mut [Record], slot: usize) {
    let last = records[slot].operand_count();
    let first = draw.within(1, last);
    let fields: Vec<usize> = (first..=last).filter(|&field| field == first || draw.percent(60)).collect();
    for field in fields {
        let net = loose_net(draw, records);
        // The bits of a mux share their select; in one alone it breaks the bus.
        let is_shared = records[slot].kind == MUX && field == 1 && draw.percent(90);
        let bits = if is_shared { cell_at(records, slot) } else { slot..slot + 1 };
        records[bits].iter_mut().for_each(|record| set_operand(record, field, net));
    }
}

fn set_operand(record: &mut Record, field: usize, net: u32) {
    *record.operands_mut().nth(field - 1).unwrap() = net;
}

/// An output's net, or one behind the last, just so or by far; a few are not loose, as the last net and undefined.
fn loose_net(draw: &mut Draw, records: &[Record]) -> u32 {
    let is_output = |slot: &usize| records[*slot].kind == OUTPUT;
    let outputs: Vec<u32> = (0..records.len()).filter(is_output).map(net_of).collect();
    let behind = net_of(records.len());
    // Cut to 8, 16, 24 or 31 bits it is mostly a net of the ticket.
    let far = net_of(draw.below(records.len())) + draw.pick(&[1 << 8, 1 << 16, 1 << 24, 1 << 31]);
    match draw.below(10) {
        0..4 if !outputs.is_empty() => draw.pick(&outputs),
        0..7 => draw.pick(&[behind - 1, behind, behind, behind, behind + 1]),
        _ => draw.pick(&[far, far, net_of(MOST_RECORDS), net_of(MOST_SLOTS), UNDEF - 1, UNDEF - 1, UNDEF]),
    }
}

/// An unknown kind, a flag or field that is not used, a bit out of its place, or a record that reads itself.
fn add_fault(draw: &mut Draw, records: &mut [Record], slot: usize) {
    let net = loose_net(draw, records);
    let record = &mut records[slot];
    match draw.below(5) {
        0 => record.kind = draw.pick(&[0, 10, 255]),
        1 => record.flags |= 4,
        2 if record.kind != MUX => record.c = net,
        3 => record.bit += 1,
        _ => {
            if let Some(operand) = record.operands_mut().last() {
                *operand = net_of(slot);
            }
        }
    }
}

/// An accepted ticket torn, flipped or spliced; a few are accepted still.
pub fn damaged(draw: &mut Draw) -> Vec<u8> {
    let records = accepted(draw);
    damaged_from(draw, &records)
}

pub fn damaged_from(draw: &mut Draw, records: &[Record]) -> Vec<u8> {
    let mut ticket = bytes(&records[..records.len().min(60)]);
    for _ in 0..draw.within(1, 2) {
        damage(draw, &mut ticket);
    }
    ticket
}

fn damage(draw: &mut Draw, ticket: &mut Vec<u8>) {
    match draw.below(24) {
        0..2 => ticket.truncate(draw.below(ticket.len() + 1)),
        2 => ticket.extend(vec![draw.below(256) as u8; draw.within(1, 20)]),
        3 if draw.percent(20) => overlong(draw, ticket),
        3..7 => splice(draw, ticket),
        7..11 => rewire(draw, ticket),
        _ => flip(draw, ticket),
    }
}

/// Lets operands read other nets, often ones that read them, so that loops come about.
fn rewire(draw: &mut Draw, ticket: &mut Vec<u8>) {
    let mut records = records(ticket);
    for _ in 0..draw.within(1, 4).min(records.len()) {
        let slot = draw.below(records.len());
        let operands = records[slot].operand_count();
        let net = if draw.percent(50) { reader(draw, &records, slot) } else { draw.below(records.len()) };
        if operands > 0 && records[net].kind != OUTPUT {
            *records[slot].operands_mut().nth(draw.below(operands)).unwrap() = net_of(net);
        }
    }
    *ticket = bytes(&records);
}

/// A slot that reads the given one in at most three steps.
fn reader(draw: &mut Draw, records: &[Record], slot: usize) -> usize {
    let mut found = slot;
    for _ in 0..draw.below(4) {
        let reads =
            |&other: &usize| records[other].is_gate() && records[other].operands().any(|net| net == net_of(found));
        let readers: Vec<usize> = (0..records.len()).filter(reads).collect();
        if readers.is_empty() {
            break;
        }
        found = draw.pick(&readers);
    }
    found
}

/// Changes one field of one record, mostly by little.
fn flip(draw: &mut Draw, ticket: &mut [u8]) {
    let records = ticket.len() / RECORD_BYTES;
    if records == 0 {
        return;
    }
    let at = draw.below(records) * RECORD_BYTES;
    match draw.below(10) {
        0 => ticket[at] = draw.pick(&[0, 10, 77, 255]),
        1 => ticket[at] = draw.within(1, 9) as u8,
        2 => ticket[at + 1] ^= 1 << draw.below(8),
        3 => ticket[at + 2] = draw.pick(&[0, 1, 2, 3]),
        4 => ticket[at + draw.below(RECORD_BYTES)] ^= 1 << draw.below(8),
        _ => {
            let net = draw.below(records + 3) as u32;
            let operands = Record::read(&ticket[at..at + RECORD_BYTES]).operand_count();
            let fields = if draw.percent(20) { 3 } else { operands.max(1) };
            let field = at + 4 * draw.within(1, fields);
            ticket[field..field + 4].copy_from_slice(&net.to_le_bytes());
        }
    }
}

/// Takes records away, doubles some, or goes on with another ticket's records.
fn splice(draw: &mut Draw, ticket: &mut Vec<u8>) {
    let records = ticket.len() / RECORD_BYTES;
    let cut = draw.below(records + 1) * RECORD_BYTES;
    let rest = ticket.split_off(cut);
    match draw.below(3) {
        0 => ticket.extend(rest.iter().skip(RECORD_BYTES)),
        1 => {
            ticket.extend(rest.iter().take(RECORD_BYTES));
            ticket.extend(rest);
        }
        _ => {
            let size = draw.within(1, 20);
            let other = bytes(&self::ticket(draw, size));
            ticket.extend(other.iter().skip(draw.below(size) * RECORD_BYTES));
        }
    }
}

fn overlong(draw: &mut Draw, ticket: &mut Vec<u8>) {
    let length = (MOST_RECORDS + draw.below(3)) * RECORD_BYTES + draw.pick(&[0, 0, 0, 1]);
    let pattern = if ticket.is_empty() { vec![1] } else { ticket.clone() };
    ticket.extend(pattern.into_iter().cycle().take(length));
    ticket.truncate(length);
}
