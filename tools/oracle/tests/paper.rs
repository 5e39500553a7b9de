//! Tickets T1 to T15 as the paper and request 2026-06 print them, and the gate count as request 2026-03 words it.

use oracle::calls::{Answer, CALLS, Call, Lent, answer};
use oracle::lister::list;
use oracle::ticket::{self, AIG, OUTPUT, Record};
use oracle::{beside, paper, text};

fn bytes(name: &str) -> Vec<u8> {
    ticket::bytes(&paper::ticket(name))
}

fn call(call: Call, name: &str) -> Answer {
    answer(call, &bytes(name), Lent::AMPLE)
}

fn figures(answer: Answer) -> (u32, u32) {
    (answer.refusal, answer.place)
}

fn level(name: &str) -> Vec<u8> {
    call(Call::Levels, name).reply
}

fn listed(name: &str) -> String {
    list(&bytes(name))
}

#[test]
fn t1_empty() {
    for call in CALLS {
        assert_eq!(answer(call, &[], Lent { reply_bytes: 0, ..Lent::AMPLE }), Answer::default());
    }
    assert_eq!(list(&[]), "");
}

#[test]
fn t2_and() {
    assert_eq!(listed("T2"), "0 1 0 0 1 0 0\n1 1 0 0 2 0 0\n2 2 0 0 5 9 0\n3 9 0 0 2 3 0\n");
}

#[test]
fn t3_or() {
    let expected = "0 1 0 0 1 0 0\n1 1 0 0 2 0 0\n2 2 0 0 6 9 0\n3 9 3 0 2 3 0\n4 4 0 0 5 0 0\n";
    assert_eq!(listed("T3"), expected);
}

#[test]
fn t4_xor_of_undefined() {
    assert_eq!(listed("T4"), "0 2 0 0 0 9 0\n");
    assert_eq!(level("T4"), [2]);
    let rewritten = call(Call::Rewrite, "T4").reply;
    assert_eq!(answer(Call::Levels, &rewritten, Lent::AMPLE).reply, [0]);
}

#[test]
fn t5_not_not() {
    assert_eq!(listed("T5"), "0 1 0 0 1 0 0\n1 2 0 0 2 9 0\n");
}

#[test]
fn t6_stale_operands() {
    let rewritten = ticket::records(&call(Call::Rewrite, "T6").reply);
    let gates = "9 0 0 9 10 0\n9 0 0 6 9 0\n2 0 0 7 9 0\n7 0 0 2 3 0\n7 0 0 4 5 0";
    assert_eq!(rewritten[..4], paper::ticket("T6")[..4]);
    assert_eq!(rewritten[4..], text::records(gates));
}

#[test]
fn t7_fresh_operands() {
    let rewritten = ticket::records(&call(Call::Rewrite, "T7").reply);
    assert_eq!(rewritten.len(), 8);
    assert_eq!(ticket::count_kind(&rewritten, AIG), 1);
}

#[test]
fn t8_merge() {
    let merged = call(Call::Merge, "T8");
    assert_eq!((merged.count, merged.extra), (48, 0));
    let merged = call(Call::Merge, "T8 with a further output");
    assert_eq!(merged.extra, 1);
    let records = text::records("1 0 0 1 0 0\n4 0 0 2 0 0\n2 0 0 3 8 0\n2 0 0 3 9 0");
    assert_eq!(ticket::records(&merged.reply), records);
}

#[test]
fn t9_t10_loop_and_loose() {
    assert_eq!(figures(call(Call::Check, "T9")), (8, 0));
    assert_eq!(figures(call(Call::Check, "T10")), (7, 0));
    assert_eq!(figures(call(Call::Check, "T10 of one")), (0, 0));
    assert_eq!([listed("T9"), listed("T10")], ["refused 8 0\n", "refused 7 0 1\n"]);
}

#[test]
fn t11_mux() {
    assert_eq!(level("T11 equal arms"), [1]);
    assert_eq!(level("T11 unequal arms"), [2]);
}

#[test]
fn t12_bit_reads_bit() {
    assert_eq!(figures(call(Call::Check, "T12")), (0, 0));
}

#[test]
fn t13_lengths() {
    let inputs = |count| ticket::bytes(&paper::inputs(count));
    let refusal = |ticket: &[u8], work_words| answer(Call::Check, ticket, Lent { work_words, ..Lent::AMPLE }).refusal;
    assert_eq!(refusal(&inputs(512), 16_384), 0);
    assert_eq!(refusal(&inputs(513), 16_384), 3);
    assert_eq!(refusal(&[0; 17], 16_384), 2);
    assert_eq!(refusal(&[0; 17], 16_383), 1);
}

#[test]
fn the_lister_reads_no_further() {
    let listed = |length| list(&vec![1; length]);
    assert_eq!(listed(8_193), "refused 2 0\n");
    assert_eq!(listed(8_207), "refused 2 0\n");
    assert_eq!(listed(8_208), "refused 3 0\n");
    assert_eq!(listed(8_209), "refused 3 0\n");
}

#[test]
fn t14_bench() {
    let (rewritten, slots) = beside::rewrite(&paper::ors(40, 328));
    assert_eq!((rewritten.len(), slots), (40, 1024));
    let answer = |ors| answer(Call::Rewrite, &ticket::bytes(&paper::ors(40, ors)), Lent::AMPLE);
    assert_eq!(answer(328).count, 40 * 16);
    assert_eq!(figures(answer(329)), (9, 0));
}

#[test]
fn a_result_may_be_too_long_for_a_ticket() {
    let rewritten = answer(Call::Rewrite, &ticket::bytes(&paper::outgrown()), Lent::AMPLE);
    assert_eq!(rewritten.count, 530 * 16);
    assert_eq!(figures(answer(Call::Rewrite, &rewritten.reply, Lent::AMPLE)), (3, 0));
}

#[test]
fn t15_spoilt() {
    assert_eq!(figures(call(Call::Check, "T15 and-inverter")), (5, 0));
    assert_eq!(figures(call(Call::Check, "T15 not")), (5, 0));
}

/// Records that can stand alone, with what request 2026-03 counts for each.
const CHARGES: [(&str, u32); 12] = [
    ("1 0 0 7 0 0", 0),
    ("2 0 0 1 9 0", 0),
    ("3 0 0 1 0 0", 0),
    ("4 0 0 1 0 0", 0),
    ("5 0 0 0 1 0", 1),
    ("6 0 0 1 X 0", 1),
    ("7 0 0 X X 0", 1),
    ("8 0 0 X 0 1", 1),
    ("9 0 0 0 1 0", 1),
    ("9 1 0 0 1 0", 1),
    ("9 2 0 0 1 0", 1),
    ("9 3 0 0 1 0", 1),
];

fn gates(records: &[Record]) -> u32 {
    let checked = answer(Call::Check, &ticket::bytes(records), Lent::AMPLE);
    assert_eq!((checked.refusal, checked.place, checked.count), (0, 0, records.len() as u32), "{records:?}");
    checked.extra
}

fn gates_of(lines: &str) -> u32 {
    gates(&text::records(lines))
}

/// A cell whose records differ in their bits alone.
fn wide(line: &str, width: u16) -> Vec<Record> {
    (0..width).map(|bit| Record { bit, ..text::record(line) }).collect()
}

#[test]
fn each_kind_has_its_charge() {
    for (line, charge) in CHARGES {
        assert_eq!(gates_of(line), charge, "{line}");
    }
    for (line, charge) in &CHARGES[2..] {
        assert_eq!(gates(&[text::record(line); 2]), 2 * charge, "{line}");
        assert_eq!(gates(&[text::record(line); 512]), 512 * charge, "{line}");
    }
    assert_eq!(gates_of(&CHARGES.map(|(line, _)| line).join("\n")), 8);
    assert_eq!(gates(&[]), 0);
}

#[test]
fn inputs_and_outputs_are_no_gates() {
    assert_eq!(gates(&paper::inputs(512)), 0);
    let outputs: Vec<Record> = (0..512).map(|label| Record::new(OUTPUT, 1, label, 0)).collect();
    assert_eq!(gates(&outputs), 0);
    assert_eq!(gates_of("1 0 0 1 0 0\n8 0 0 2 0 1\n2 0 0 3 7 0\n2 0 0 3 8 0\n2 0 0 2 9 0"), 1);
    assert_eq!(gates(&paper::outgrown()), 170);
}

#[test]
fn each_bit_of_a_wide_gate_is_charged() {
    // Outputs and and-inverters have one bit.
    for (line, charge) in [0, 2, 3, 4, 5, 6, 7].map(|place| CHARGES[place]) {
        for width in [2, 3, 256, 257, 512] {
            assert_eq!(gates(&wide(line, width)), u32::from(width) * charge, "{width} {line}");
        }
    }
    let cells = [
        wide("1 0 0 7 0 0", 2),
        wide("3 0 0 2 0 0", 5),
        wide("4 0 0 3 0 0", 7),
        wide("5 0 0 2 3 0", 10),
        wide("5 0 0 4 3 0", 20),
        wide("6 0 0 2 3 0", 30),
        wide("7 0 0 2 3 0", 40),
        wide("8 0 0 2 3 1", 50),
        wide("8 0 0 3 2 1", 60),
    ];
    assert_eq!(gates(&cells.concat()), 210);
}

#[test]
fn gates_that_no_output_reaches_are_charged() {
    let records = "
        1 0 0 1 0 0
        1 0 0 2 0 0
        5 0 0 2 3 0
        5 0 1 3 2 0
        5 0 0 2 3 0
        6 0 0 2 3 0
        7 0 0 4 2 0
        8 0 0 2 3 8
        9 1 0 2 3 0
        4 0 0 10 0 0
        3 0 0 11 0 0\n";
    assert_eq!(gates_of(records), 7);
    for net in 0..13 {
        assert_eq!(gates_of(&format!("{records}2 0 0 {net} 9 0")), 7, "output of {net}");
    }
}

#[test]
fn inverters_are_free_wherever_they_stand() {
    let before_a_gate = "1 0 0 1 0 0\n4 0 0 2 0 0\n6 0 0 3 2 0\n2 0 0 4 9 0";
    let between_gates = "1 0 0 1 0 0\n5 0 0 2 1 0\n4 0 0 3 0 0\n7 0 0 4 2 0\n2 0 0 5 9 0";
    let before_an_output = "1 0 0 1 0 0\n9 3 0 2 1 0\n4 0 0 3 0 0\n2 0 0 4 9 0";
    let of_a_constant = "4 0 0 X 0 0\n2 0 0 2 9 0";
    let counts = [before_a_gate, between_gates, before_an_output, of_a_constant].map(gates_of);
    assert_eq!(counts, [1, 2, 1, 0]);
}

#[test]
fn the_papers_tickets_have_their_gates() {
    for (name, count) in [
        ("T2", 1),
        ("T3", 1),
        ("T4", 1),
        ("T5", 0),
        ("T6", 4),
        ("T7", 4),
        ("T8", 0),
        ("T8 with a further output", 0),
        ("T10 of one", 0),
        ("T11 equal arms", 1),
        ("T11 unequal arms", 1),
        ("T12", 0),
    ] {
        assert_eq!(gates(&paper::ticket(name)), count, "{name}");
    }
    assert_eq!(gates(&paper::ors(40, 328)), 328);
}
