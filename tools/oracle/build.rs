//! Lays the Rust's files out below OUT_DIR, so that they compile unchanged, and
//! beside them a copy of the two rule files that counts which arm is taken.

use std::path::{Path, PathBuf};
use std::{env, fs};

/// Root files of the netlist crate, in the order of their modules.
const NETLIST: [&str; 6] = ["value", "logic", "cell", "design", "rewrite", "metadata"];
const CELL: [&str; 5] = ["decision", "flip_flop", "memory", "io_buffer", "instance"];

fn main() {
    let out = PathBuf::from(env::var("OUT_DIR").unwrap());
    let here = PathBuf::from(env::var("CARGO_MANIFEST_DIR").unwrap());
    println!("cargo::rerun-if-env-changed=PRJUNNAMED_SRC");
    println!("cargo::rerun-if-changed=arms.tsv");
    let rust = env::var("PRJUNNAMED_SRC").map_or_else(|_| here.join("../../../shared/docs/src"), PathBuf::from);
    let netlist = rust.join("netlist/src");
    let generic = rust.join("generic/src");

    let mut modules = String::new();
    for name in NETLIST {
        modules += &lay(&netlist.join(format!("{name}.rs")), &out, name);
    }
    // A file reached by a path attribute looks for its own modules beside itself.
    for name in CELL {
        lay(&netlist.join(format!("cell/{name}.rs")), &out, name);
    }
    lay(&here.join("src/shims/target_cell.rs"), &out, "target");
    for (file, name) in [("merge", "merge"), ("rewrite/aig", "aig"), ("rewrite/normalize", "normalize")] {
        modules += &lay(&generic.join(format!("{file}.rs")), &out, name);
    }
    let arms = Arms::read(&here.join("arms.tsv"));
    for name in ["aig", "normalize"] {
        let counted = format!("{name}_counted");
        write(&out, &counted, &arms.count(name, &read(&generic.join(format!("rewrite/{name}.rs")))));
        modules += &declare(&out, &counted);
    }
    modules += &arms.table();
    write(&out, "modules", &modules);
}

fn read(path: &Path) -> String {
    println!("cargo::rerun-if-changed={}", path.display());
    fs::read_to_string(path).unwrap_or_else(|error| panic!("{}: {error} (set PRJUNNAMED_SRC)", path.display()))
}

fn write(out: &Path, name: &str, text: &str) {
    fs::write(out.join(format!("{name}.rs")), text).unwrap();
}

fn declare(out: &Path, name: &str) -> String {
    format!(
        "#[allow(clippy::all, dead_code, unused_imports, unexpected_cfgs, irrefutable_let_patterns)]\n#[path = {:?}]\npub mod {name};\n",
        out.join(format!("{name}.rs"))
    )
}

/// Copies one file byte for byte and gives its declaration.
fn lay(from: &Path, out: &Path, name: &str) -> String {
    write(out, name, &read(from));
    declare(out, name)
}

struct Arm {
    file: String,
    line: usize,
    name: String,
    effect: String,
    /// An expression of type usize over the names in scope at the arm.
    variant: String,
    variants: String,
}

/// The table of arms: file, line, name, effect, names of variants, expression that tells the variant.
struct Arms(Vec<Arm>);

impl Arms {
    fn read(path: &Path) -> Arms {
        let arm = |row: &str| {
            let fields: Vec<&str> = row.split('\t').collect();
            Arm {
                file: fields[0].into(),
                line: fields[1].parse().unwrap(),
                name: fields[2].into(),
                effect: fields[3].into(),
                variants: fields.get(4).copied().unwrap_or("-").into(),
                variant: fields.get(5).copied().unwrap_or("0").into(),
            }
        };
        Arms(read(path).lines().filter(|row| !row.starts_with('#')).map(arm).collect())
    }

    /// Puts a counter at each arm of the file; a loop over both orders also counts its turns.
    fn count(&self, file: &str, text: &str) -> String {
        let mut counted = String::new();
        for (number, line) in (1..).zip(text.lines()) {
            let arm = self.0.iter().position(|arm| arm.file == file && arm.line == number);
            counted += &match arm {
                Some(index) => hit(index, &self.0[index], line),
                None => turn(line),
            };
            counted.push('\n');
        }
        counted
    }

    /// The names that the counters' numbers stand for.
    fn table(&self) -> String {
        let row = |Arm { file, line, name, effect, variants, .. }: &Arm| {
            format!(
                "arms::Arm {{ file: {file:?}, line: {line}, name: {name:?}, effect: {effect:?}, variants: {variants:?} }},"
            )
        };
        let rows: String = self.0.iter().map(row).collect();
        format!("pub const ARMS: &[arms::Arm] = &[{rows}];\n")
    }
}

/// The line with a counter before its `return`, behind its `=>`, or before its last value.
fn hit(index: usize, arm: &Arm, line: &str) -> String {
    let counter = format!("crate::arms::hit({index}, {}, [order, order_a, order_b]);", arm.variant);
    let (before, after) = match line.find("=> ") {
        Some(at) => line.split_at(at + 3),
        None => line.split_at(line.len() - line.trim_start().len()),
    };
    match after {
        _ if before.trim().is_empty() => format!("{before}{counter} {after}"),
        "{" => format!("{before}{{ {counter}"),
        _ => format!("{before}{{ {counter} {} }}", after.trim_end_matches(',')),
    }
}

/// Numbers the turns of a loop over both orders; a rule begins outside every loop.
fn turn(line: &str) -> String {
    let text = line.trim_start();
    if text.starts_with("match *cell {") || text.starts_with("match cell {") {
        return format!("let [order, order_a, order_b] = [crate::arms::NO_ORDER; 3]; {line}");
    }
    let Some((pattern, orders)) = text.strip_prefix("for ").and_then(|rest| rest.split_once(" in [(")) else {
        return line.into();
    };
    let order = match pattern {
        "(net_a, net_b)" => "order",
        "(net_aa, net_ab)" | "(net_aa, _net_ab)" => "order_a",
        "(net_ba, net_bb)" | "(net_ba, _net_bb)" => "order_b",
        other => panic!("a loop over orders that has no name: {other}"),
    };
    let orders = orders.trim_end_matches(" {");
    format!("for ({order}, {pattern}) in [({orders}.into_iter().enumerate() {{")
}
