//! The rows as Markdown.

use oracle::calls::Call;

use crate::cases::{FULL, SMALL};
use crate::timing::{Figure, columns, is_pass};

pub struct Row {
    pub call: Call,
    pub name: &'static str,
    pub records: usize,
    pub figures: Vec<Figure>,
}

impl Row {
    fn library(&self) -> f64 {
        self.figures[0].lowest()
    }
}

pub fn line(cells: impl IntoIterator<Item = String>) {
    println!("| {} |", cells.into_iter().collect::<Vec<_>>().join(" | "));
}

pub fn head(cells: Vec<String>) {
    let rule = vec!["---".to_string(); cells.len()];
    line(cells);
    line(rule);
}

fn time(figure: &Figure) -> String {
    let [lowest, low, median, high] = figure.0;
    format!("{median:.1} ({lowest:.1}; {low:.1} to {high:.1})")
}

/// The table of one call.
pub fn call_table(rows: &[Row], call: Call) {
    let ratios = if is_pass(call) { 2 } else { 1 };
    let names = columns(call);
    println!("\n### {}\n", call.name());
    let mut heads = vec!["ticket".to_string(), "records".to_string()];
    heads.extend(names.iter().map(|name| format!("{name}, µs")));
    heads.extend(names[1..=ratios].iter().map(|name| format!("{name} / library")));
    heads.extend(["growth", "above the empty", &format!("growth, {}", names[1])].map(String::from));
    head(heads);
    for row in rows.iter().filter(|row| row.call == call) {
        let mut cells = vec![row.name.to_string(), row.records.to_string()];
        cells.extend(row.figures.iter().take(ratios + 1).map(time));
        cells.extend(row.figures.iter().skip(ratios + 1).map(|f| format!("{:.1}", f.median())));
        cells.extend(row.figures[1..=ratios].iter().map(|f| format!("{:.1}", f.lowest() / row.library())));
        cells.extend(growth(rows, row));
        line(cells);
    }
}

/// The exponents of growth up to this row: the library's, that without an empty ticket's time, and the Rust's.
fn growth(rows: &[Row], row: &Row) -> [String; 3] {
    let find = |name: &str, records: usize| {
        rows.iter().find(|other| other.call == row.call && other.name == name && other.records == records)
    };
    let (Some(small), Some(empty), FULL) = (find(row.name, SMALL), find("empty", 0), row.records) else {
        return [const { String::new() }; 3];
    };
    let steps = (FULL as f64 / SMALL as f64).ln();
    let exponent = |full: f64, small: f64| format!("{:.2}", (full / small).ln() / steps);
    [
        exponent(row.library(), small.library()),
        exponent(row.library() - empty.library(), small.library() - empty.library()),
        exponent(row.figures[1].lowest(), small.figures[1].lowest()),
    ]
}

/// The library's calls beside each other.
pub fn summary(rows: &[Row], calls: &[Call]) {
    println!("\n### The library's calls on empty and full tickets, lowest times, µs\n");
    head(["ticket"].into_iter().chain(calls.iter().map(|call| call.name())).map(String::from).collect());
    let shown = |row: &&Row| row.call == calls[0] && matches!(row.records, 0 | FULL);
    for row in rows.iter().filter(shown) {
        let same = |call: Call| {
            rows.iter().find(|other| other.call == call && other.name == row.name && other.records == row.records)
        };
        let time = |&call: &Call| same(call).map_or("-".to_string(), |other| format!("{:.1}", other.library()));
        line([row.name.to_string()].into_iter().chain(calls.iter().map(time)));
    }
}

/// How far apart the quartiles lie.
pub fn noise(rows: &[Row]) {
    let mut spreads: Vec<f64> = rows.iter().flat_map(|row| row.figures.iter().map(Figure::spread)).collect();
    spreads.sort_by(f64::total_cmp);
    let share = |of: f64| 100.0 * spreads[((spreads.len() - 1) as f64 * of) as usize];
    println!(
        "\nQuartiles lie {:.0} % of the median apart in the middle figure, {:.0} % in nine of ten at the most, {:.0} % in the worst.",
        share(0.5),
        share(0.9),
        share(1.0)
    );
}
