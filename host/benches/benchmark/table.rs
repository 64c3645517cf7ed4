//! The table, as Markdown that reads well in a terminal too.
use crate::timing::{FORMS, Measured, SAMPLE_NS, SAMPLES};

/// Three significant digits, in ns or µs.
fn duration(ns: f64) -> String {
    let (number, unit) = if ns < 999.5 { (ns, "ns") } else { (ns / 1000.0, "µs") };
    let text = match number {
        x if x < 9.995 => format!("{x:.2}"),
        x if x < 99.95 => format!("{x:.1}"),
        x if x < 999.5 => format!("{x:.0}"),
        x => format!("{:.0}", (x / 10.0).round() * 10.0),
    };
    format!("{text} {unit}")
}

fn line<const N: usize>(cells: &[String; N], widths: &[usize; N]) {
    let mut text = String::from("|");
    for (at, (cell, &width)) in cells.iter().zip(widths).enumerate() {
        text += &if at == 0 { format!(" {cell:<width$} |") } else { format!(" {cell:>width$} |") };
    }
    println!("{text}");
}

fn head() {
    let [_, direct, best] = FORMS;
    let long = SAMPLE_NS / 1000;
    println!(
        "Time of a call: the best of {SAMPLES} samples of {long} µs or more, the three forms in turn. Release build, generic"
    );
    println!(
        "x86-64, one thread. No buffer is cleared before a call, and no call is inlined. Code rules: the mean over all valid"
    );
    println!(
        "arguments. {direct}: document 01's sums as they stand, the codes in tables, the bench by value. {best}: the fastest safe"
    );
    println!("Rust found, the bench in place.");
    println!();
}

pub fn print(measured: &[Measured]) {
    head();
    let titles = ["call", FORMS[0], FORMS[1], FORMS[2], "library/direct", "library/best"].map(String::from);
    let rows: Vec<[String; 6]> = measured
        .iter()
        .map(|(name, [l, d, b])| {
            let ratio = |form: f64| format!("{:.2}", l / form);
            [name.clone(), duration(*l), duration(*d), duration(*b), ratio(*d), ratio(*b)]
        })
        .collect();
    print_rows(titles, rows);
}

/// Titles and rows in columns, all but the first one to the right.
pub fn print_rows<const N: usize>(titles: [String; N], rows: Vec<[String; N]>) {
    let widths: [usize; N] = std::array::from_fn(|column| {
        rows.iter().chain([&titles]).map(|row| row[column].chars().count()).max().expect("there are titles")
    });
    let rules: [String; N] =
        std::array::from_fn(|at| if at == 0 { "-".repeat(widths[0]) } else { "-".repeat(widths[at] - 1) + ":" });
    [&titles, &rules].into_iter().chain(&rows).for_each(|row| line(row, &widths));
}
