//! The words of refusals stand in one table, which the program's call `refusals` prints and docs/TDD.md has. Those of
//! Rust and C are held to it, and the constants of the two to each other.
mod common;

use common::{Compiler, c_compiler, compile, cpp_compiler, run, same, text};
use smugolec::{Bench, Channel, PlanRefusal, Refusal};
use std::collections::{BTreeMap, BTreeSet};

const NO_REFUSAL: &str = "no refusal has this number";

/// Words by number: the rows `NUMBER: words` of the manual. Rows with calls behind the number are for lines of a script,
/// and their number must have a row without, for hosts.
fn table() -> BTreeMap<u32, String> {
    let manual = text("../docs/TDD.md");
    let (_, section) = manual.split_once("\n## What refusals says\n").expect("docs/TDD.md has the table");
    let section = section.split("\n## ").next().expect("a section ends");
    let (mut words_of, mut of_calls) = (BTreeMap::new(), BTreeSet::new());
    for row in section.lines().filter_map(|line| line.strip_prefix("    ")) {
        let (head, words) = row.split_once(": ").unwrap_or_else(|| panic!("`{row}` is no row; right is `N: words`"));
        let (number, calls) = head.split_once(' ').unwrap_or((head, ""));
        let number: u32 = number.parse().unwrap_or_else(|_| panic!("`{row}` does not begin with a number"));
        if !calls.is_empty() {
            of_calls.insert(number);
        } else if words_of.insert(number, words.to_owned()).is_some() {
            panic!("docs/TDD.md has two rows for {number}; due is one");
        }
    }
    for number in of_calls {
        assert!(words_of.contains_key(&number), "docs/TDD.md has no row `{number}: words`, only rows with calls");
    }
    words_of
}

/// Numbers that are asked for: all that a byte has, and two that are one of these where upper bits are dropped.
fn numbers() -> impl Iterator<Item = u32> {
    (0..=255).chain([0x106, 0x8000_0000])
}

#[test]
fn rust_has_the_words_of_the_table() {
    let table = table();
    let due = table.iter().map(|(number, words)| format!("{number}: {words}")).collect();
    let found = Refusal::ALL.iter().map(|refusal| format!("{}: {}", refusal.0, refusal.meaning())).collect();
    same("a refusal", ("Rust", &found), ("docs/TDD.md", &due));

    for number in numbers().filter(|number| !table.contains_key(number)) {
        let refusal = Refusal(number);
        assert_eq!((refusal.meaning(), refusal.name()), (NO_REFUSAL, None), "{number} is no refusal's: left is found");
    }
}

#[test]
fn c_has_the_words_of_the_table_and_the_constants_of_rust() {
    for standard in ["-std=c99", "-std=c11"] {
        hold_c(&c_compiler(), ["-xc", standard]);
    }
}

#[test]
fn cpp_has_the_same() {
    match cpp_compiler() {
        Some(compiler) => hold_c(&compiler, ["-xc++", "-std=c++17"]),
        None => eprintln!("not tested: there is no C++ compiler `c++`, and CXX names none"),
    }
}

/// Holds what c/refusals.c prints.
fn hold_c(compiler: &Compiler, options: [&str; 2]) {
    let printed = run(&compile(compiler, &options, &["c/refusals.c"]));
    let (words, constants) = printed.lines().map(str::to_owned).partition(|line| line.starts_with(char::is_numeric));

    let mut words_of = table();
    words_of.insert(0, "accepted".to_owned());
    let row = |number| format!("{number}: {}", words_of.get(&number).map_or(NO_REFUSAL, String::as_str));
    same("words", ("C", &words), ("what is due by docs/TDD.md", &numbers().map(row).collect()));

    let constant = |refusal: &Refusal| format!("TDD_REFUSED_{} = {}", refusal.name().unwrap_or("?"), refusal.0);
    let mut of_rust: BTreeSet<String> = Refusal::ALL.iter().map(constant).collect();
    of_rust.insert("TDD_ACCEPTED = 0".to_owned());
    same("a constant", ("C", &constants), ("Rust", &of_rust));
}

#[test]
fn a_refusal_is_told_as_the_program_tells_it() {
    let mut bench = Bench::fresh();
    assert_eq!(bench.open(4, 1, 3), Ok(()));
    let refusal = bench.open(16, 5, 1).expect_err("(16, 5) lies below (4, 1)");
    assert_eq!(refusal, Refusal::RELATED);
    assert_eq!(refusal.to_string(), "refused 6: the code is related to an open code");

    let plan = [(4, 1), (4, 2), (8, 3)].map(|(q, k)| Channel { q, k, gain: 1 });
    let refusal = bench.load_plan(&plan).expect_err("(8, 3) lies below (4, 1)");
    assert_eq!(refusal, PlanRefusal { refusal: Refusal::RELATED, place: 2 });
    assert_eq!(refusal.to_string(), "refused 6 place 2: the code is related to an open code");
}
