//! The headers as a C host has them. The programs in c/ are compiled and run: a lesson, every call, and the layout of
//! every struct, which is held to the library's own there and to `smugolec::ffi` here.
mod common;

use common::{Compiler, c_compiler, compile, cpp_compiler, run, same, text};
use smugolec::ffi;
use std::collections::BTreeSet;
use std::mem::{align_of, offset_of, size_of};

const LAYOUT: [&str; 8] = [
    "c/layout.c",
    "c/layout/answers.c",
    "c/layout/fields.c",
    "c/layout/left.c",
    "c/layout/plans.c",
    "c/layout/probe.c",
    "c/layout/results.c",
    "c/layout/table.c",
];

#[test]
fn the_lesson_is_answered_as_its_script() {
    let due = text("../lessons/first-slot.out");
    for standard in ["-std=c99", "-std=c11"] {
        let found = run(&compile(&c_compiler(), &[standard], &["c/lesson.c"]));
        for (n, (found, due)) in found.lines().zip(due.lines()).enumerate() {
            assert_eq!(found, due, "lesson.c, {standard}, answer {}: left is found, right is due", n + 1);
        }
        assert_eq!(found, due, "lesson.c, {standard}: left is found, right is due");
    }
}

#[test]
fn every_call_answers_and_leaves_what_is_due() {
    run(&compile(&c_compiler(), &["-std=c11"], &["c/calls.c"]));
}

#[test]
fn the_layout_is_the_librarys_and_that_of_rust() {
    let table = run(&compile(&c_compiler(), &["-std=c11"], &LAYOUT));
    let lines = table.lines().map(str::to_owned).collect();
    same("a line of the layout", ("C", &lines), ("Rust", &rust_layout()));

    let names: BTreeSet<String> = table.lines().filter_map(|line| line.split(' ').next()).map(str::to_owned).collect();
    let declared = ["../include/tdd_bench.h", "../include/tdd_codes.h"].iter().flat_map(|h| declared_names(&text(h)));
    same("a struct or field", ("layout.c", &names), ("the headers", &declared.collect()));

    let structs = names.into_iter().filter(|name| !name.contains('.')).collect();
    let of_rust =
        text("src/ffi.rs").split("pub struct ").skip(1).filter_map(|s| s.split(' ').next().map(c_struct)).collect();
    same("a struct", ("layout.c", &structs), ("ffi.rs", &of_rust));
}

#[test]
fn the_headers_compile_as_c99() {
    run_headers(&c_compiler(), ["-xc", "-std=c99"]);
}

#[test]
fn the_headers_compile_as_cpp17() {
    match cpp_compiler() {
        Some(compiler) => run_headers(&compiler, ["-xc++", "-std=c++17"]),
        None => eprintln!("not tested: there is no C++ compiler `c++`, and CXX names none"),
    }
}

/// With each header first.
fn run_headers(compiler: &Compiler, [language, standard]: [&str; 2]) {
    for first in ["-DCODES_FIRST", "-DBENCH_FIRST", "-DREFUSALS_FIRST"] {
        run(&compile(compiler, &[language, standard, first], &["c/headers.c"]));
    }
}

// ---- Layout ----

/// The structs that a header declares, and `struct.field` for their fields.
fn declared_names(header: &str) -> Vec<String> {
    let mut names = Vec::new();
    for body in header.split("typedef struct {").skip(1) {
        let (fields, rest) = body.split_once("} ").expect("a struct ends with its name");
        let (name, _) = rest.split_once(';').expect("a struct ends with its name");
        names.push(name.to_owned());
        for declaration in fields.split(';').filter(|declaration| !declaration.trim().is_empty()) {
            let field = declaration.split_whitespace().last().and_then(|word| word.split('[').next());
            names.push(format!("{name}.{}", field.expect("a field has a name")));
        }
    }
    names
}

/// `PlanRecords` is `tdd_plan_records`.
fn c_struct(name: &str) -> String {
    let word = |c: char| if c.is_uppercase() { format!("_{}", c.to_lowercase()) } else { c.to_string() };
    format!("tdd{}", name.chars().map(word).collect::<String>())
}

/// `case` is a word of C's own.
fn c_field(name: &str) -> &str {
    if name == "case" { "sync_case" } else { name }
}

fn size_of_field<S, F>(_: fn(&S) -> &F) -> usize {
    size_of::<F>()
}

/// The lines of layout.c's table for structs of `smugolec::ffi`. A field that is not listed does not compile.
macro_rules! layout_of {
    ($($name:ident { $($field:ident),+ })+) => {{
        let mut lines = BTreeSet::new();
        $(
            let _every_field = |ffi::$name { $($field: _),+ }: ffi::$name| ();
            let of = c_struct(stringify!($name));
            lines.insert(format!("{of} {} {}", size_of::<ffi::$name>(), align_of::<ffi::$name>()));
            $(
                let (field, offset) = (c_field(stringify!($field)), offset_of!(ffi::$name, $field));
                let size = size_of_field(|s: &ffi::$name| &s.$field);
                lines.insert(format!("{of}.{field} {offset} {size}"));
            )+
        )+
        lines
    }};
}

fn rust_layout() -> BTreeSet<String> {
    layout_of! {
        Sync { on, case, frame, half, gp, gs }
        Settings { cell, kind, gains, pairs, sync }
        Bench { settings, running, sending, position }
        Channel { q, k, gain }
        PlanRecords { records }
        CallResult { refusal, bench }
        PlanResult { refusal, place, bench }
        DrawResult { refusal, count, bench }
        SyncResult { refusal, group, frame, half }
        FindResult { refusal, start, size }
        Complex { re, im }
        ElementResult { refusal, element }
        RelatedResult { refusal, related }
        GroupResult { refusal, group }
        ChipResult { refusal, chip }
        ModulatedCode { code, unit }
        Allocated { first, second, marker }
        AllocationResult { refusal, codes }
        StartResult { refusal, start }
    }
}
