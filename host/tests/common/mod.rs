//! C programs compiled and run, and what is found held to what is due.
use std::collections::BTreeSet;
use std::io::ErrorKind;
use std::path::{Path, PathBuf};
use std::process::{Command, Output};

/// A compiler's command: a program, and options that it is always given.
pub type Compiler = Vec<String>;

fn named_by(variable: &str) -> Option<Compiler> {
    let words: Compiler = std::env::var(variable).ok()?.split_whitespace().map(str::to_owned).collect();
    (!words.is_empty()).then_some(words)
}

pub fn c_compiler() -> Compiler {
    named_by("CC").unwrap_or_else(|| vec!["cc".to_owned()])
}

/// None where CXX names none and there is no `c++`.
pub fn cpp_compiler() -> Option<Compiler> {
    named_by("CXX").or_else(|| {
        let there = Command::new("c++").arg("--version").output().is_ok();
        there.then(|| vec!["c++".to_owned()])
    })
}

fn package() -> &'static Path {
    Path::new(env!("CARGO_MANIFEST_DIR"))
}

pub fn text(path: &str) -> String {
    std::fs::read_to_string(package().join(path)).unwrap_or_else(|error| panic!("{path} cannot be read: {error}"))
}

/// Compiles with every warning an error, links with both libraries, and gives the program.
pub fn compile(compiler: &Compiler, options: &[&str], sources: &[&str]) -> PathBuf {
    let name = format!("{} {}", sources[0], options.join(" ")).replace(['/', ' '], "_");
    let program = Path::new(env!("CARGO_TARGET_TMPDIR")).join(name);
    let mut command = Command::new(&compiler[0]);
    command.current_dir(package()).args(&compiler[1..]).args(options);
    command.args(["-O2", "-Wall", "-Wextra", "-Werror", "-pedantic", "-I../include"]).args(sources);
    command.args(["-L../lib", "-ltdd_bench", "-ltdd_codes", "-o"]).arg(&program);
    let output = command.output().unwrap_or_else(|error| match error.kind() {
        ErrorKind::NotFound => panic!("there is no compiler `{}`; right is: one, or CC and CXX name one", compiler[0]),
        _ => panic!("the compiler `{}` cannot be run: {error}", compiler[0]),
    });
    assert!(output.status.success(), "{} must compile without a warning\n{}", sources[0], told(&output));
    program
}

/// What a program prints. It must end with status 0.
pub fn run(program: &Path) -> String {
    let name = program.display();
    let output = Command::new(program).output().unwrap_or_else(|error| panic!("{name} cannot be run: {error}"));
    assert!(output.status.success(), "{name}: found {}, due is exit status 0\n{}", output.status, told(&output));
    String::from_utf8(output.stdout).expect("the programs print ASCII")
}

fn told(output: &Output) -> String {
    [&output.stderr[..], &output.stdout[..]].map(String::from_utf8_lossy).concat()
}

pub fn same(what: &str, one: (&str, &BTreeSet<String>), other: (&str, &BTreeSet<String>)) {
    let mut missing = Vec::new();
    for ((has, of_one), (lacks, of_other)) in [(one, other), (other, one)] {
        missing.extend(of_one.difference(of_other).map(|line| format!("{what} in {has} and not in {lacks}: {line}\n")));
    }
    assert!(missing.is_empty(), "found differences, due are none\n{}", missing.concat());
}
