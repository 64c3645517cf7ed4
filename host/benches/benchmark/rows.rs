//! The rows of the table.
use crate::inputs::{self, Random};
use crate::tables::NUMBERS;
use crate::timing::{Buffers, Calls, Form, Row, by_value, for_each, kept, plain};
use crate::{Answer, best, direct, library_has_byte_above_1};
use smugolec::analyser::{self, Candidate, Peak};
use smugolec::codes::{self, Allocated};
use smugolec::ffi::{self, CallResult};
use smugolec::{Bench, CellParameter, Channel, CodeGroup, Complex, Refusal};
use std::fmt::Debug;
use std::hint::black_box;

type Rows = Vec<Box<dyn Row>>;

pub fn all() -> Rows {
    let mut rows = Rows::new();
    draws(&mut rows);
    small_calls(&mut rows);
    plans(&mut rows);
    load_bits(&mut rows);
    draw_one_chip(&mut rows);
    for q in [1, 4, 16] {
        read(&mut rows, q, q / 3);
    }
    harden(&mut rows);
    read_sync(&mut rows, 1);
    read_sync(&mut rows, 2);
    find(&mut rows);
    tree_rules(&mut rows);
    sync_rules(&mut rows);
    byte_tests(&mut rows);
    rows
}

/// A row of a bench's call.
fn on<T: Clone + PartialEq + Debug + 'static>(rows: &mut Rows, name: &str, bench: &ffi::Bench, forms: [Form<T>; 3]) {
    rows.push(Box::new(Calls::new(name, 1, *bench, Buffers::new(2600, 0), forms)));
}

/// A row of a call without a bench.
fn alone<T: Clone + PartialEq + Debug + 'static>(rows: &mut Rows, name: &str, buffers: Buffers, forms: [Form<T>; 3]) {
    rows.push(Box::new(Calls::new(name, 1, ffi::tdd_bench_fresh(), buffers, forms)));
}

fn number(refusal: Refusal) -> u32 {
    refusal.0
}

// ---- Draws of a whole slot.

fn draws(rows: &mut Rows) {
    let plans = [(1, 16), (1, 1), (4, 4), (4, 16), (16, 16)];
    for (count, q) in plans {
        let bench = inputs::bench(&inputs::plan(q, count));
        let codes = format!("{count} code{} of Q {q}", if count == 1 { "" } else { "s" });
        draw(rows, &format!("start + 1 draw of 2,560 chips, {codes}"), 2560, &bench);
        draw(rows, &format!("start + 40 draws of 64 chips, {codes}"), 64, &bench);
    }
    let mut bench = Bench::from_ffi(inputs::bench(&inputs::plan(16, 16)));
    bench.set_sync(2, 2, 1, 1000, 700).expect("a sync burst");
    draw(rows, "start + 1 draw of 2,560 chips, 16 codes of Q 16 and sync burst", 2560, bench.as_ffi());
}

/// The buffers of the draws of a slot.
fn parts(x: &mut Buffers, length: usize) -> impl Iterator<Item = (&mut [i32], &mut [i32])> {
    x.re[..2560].chunks_exact_mut(length).zip(x.im[..2560].chunks_exact_mut(length))
}

fn draw(rows: &mut Rows, name: &str, length: usize, bench: &ffi::Bench) {
    let library = kept(move |b: &mut Bench, x| {
        b.start().map_err(number)?;
        parts(x, length).try_fold(0, |sum, (re, im)| Ok(sum + b.draw(re, im).map_err(number)?))
    });
    let direct = by_value(move |b, x| {
        let (answer, mut bench) = b.start();
        let mut sum = answer.map(|()| 0);
        for (re, im) in parts(x, length) {
            let (answer, new) = bench.draw(re, im);
            bench = new;
            sum = sum.and_then(|sum| Ok(sum + answer?));
        }
        (sum, bench)
    });
    let best = kept(move |b: &mut best::Bench, x| {
        b.start()?;
        parts(x, length).try_fold(0, |sum, (re, im)| Ok(sum + b.draw(re, im)?))
    });
    on::<Answer<usize>>(rows, name, bench, [library, direct, best]);
}

// ---- Calls of the bench that take and leave little.

/// What the library's safe wrappers do with a `CallResult`: they keep the bench that comes back.
fn keep(bench: &mut ffi::Bench, result: CallResult) -> Answer {
    *bench = result.bench;
    if result.refusal == 0 { Ok(()) } else { Err(result.refusal) }
}

/// A row for a call that changes settings or starts a slot. The library's function is called as its safe wrapper calls it. Where the call would be refused
/// the second time, one field is set back before it, in all three forms.
macro_rules! small {
    ($rows:ident, $name:expr, $bench:expr, $set_back:expr, $library:ident, $call:ident ($($argument:expr),*)) => {
        on($rows, $name, $bench, [
            kept(move |b: &mut ffi::Bench, _| {
                $set_back(b);
                keep(b, ffi::$library(*b, $(black_box($argument)),*))
            }),
            by_value(move |mut b, _| {
                $set_back(&mut b.0);
                b.$call($(black_box($argument)),*)
            }),
            kept(move |b: &mut best::Bench, _| {
                $set_back(&mut b.0);
                b.$call($(black_box($argument)),*)
            }),
        ])
    };
}

fn small_calls(rows: &mut Rows) {
    let full = &inputs::bench(&inputs::plan(16, 16));
    let as_is = |_: &mut ffi::Bench| ();
    let last_closed = |b: &mut ffi::Bench| b.settings.gains[30] = 0;
    let last_open = |b: &mut ffi::Bench| b.settings.gains[30] = 100;
    let no_slot = |b: &mut ffi::Bench| b.running = 0;
    on(
        rows,
        "fresh",
        full,
        [
            kept(|b: &mut ffi::Bench, _| *b = ffi::tdd_bench_fresh()),
            by_value(|_, _| ((), direct::Bench::fresh())),
            kept(|b: &mut best::Bench, _| b.make_fresh()),
        ],
    );
    small!(rows, "set cell", full, as_is, tdd_bench_set_cell, set_cell(9, 1));
    small!(rows, "open, the last of 16 codes of Q 16", full, last_closed, tdd_bench_open, open(16, 15, 100));
    small!(rows, "open, refused 6", full, as_is, tdd_bench_open, open(8, 7, 100));
    small!(rows, "open, refused 3", full, as_is, tdd_bench_open, open(3, 1, 100));
    small!(rows, "close", full, last_open, tdd_bench_close, close(16, 15));
    small!(rows, "set gain", full, as_is, tdd_bench_set_gain, set_gain(16, 5, 77));
    small!(rows, "set sync", full, as_is, tdd_bench_set_sync, set_sync(2, 2, 1, 1000, 700));
    small!(rows, "clear sync", full, as_is, tdd_bench_clear_sync, clear_sync());
    small!(rows, "start", full, no_slot, tdd_bench_start, start());
}

fn plans(rows: &mut Rows) {
    let mut failing = inputs::plan(16, 16);
    failing[15] = Channel { q: 8, k: 3, gain: 100 };
    let all = [
        ("load plan, 16 codes of Q 16", inputs::plan(16, 16)),
        ("load plan, 4 codes of Q 4", inputs::plan(4, 4)),
        ("load plan, refused 6 at place 15", failing),
    ];
    for (name, plan) in all {
        let plan: &[Channel] = plan.leak();
        on(
            rows,
            name,
            &inputs::bench(&inputs::plan(16, 16)),
            [
                kept(|b: &mut Bench, _| b.load_plan(black_box(plan)).map_err(|r| (r.refusal.0, r.place))),
                by_value(|b, _| b.load_plan(black_box(plan))),
                kept(|b: &mut best::Bench, _| b.load_plan(black_box(plan))),
            ],
        );
    }
}

fn load_bits(rows: &mut Rows) {
    let bits: &[u8] = Random(3904).bits(3904).leak();
    on(
        rows,
        "load bits, 3,904 bytes for Q 1",
        &inputs::bench(&inputs::plan(1, 1)),
        [
            kept(|b: &mut Bench, _| b.load_bits(1, 0, black_box(bits)).map_err(number)),
            by_value(|b, _| b.load_bits(1, 0, black_box(bits))),
            kept(|b: &mut best::Bench, _| b.load_bits(1, 0, black_box(bits))),
        ],
    );
}

/// Chip 100 of a slot each time: the position is set back.
fn draw_one_chip(rows: &mut Rows) {
    let mut bench = inputs::bench(&inputs::plan(16, 16));
    (bench.sending, bench.running) = (bench.settings, 1);
    on(
        rows,
        "draw of 1 chip, 16 codes of Q 16",
        &bench,
        [
            kept(|b: &mut ffi::Bench, x| {
                b.position = 100;
                // SAFETY: both buffers have an entry.
                let r = unsafe { ffi::tdd_bench_draw(*b, x.re.as_mut_ptr(), 1, x.im.as_mut_ptr(), 1) };
                (b.running, b.position) = (r.bench.running, r.bench.position);
                if r.refusal == 0 { Ok(r.count) } else { Err(r.refusal) }
            }),
            by_value(|mut b, x| {
                b.0.position = 100;
                b.draw(&mut x.re[..1], &mut x.im[..1])
            }),
            kept(|b: &mut best::Bench, x| {
                b.0.position = 100;
                b.draw(&mut x.re[..1], &mut x.im[..1])
            }),
        ],
    );
}

// ---- The analyser.

fn read(rows: &mut Rows, q: u32, k: u32) {
    let (re, im) = inputs::noise(976, 100_000);
    alone(
        rows,
        &format!("read, 976 chips, Q {q}"),
        Buffers::new(1000, 0),
        [
            plain(move |x| {
                let (re, im) = (black_box(re), black_box(im));
                analyser::read(CellParameter(8), q, k, re, im, &mut x.re, &mut x.im).map_err(number)
            }),
            plain(move |x| direct::read(8, q, k, black_box(re), black_box(im), &mut x.re, &mut x.im)),
            plain(move |x| best::read(8, q, k, black_box(re), black_box(im), &mut x.re, &mut x.im)),
        ],
    );
}

fn harden(rows: &mut Rows) {
    let (re, im) = inputs::noise(976, 1_600_000);
    alone(
        rows,
        "harden, 976 readings",
        Buffers::new(0, 2000),
        [
            plain(|x| analyser::harden(black_box(re), black_box(im), &mut x.bits).map_err(number)),
            plain(|x| direct::harden(black_box(re), black_box(im), &mut x.bits)),
            plain(|x| best::harden(black_box(re), black_box(im), &mut x.bits)),
        ],
    );
}

fn read_sync(rows: &mut Rows, case: u32) {
    let (re, im) = inputs::burst(case);
    alone::<Answer<Candidate>>(
        rows,
        &format!("read sync, case {case}"),
        Buffers::new(0, 0),
        [
            plain(move |_| analyser::read_sync(case, black_box(re), black_box(im)).map_err(number)),
            plain(move |_| direct::read_sync(case, black_box(re), black_box(im))),
            plain(move |_| best::read_sync(case, black_box(re), black_box(im))),
        ],
    );
}

/// The scratch buffers' contents are free after a find, so they are no part of what the forms must agree on.
fn find(rows: &mut Rows) {
    let (re, im) = inputs::recording(5120, 3210);
    let scratch = || (vec![0; 5105], vec![0; 5105]);
    let [mut a, mut b, mut c] = [scratch(), scratch(), scratch()];
    alone::<Answer<Peak>>(
        rows,
        "find, 5,120 chips",
        Buffers::new(0, 0),
        [
            plain(move |_| analyser::find(black_box(re), black_box(im), &mut a.0, &mut a.1).map_err(number)),
            plain(move |_| direct::find(black_box(re), black_box(im), &mut b.0, &mut b.1)),
            plain(move |_| best::find(black_box(re), black_box(im), &mut c.0, &mut c.1)),
        ],
    );
}

// ---- The code rules.

/// A row of a rule, for all its arguments in turn.
fn rule<A: Copy + 'static, T: Copy + PartialEq + Debug + 'static>(
    rows: &mut Rows,
    name: &str,
    arguments: impl IntoIterator<Item = A>,
    library: impl Fn(A) -> Result<T, Refusal> + 'static,
    direct: impl Fn(A) -> Answer<T> + 'static,
    best: impl Fn(A) -> Answer<T> + 'static,
) {
    let arguments: Vec<A> = arguments.into_iter().collect();
    let forms = [
        for_each(&arguments, move |a| library(a).map_err(number)),
        for_each(&arguments, direct),
        for_each(&arguments, best),
    ];
    let calls = Calls::new(name, arguments.len(), ffi::tdd_bench_fresh(), Buffers::new(0, 0), forms);
    rows.push(Box::new(calls));
}

fn tree_rules(rows: &mut Rows) {
    let all_codes = || [1, 2, 4, 8, 16].into_iter().flat_map(|q| (0..q).map(move |k| (q, k)));
    let elements = all_codes().flat_map(|(q, k)| (0..q).map(move |n| (q, k, n)));
    rule::<_, i32>(
        rows,
        "element",
        elements,
        |(q, k, n)| codes::element(q, k, n),
        |(q, k, n)| direct::element(q, k, n),
        |(q, k, n)| best::element(q, k, n),
    );
    let two_codes = all_codes().flat_map(|(q, k)| all_codes().map(move |(r, l)| (q, k, r, l)));
    rule::<_, bool>(
        rows,
        "related",
        two_codes,
        |(q, k, r, l)| codes::related(q, k, r, l),
        |(q, k, r, l)| direct::related(q, k, r, l),
        |(q, k, r, l)| best::related(q, k, r, l),
    );
    let code_group = |p| codes::code_group(CellParameter(p));
    rule::<_, CodeGroup>(rows, "code group", 0..128, code_group, direct::code_group, best::code_group);
    rule::<_, Complex>(
        rows,
        "scrambling chip",
        (0..128).flat_map(|p| (0..16).map(move |n| (p, n))),
        |(p, n)| codes::scrambling_chip(CellParameter(p), n),
        |(p, n)| direct::scrambling_chip(p, n),
        |(p, n)| best::scrambling_chip(p, n),
    );
}

fn sync_rules(rows: &mut Rows) {
    rule::<_, Complex>(rows, "primary chip", 0..256, codes::primary_chip, direct::primary_chip, best::primary_chip);
    rule::<_, Complex>(
        rows,
        "secondary chip",
        NUMBERS.into_iter().flat_map(|i| (0..256).map(move |n| (i, n))),
        |(i, n)| codes::secondary_chip(i, n),
        |(i, n)| direct::secondary_chip(i, n),
        |(i, n)| best::secondary_chip(i, n),
    );
    let candidates = [1, 2]
        .into_iter()
        .flat_map(|case| direct::candidates(case).map(move |(g, frame, half)| (case, g, frame, half)));
    rule::<_, Allocated>(
        rows,
        "allocation",
        candidates,
        |(case, g, frame, half)| codes::allocation(case, CodeGroup(g), frame, half),
        |(case, g, frame, half)| direct::allocation(case, g, frame, half),
        |(case, g, frame, half)| best::allocation(case, g, frame, half),
    );
    let burst_start = |g| codes::burst_start(CodeGroup(g));
    rule::<_, u32>(rows, "burst start", 0..32, burst_start, direct::burst_start, best::burst_start);
}

/// Load bits' test of its bytes, by itself.
fn byte_tests(rows: &mut Rows) {
    let mut first = vec![0; 3904];
    first[0] = 7;
    for (name, bits) in [("byte test, 3,904 zeros", vec![0; 3904]), ("byte test, 3,904 bytes, the first 7", first)] {
        let bits: &[u8] = bits.leak();
        alone(
            rows,
            name,
            Buffers::new(0, 0),
            [
                plain(|_| library_has_byte_above_1(black_box(bits))),
                plain(|_| direct::has_byte_above_1(black_box(bits))),
                plain(|_| best::has_byte_above_1(black_box(bits))),
            ],
        );
    }
}
