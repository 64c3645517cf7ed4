//! A row of the table: a call in three forms, what they leave behind, and how long they take.
use crate::{best, direct};
use smugolec::{Bench, ffi};
use std::fmt::Debug;
use std::hint::black_box;
use std::time::Instant;

/// The library, the direct form and the best form.
pub const FORMS: [&str; 3] = ["library", "direct", "best"];
/// The rows are measured one after another, all of them many times, so that a slow moment of the machine does not fall on one row alone.
const ROUNDS: usize = 40;
/// In a round each form gives this many samples, the three in turn.
const SAMPLES_A_ROUND: usize = 10;
pub const SAMPLES: usize = ROUNDS * SAMPLES_A_ROUND;
/// How long a sample lasts at least, unless one call takes longer.
pub const SAMPLE_NS: u128 = 100_000;

/// The buffers that a call writes.
#[derive(Clone, PartialEq)]
pub struct Buffers {
    pub re: Vec<i32>,
    pub im: Vec<i32>,
    pub bits: Vec<u8>,
}

impl Buffers {
    /// Filled with numbers that no call writes, so that the check sees which entries a call left.
    pub fn new(chips: usize, bits: usize) -> Buffers {
        Buffers { re: vec![i32::MIN + 1; chips], im: vec![i32::MIN + 2; chips], bits: vec![77; bits] }
    }
}

/// What calls leave behind: all that the three forms must agree on.
#[derive(Clone)]
pub struct Left<T> {
    pub answer: Option<T>,
    pub bench: ffi::Bench,
    pub buffers: Buffers,
}

/// Runs a call as many times as asked.
pub type Form<T> = Box<dyn FnMut(&mut Left<T>, usize)>;

/// A bench as one of the forms holds it.
pub trait Held {
    fn hold(bench: ffi::Bench) -> Self;
    fn content(&self) -> &ffi::Bench;
}

impl Held for ffi::Bench {
    fn hold(bench: ffi::Bench) -> ffi::Bench {
        bench
    }
    fn content(&self) -> &ffi::Bench {
        self
    }
}

impl Held for Bench {
    fn hold(bench: ffi::Bench) -> Bench {
        Bench::from_ffi(bench)
    }
    fn content(&self) -> &ffi::Bench {
        self.as_ffi()
    }
}

impl Held for best::Bench {
    fn hold(bench: ffi::Bench) -> best::Bench {
        best::Bench(bench)
    }
    fn content(&self) -> &ffi::Bench {
        &self.0
    }
}

/// A call on a bench that the caller keeps.
pub fn kept<B: Held, T: 'static>(mut call: impl FnMut(&mut B, &mut Buffers) -> T + 'static) -> Form<T> {
    Box::new(move |left, times| {
        let mut bench = B::hold(left.bench);
        for _ in 0..times {
            left.answer = Some(call(black_box(&mut bench), &mut left.buffers));
            black_box(&mut *left);
        }
        left.bench = *bench.content();
    })
}

/// A call that takes the bench and hands back the new one.
pub fn by_value<T: 'static>(
    mut call: impl FnMut(direct::Bench, &mut Buffers) -> (T, direct::Bench) + 'static,
) -> Form<T> {
    Box::new(move |left, times| {
        let mut bench = direct::Bench(left.bench);
        for _ in 0..times {
            black_box(&mut bench);
            let (answer, new) = call(bench, &mut left.buffers);
            bench = new;
            left.answer = Some(answer);
            black_box(&mut *left);
        }
        left.bench = bench.0;
    })
}

/// A call without a bench.
pub fn plain<T: 'static>(mut call: impl FnMut(&mut Buffers) -> T + 'static) -> Form<T> {
    Box::new(move |left, times| {
        for _ in 0..times {
            left.answer = Some(call(&mut left.buffers));
            black_box(&mut *left);
        }
    })
}

/// A call once for each of a list of arguments.
pub fn for_each<A: Copy + 'static, T: Copy + 'static>(
    arguments: &[A],
    call: impl Fn(A) -> T + 'static,
) -> Form<Vec<T>> {
    let arguments = arguments.to_vec();
    Box::new(move |left, times| {
        left.answer.get_or_insert_with(|| arguments.iter().map(|&a| call(a)).collect());
        for _ in 0..times {
            for &argument in black_box(&arguments) {
                black_box(&call(argument));
            }
        }
    })
}

/// A row, whatever its calls answer.
pub trait Row {
    fn name(&self) -> &str;
    /// Runs each form once and holds what it left to what the library left.
    fn check(&mut self) -> Result<(), String>;
    /// Runs a form some times; the answer is the time of a call.
    fn time(&mut self, form: usize, times: usize) -> f64;
}

pub struct Calls<T> {
    name: String,
    /// How many calls a run is.
    calls: usize,
    forms: [(Form<T>, Left<T>); 3],
}

impl<T: Clone> Calls<T> {
    pub fn new(name: &str, calls: usize, bench: ffi::Bench, buffers: Buffers, forms: [Form<T>; 3]) -> Calls<T> {
        let left = Left { answer: None, bench, buffers };
        Calls { name: name.to_string(), calls, forms: forms.map(|form| (form, left.clone())) }
    }
}

/// Where two buffers first differ.
pub fn difference<T: PartialEq + Debug>(name: &str, want: &[T], got: &[T]) -> Option<String> {
    let at = want.iter().zip(got).position(|(a, b)| a != b)?;
    Some(format!("{name}[{at}] is {:?}, and the library has {:?}", got[at], want[at]))
}

/// What two forms left that differs.
pub fn left_difference<T: PartialEq + Debug>(want: &Left<T>, got: &Left<T>) -> Option<String> {
    if want.answer != got.answer {
        return Some(format!("the answer is {:?}, and the library has {:?}", got.answer, want.answer));
    }
    let (a, b) = (&want.buffers, &got.buffers);
    difference("re", &a.re, &b.re)
        .or_else(|| difference("im", &a.im, &b.im))
        .or_else(|| difference("bits", &a.bits, &b.bits))
        .or_else(|| (want.bench != got.bench).then(|| bench_difference(&want.bench, &got.bench)))
}

fn bench_difference(want: &ffi::Bench, got: &ffi::Bench) -> String {
    for (name, a, b) in [("settings", &want.settings, &got.settings), ("sending", &want.sending, &got.sending)] {
        let gains = || difference(&format!("{name}.gains"), &a.gains, &b.gains);
        if let Some(text) = difference(&format!("{name}.pairs"), &a.pairs, &b.pairs).or_else(gains) {
            return text;
        }
    }
    "the bench differs in another field than gains and pairs".to_string()
}

impl<T: PartialEq + Debug> Row for Calls<T> {
    fn name(&self) -> &str {
        &self.name
    }

    fn check(&mut self) -> Result<(), String> {
        for (form, left) in &mut self.forms {
            form(left, 1);
        }
        let [(_, library), others @ ..] = &self.forms;
        for ((_, left), form) in others.iter().zip(&FORMS[1..]) {
            if let Some(text) = left_difference(library, left) {
                return Err(format!("row \"{}\", {form}: {text}", self.name));
            }
        }
        Ok(())
    }

    fn time(&mut self, form: usize, times: usize) -> f64 {
        let (run, left) = &mut self.forms[form];
        let start = Instant::now();
        run(left, times);
        start.elapsed().as_nanos() as f64 / (times * self.calls) as f64
    }
}

/// How many times a form runs in a sample.
fn times(row: &mut dyn Row, form: usize) -> usize {
    let mut times = 1;
    loop {
        let start = Instant::now();
        row.time(form, times);
        if start.elapsed().as_nanos() >= SAMPLE_NS {
            return times;
        }
        times *= 2;
    }
}

/// The name of a row and the best times of a call in nanoseconds, form by form.
pub type Measured = (String, [f64; 3]);

pub fn measure(rows: &mut [Box<dyn Row>]) -> Vec<Measured> {
    let mut measured: Vec<Measured> = rows.iter().map(|row| (row.name().to_string(), [f64::INFINITY; 3])).collect();
    let times: Vec<[usize; 3]> = rows.iter_mut().map(|row| [0, 1, 2].map(|form| times(row.as_mut(), form))).collect();
    for round in 0..ROUNDS {
        deeper(round, &mut || {
            for ((row, times), (_, best)) in rows.iter_mut().zip(&times).zip(&mut measured) {
                sample(row.as_mut(), times, best);
            }
        });
    }
    measured
}

/// Works at another place of the stack. Where the distance of two buffers is near a multiple of 4096 bytes the processor takes one for the other and
/// waits, and an unlucky place would last for the whole run.
#[inline(never)]
fn deeper(levels: usize, work: &mut dyn FnMut()) {
    let space = black_box([0u8; 720]);
    if levels == 0 {
        work()
    } else {
        deeper(levels - 1, work)
    }
    black_box(&space);
}

fn sample(row: &mut dyn Row, times: &[usize; 3], best: &mut [f64; 3]) {
    for _ in 0..SAMPLES_A_ROUND {
        for form in 0..3 {
            best[form] = best[form].min(row.time(form, times[form]));
        }
    }
}
