//! Random calls, accepted and refused: the three forms must give the same answers and leave the same buffers and benches.
use crate::inputs::{self, Random};
use crate::tables::code_at;
use crate::timing::{Buffers, FORMS, Left, left_difference};
use crate::{Answer, best, direct, library_has_byte_above_1};
use smugolec::analyser;
use smugolec::{Bench, CellParameter, Channel, CodeGroup, codes, ffi};
use std::fmt::Debug;

pub fn random_calls() -> Result<(), String> {
    let mut random = Random(1);
    for _ in 0..300 {
        list_of_calls(&mut random)?;
    }
    for _ in 0..1000 {
        reading(&mut random)?;
        hardening(&mut random)?;
        sync_reading(&mut random)?;
        byte_test(&mut random)?;
    }
    for _ in 0..60 {
        finding(&mut random)?;
    }
    tree_rules()?;
    sync_rules()
}

type Form<'a, T> = &'a dyn Fn(&mut Buffers) -> Answer<T>;

/// Holds the direct and the best form's answer and buffers to the library's.
fn same<T: PartialEq + Debug>(what: &str, buffers: &Buffers, forms: [Form<T>; 3]) -> Result<(), String> {
    let left = forms.map(|form| {
        let mut left = Left { answer: None, bench: ffi::tdd_bench_fresh(), buffers: buffers.clone() };
        left.answer = Some(form(&mut left.buffers));
        left
    });
    compare(what, &left)
}

fn compare<T: PartialEq + Debug>(what: &str, left: &[Left<T>; 3]) -> Result<(), String> {
    for (form, name) in left.iter().zip(FORMS).skip(1) {
        if let Some(text) = left_difference(&left[0], form) {
            return Err(format!("{what}, {name}: {text}"));
        }
    }
    Ok(())
}

// ---- Lists of bench calls.

#[derive(Debug)]
enum Call {
    SetCell(u32, u32),
    Open(u32, u32, u32),
    LoadPlan(Vec<Channel>),
    Close(u32, u32),
    SetGain(u32, u32, u32),
    LoadBits(u32, u32, Vec<u8>),
    SetSync([u32; 5]),
    ClearSync,
    Start,
    Draw(usize, usize),
}

/// A code, mostly one of the tree's.
fn code(random: &mut Random) -> (u32, u32) {
    let q = random.pick(&[1, 2, 2, 4, 4, 4, 8, 8, 8, 8, 16, 16, 16, 16, 16, 0, 3, 32]);
    let past = u32::from(random.below(9) == 0);
    (q, random.below((q + past).max(1)))
}

/// A code that is open, where there is one, or any.
fn open_code(random: &mut Random, gains: &[u16; 31]) -> (u32, u32) {
    let open: Vec<usize> = (0..31).filter(|&node| gains[node] != 0).collect();
    if open.is_empty() || random.below(4) == 0 {
        return code(random);
    }
    let (q, k) = code_at(random.pick(&open));
    (q as u32, k as u32)
}

fn gain(random: &mut Random) -> u32 {
    let any = 1 + random.below(4095);
    random.pick(&[any, any, any, any, any, 1, 4095, 0, 4096, 65537])
}

fn bits(random: &mut Random, kind: u32, q: u32) -> Vec<u8> {
    let right = [3904, 4416, 3712][kind as usize - 1] / q.max(1) as usize;
    let count = random.pick(&[right, right, right, right, right, right, 0, right - 1, right + 2]);
    let mut bits = random.bits(count);
    if count > 0 && random.below(8) == 0 {
        bits[random.below(count as u32) as usize] = random.pick(&[2, 128, 255]);
    }
    bits
}

fn call(random: &mut Random, bench: &ffi::Bench) -> Call {
    let ((q, k), open, g) = (code(random), open_code(random, &bench.settings.gains), gain(random));
    let channel = |random: &mut Random| {
        let (q, k) = code(random);
        Channel { q, k, gain: gain(random) }
    };
    match random.below(20) {
        0 => Call::SetCell(random.below(130), random.pick(&[1, 1, 1, 2, 3, 0, 4])),
        1..=4 => Call::Open(q, k, g),
        5 => Call::LoadPlan((0..random.below(5)).map(|_| channel(random)).collect()),
        6 => Call::LoadPlan(inputs::plan(q.min(16), q.min(16 + random.below(3)))),
        7 => Call::Close(open.0, open.1),
        8 => Call::SetGain(open.0, open.1, g),
        9..=11 => Call::LoadBits(open.0, open.1, bits(random, bench.settings.kind, open.0)),
        12 => Call::SetSync([random.below(4), random.below(4), random.below(3), g, gain(random)]),
        13 => Call::SetSync([1 + random.below(2), 1 + random.below(2), 0, g, gain(random)]),
        14 if random.below(3) == 0 => Call::ClearSync,
        14..=15 => Call::Start,
        _ => {
            let n = random.pick(&[0, 1, 2, 15, 16, 17, 64, 100, 999, 1500, 2560, 2590]);
            Call::Draw(n, n + usize::from(random.below(15) == 0))
        }
    }
}

/// The count of an accepted draw, else 0; of a refused call the number, and load plan's place.
type Told = Result<usize, (u32, usize)>;

fn told(answer: Answer) -> Told {
    answer.map(|()| 0).map_err(|number| (number, 0))
}

fn by_library(b: &mut Bench, call: &Call, x: &mut Buffers) -> Told {
    let refused = |r: smugolec::Refusal| (r.0, 0);
    match call {
        Call::SetCell(cell, kind) => b.set_cell(CellParameter(*cell), *kind).map(|()| 0).map_err(refused),
        Call::Open(q, k, gain) => b.open(*q, *k, *gain).map(|()| 0).map_err(refused),
        Call::LoadPlan(plan) => b.load_plan(plan).map(|()| 0).map_err(|r| (r.refusal.0, r.place)),
        Call::Close(q, k) => b.close(*q, *k).map(|()| 0).map_err(refused),
        Call::SetGain(q, k, gain) => b.set_gain(*q, *k, *gain).map(|()| 0).map_err(refused),
        Call::LoadBits(q, k, bits) => b.load_bits(*q, *k, bits).map(|()| 0).map_err(refused),
        Call::SetSync([case, frame, half, gp, gs]) => {
            b.set_sync(*case, *frame, *half, *gp, *gs).map(|()| 0).map_err(refused)
        }
        Call::ClearSync => b.clear_sync().map(|()| 0).map_err(refused),
        Call::Start => b.start().map(|()| 0).map_err(refused),
        Call::Draw(m, n) => b.draw(&mut x.re[..*m], &mut x.im[..*n]).map_err(refused),
    }
}

fn by_direct(b: direct::Bench, call: &Call, x: &mut Buffers) -> (Told, direct::Bench) {
    let of = |(answer, b): (Answer, direct::Bench)| (told(answer), b);
    match call {
        Call::SetCell(cell, kind) => of(b.set_cell(*cell, *kind)),
        Call::Open(q, k, gain) => of(b.open(*q, *k, *gain)),
        Call::LoadPlan(plan) => {
            let (answer, b) = b.load_plan(plan);
            (answer.map(|()| 0), b)
        }
        Call::Close(q, k) => of(b.close(*q, *k)),
        Call::SetGain(q, k, gain) => of(b.set_gain(*q, *k, *gain)),
        Call::LoadBits(q, k, bits) => of(b.load_bits(*q, *k, bits)),
        Call::SetSync([case, frame, half, gp, gs]) => of(b.set_sync(*case, *frame, *half, *gp, *gs)),
        Call::ClearSync => of(b.clear_sync()),
        Call::Start => of(b.start()),
        Call::Draw(m, n) => {
            let (answer, b) = b.draw(&mut x.re[..*m], &mut x.im[..*n]);
            (answer.map_err(|number| (number, 0)), b)
        }
    }
}

fn by_best(b: &mut best::Bench, call: &Call, x: &mut Buffers) -> Told {
    match call {
        Call::SetCell(cell, kind) => told(b.set_cell(*cell, *kind)),
        Call::Open(q, k, gain) => told(b.open(*q, *k, *gain)),
        Call::LoadPlan(plan) => b.load_plan(plan).map(|()| 0),
        Call::Close(q, k) => told(b.close(*q, *k)),
        Call::SetGain(q, k, gain) => told(b.set_gain(*q, *k, *gain)),
        Call::LoadBits(q, k, bits) => told(b.load_bits(*q, *k, bits)),
        Call::SetSync([case, frame, half, gp, gs]) => told(b.set_sync(*case, *frame, *half, *gp, *gs)),
        Call::ClearSync => told(b.clear_sync()),
        Call::Start => told(b.start()),
        Call::Draw(m, n) => b.draw(&mut x.re[..*m], &mut x.im[..*n]).map_err(|number| (number, 0)),
    }
}

/// A hundred calls from the fresh bench on.
fn list_of_calls(random: &mut Random) -> Result<(), String> {
    let mut library = Bench::fresh();
    let mut direct = direct::Bench::fresh();
    let mut best = best::Bench(inputs::bench(&inputs::plan(1, 1)));
    best.make_fresh();
    for _ in 0..100 {
        let call = call(random, library.as_ffi());
        let mut buffers = [(); 3].map(|()| Buffers::new(2600, 0));
        let first = by_library(&mut library, &call, &mut buffers[0]);
        let (second, new) = by_direct(direct, &call, &mut buffers[1]);
        direct = new;
        let third = by_best(&mut best, &call, &mut buffers[2]);
        let benches = [*library.as_ffi(), direct.0, best.0];
        let mut answers = [first, second, third].into_iter().zip(benches).zip(buffers);
        let left = [(); 3].map(|()| {
            let ((answer, bench), buffers) = answers.next().expect("there are three forms");
            Left { answer: Some(answer), bench, buffers }
        });
        compare(&format!("{call:?}"), &left)?;
    }
    Ok(())
}

// ---- The analyser.

/// A signal of a length, in range or, now and then, with one component out of it; large, small, or 0.
fn signal(random: &mut Random, n: usize) -> (Vec<i32>, Vec<i32>) {
    let size = random.pick(&[100_000, 100_000, 5000, 3, 1, 0]);
    let (mut re, mut im) = (random.noise(n, size), random.noise(n, size));
    if n > 0 && random.below(8) == 0 {
        let outside = random.pick(&[100_001, -100_001, i32::MIN, i32::MAX]);
        [&mut re, &mut im][random.below(2) as usize][random.below(n as u32) as usize] = outside;
    }
    if random.below(15) == 0 {
        im.push(0);
    }
    (re, im)
}

fn reading(random: &mut Random) -> Result<(), String> {
    let n = random.pick(&[16, 32, 48, 64, 80, 880, 976, 1104, 0, 17, 1120]);
    let ((re, im), (q, k), cell) = (signal(random, n), code(random), random.below(130));
    let room = random.pick(&[1104, 1104, 1104, 61]);
    same(
        &format!("read of {n} chips with cell {cell}, Q {q}, k {k}"),
        &Buffers::new(room, 0),
        [
            &|x| analyser::read(CellParameter(cell), q, k, &re, &im, &mut x.re, &mut x.im).map_err(|r| r.0),
            &|x| direct::read(cell, q, k, &re, &im, &mut x.re, &mut x.im),
            &|x| best::read(cell, q, k, &re, &im, &mut x.re, &mut x.im),
        ],
    )
}

fn hardening(random: &mut Random) -> Result<(), String> {
    let n = random.below(100) as usize;
    let (mut re, im) = signal(random, n);
    for x in &mut re {
        *x = random.pick(&[*x, *x, -*x.min(&mut 1), i32::MIN, i32::MAX]);
    }
    let room = 2 * n + random.below(4) as usize;
    same(
        &format!("harden of {n} readings"),
        &Buffers::new(0, room.saturating_sub(1)),
        [
            &|x| analyser::harden(&re, &im, &mut x.bits).map_err(|r| r.0),
            &|x| direct::harden(&re, &im, &mut x.bits),
            &|x| best::harden(&re, &im, &mut x.bits),
        ],
    )
}

/// A burst of any candidate in noise, or noise alone.
fn sync_reading(random: &mut Random) -> Result<(), String> {
    let n = random.pick(&[256, 256, 256, 256, 256, 255, 272]);
    let (mut re, mut im) = signal(random, n);
    let (case, group, frame) = (random.pick(&[1, 1, 1, 2, 2, 2, 0, 3]), random.below(32), 1 + random.below(2));
    if let (Ok(codes), 256, true) = (direct::allocation(case, group, frame, 0), n, random.below(4) > 0) {
        inputs::add_burst(&mut re, &mut im, &codes, random.pick(&[1, 300, 5000]));
    }
    same(
        &format!("read sync of {n} chips in case {case}"),
        &Buffers::new(0, 0),
        [&|_| analyser::read_sync(case, &re, &im).map_err(|r| r.0), &|_| direct::read_sync(case, &re, &im), &|_| {
            best::read_sync(case, &re, &im)
        }],
    )
}

fn finding(random: &mut Random) -> Result<(), String> {
    let n = random.pick(&[256, 257, 496, 511, 512, 767, 768, 1500, 2600, 5120, 255, 5121]);
    let (re, im) = signal(random, n);
    let room = n.max(15) - 15 - usize::from(random.below(10) == 0);
    let scratch = || (vec![0; room], vec![0; room]);
    same(
        &format!("find in {n} chips"),
        &Buffers::new(0, 0),
        [
            &|_| {
                let (mut a, mut b) = scratch();
                analyser::find(&re, &im, &mut a, &mut b).map_err(|r| r.0)
            },
            &|_| {
                let (mut a, mut b) = scratch();
                direct::find(&re, &im, &mut a, &mut b)
            },
            &|_| {
                let (mut a, mut b) = scratch();
                best::find(&re, &im, &mut a, &mut b)
            },
        ],
    )
}

fn byte_test(random: &mut Random) -> Result<(), String> {
    let count = random.below(200) as usize;
    let mut bytes = random.bits(count);
    if count > 0 && random.below(2) == 0 {
        bytes[random.below(count as u32) as usize] = 1 << random.below(8);
    }
    same(
        &format!("byte test of {bytes:?}"),
        &Buffers::new(0, 0),
        [&|_| Ok(library_has_byte_above_1(&bytes)), &|_| Ok(direct::has_byte_above_1(&bytes)), &|_| {
            Ok(best::has_byte_above_1(&bytes))
        }],
    )
}

// ---- The code rules, also past their ranges.

fn rule<T: PartialEq + Debug>(what: &str, answers: [Answer<T>; 3]) -> Result<(), String> {
    let [library, direct, best] = &answers;
    if library == direct && library == best {
        return Ok(());
    }
    Err(format!("{what}: library, direct and best answer {library:?}, {direct:?}, {best:?}"))
}

fn tree_rules() -> Result<(), String> {
    let ends = || (0..=18).chain([32, 127, 128, u32::MAX]);
    for (q, k, n) in ends().flat_map(|q| ends().flat_map(move |k| ends().map(move |n| (q, k, n)))) {
        let library = codes::element(q, k, n).map_err(|r| r.0);
        rule(&format!("element {n} of ({q}, {k})"), [library, direct::element(q, k, n), best::element(q, k, n)])?;
        for l in [0, 3, 15, 16] {
            let library = codes::related(q, k, n, l).map_err(|r| r.0);
            let others = (direct::related(q, k, n, l), best::related(q, k, n, l));
            rule(&format!("related ({q}, {k}) and ({n}, {l})"), [library, others.0, others.1])?;
        }
    }
    for p in (0..130).chain([u32::MAX]) {
        let library = codes::code_group(CellParameter(p)).map_err(|r| r.0);
        rule(&format!("code group of {p}"), [library, direct::code_group(p), best::code_group(p)])?;
        for n in ends() {
            let library = codes::scrambling_chip(CellParameter(p), n).map_err(|r| r.0);
            let others = (direct::scrambling_chip(p, n), best::scrambling_chip(p, n));
            rule(&format!("scrambling chip {n} of {p}"), [library, others.0, others.1])?;
        }
    }
    Ok(())
}

fn sync_rules() -> Result<(), String> {
    for n in (0..258).chain([u32::MAX]) {
        let library = codes::primary_chip(n).map_err(|r| r.0);
        rule(&format!("primary chip {n}"), [library, direct::primary_chip(n), best::primary_chip(n)])?;
        for i in (0..18).chain([u32::MAX]) {
            let library = codes::secondary_chip(i, n).map_err(|r| r.0);
            let others = (direct::secondary_chip(i, n), best::secondary_chip(i, n));
            rule(&format!("secondary chip {n} of {i}"), [library, others.0, others.1])?;
        }
    }
    for g in (0..34).chain([u32::MAX]) {
        let library = codes::burst_start(CodeGroup(g)).map_err(|r| r.0);
        rule(&format!("burst start of {g}"), [library, direct::burst_start(g), best::burst_start(g)])?;
        for (case, frame, half) in (0..64).map(|n| (n / 16, n / 4 % 4, n % 4)) {
            let library = codes::allocation(case, CodeGroup(g), frame, half).map_err(|r| r.0);
            let others = (direct::allocation(case, g, frame, half), best::allocation(case, g, frame, half));
            rule(&format!("allocation {case}, {g}, {frame}, {half}"), [library, others.0, others.1])?;
        }
    }
    Ok(())
}
