//! The ten bench calls as data, and the benches that take them: the wrapper, the raw exports and the reference.

use std::fmt;

use smugolec::{CellParameter, Channel, Refusal, ffi};

use crate::lent::Lent;
use crate::reference;

/// Bits as a short row that repeats, so that a printed call has them all. `odd_byte` puts one byte at a place.
#[derive(Clone)]
pub struct Bits {
    pub count: usize,
    pub row: Vec<u8>,
    pub odd_byte: Option<(usize, u8)>,
}

#[derive(Clone)]
pub enum Call {
    SetCell { cell: u32, kind: u32 },
    Open(Channel),
    LoadPlan(Vec<Channel>),
    Close { q: u32, k: u32 },
    SetGain(Channel),
    LoadBits { q: u32, k: u32, bits: Bits },
    SetSync { case: u32, frame: u32, half: u32, gp: u32, gs: u32 },
    ClearSync,
    Start,
    Draw { re: usize, im: usize },
}

/// The calls by name, each with the refusals of its list.
pub const CALLS: [(&str, &[u32]); 10] = [
    ("set cell", &[1, 2]),
    ("open", &[3, 4, 5, 6]),
    ("load plan", &[3, 4, 5, 6]),
    ("close", &[3, 4, 7]),
    ("set gain", &[3, 4, 5, 7]),
    ("load bits", &[3, 4, 7, 8, 9]),
    ("set sync", &[13, 14, 15, 5]),
    ("clear sync", &[]),
    ("start", &[10]),
    ("draw", &[11, 12]),
];

impl Bits {
    pub fn bytes(&self) -> Vec<u8> {
        let mut bytes: Vec<u8> = self.row.iter().copied().cycle().take(self.count).collect();
        if let Some((place, byte)) = self.odd_byte {
            bytes[place] = byte;
        }
        bytes
    }
}

impl Call {
    /// The call's place in `CALLS`.
    pub fn place(&self) -> usize {
        match self {
            Call::SetCell { .. } => 0,
            Call::Open(_) => 1,
            Call::LoadPlan(_) => 2,
            Call::Close { .. } => 3,
            Call::SetGain(_) => 4,
            Call::LoadBits { .. } => 5,
            Call::SetSync { .. } => 6,
            Call::ClearSync => 7,
            Call::Start => 8,
            Call::Draw { .. } => 9,
        }
    }

    pub fn name(&self) -> &'static str {
        CALLS[self.place()].0
    }

    pub fn refusals(&self) -> &'static [u32] {
        CALLS[self.place()].1
    }
}

impl fmt::Display for Bits {
    fn fmt(&self, f: &mut fmt::Formatter) -> fmt::Result {
        let row: String = self.row.iter().map(|bit| bit.to_string()).collect();
        write!(f, "{} bits, {row} again and again", self.count)?;
        self.odd_byte.map_or(Ok(()), |(place, byte)| write!(f, ", but byte {place} is {byte}"))
    }
}

impl fmt::Display for Call {
    fn fmt(&self, f: &mut fmt::Formatter) -> fmt::Result {
        write!(f, "{}", self.name())?;
        match self {
            Call::SetCell { cell, kind } => write!(f, " {cell}, type {kind}"),
            Call::Open(Channel { q, k, gain }) | Call::SetGain(Channel { q, k, gain }) => {
                write!(f, " ({q}, {k}), gain {gain}")
            }
            Call::LoadPlan(plan) => {
                let records: Vec<String> = plan.iter().map(|c| format!("({}, {}) gain {}", c.q, c.k, c.gain)).collect();
                write!(f, " of {}: {}", plan.len(), records.join(", "))
            }
            Call::Close { q, k } => write!(f, " ({q}, {k})"),
            Call::LoadBits { q, k, bits } => write!(f, " ({q}, {k}), {bits}"),
            Call::SetSync { case, frame, half, gp, gs } => {
                write!(f, " case {case}, frame {frame}, half {half}, gP {gp}, gS {gs}")
            }
            Call::ClearSync | Call::Start => Ok(()),
            Call::Draw { re, im } => write!(f, " into {re} re and {im} im"),
        }
    }
}

/// What a call answers: place is 0 but in a refused load plan, count 0 but in an accepted draw.
#[derive(Clone, Copy, PartialEq)]
pub struct Answer {
    pub refusal: u32,
    pub place: usize,
    pub count: usize,
}

impl fmt::Display for Answer {
    fn fmt(&self, f: &mut fmt::Formatter) -> fmt::Result {
        match self.refusal {
            0 => write!(f, "accepted")?,
            number => write!(f, "refused {number}")?,
        }
        write!(f, " (place {}, count {})", self.place, self.count)
    }
}

/// An answer, and the re and im buffers as a draw left them.
pub struct Outcome {
    pub answer: Answer,
    pub buffers: Option<[Lent<i32>; 2]>,
}

impl Outcome {
    fn of(refusal: u32, place: usize) -> Outcome {
        Outcome { answer: Answer { refusal, place, count: 0 }, buffers: None }
    }

    /// Where this is not what is due.
    pub fn difference(&self, due: &Outcome) -> Option<String> {
        if self.answer != due.answer {
            return Some(format!("found {}, due {}", self.answer, due.answer));
        }
        let ([re, im], [due_re, due_im]) = (self.buffers.as_ref()?, due.buffers.as_ref()?);
        let re = re.difference(due_re).map(|text| format!("re {text}"));
        re.or_else(|| im.difference(due_im).map(|text| format!("im {text}")))
    }
}

impl From<Result<(), u32>> for Outcome {
    fn from(result: Result<(), u32>) -> Outcome {
        Outcome::of(result.err().unwrap_or(0), 0)
    }
}

impl From<Result<(), Refusal>> for Outcome {
    fn from(result: Result<(), Refusal>) -> Outcome {
        result.map_err(|refusal| refusal.0).into()
    }
}

/// The outcome of a draw that gives its refusal and count.
fn drawn(re: usize, im: usize, draw: impl FnOnce(&mut [i32], &mut [i32]) -> (u32, usize)) -> Outcome {
    let mut buffers = [Lent::new(re), Lent::new(im)];
    let [re, im] = &mut buffers;
    let (refusal, count) = draw(re.lend(), im.lend());
    Outcome { answer: Answer { refusal, place: 0, count }, buffers: Some(buffers) }
}

/// A bench that takes calls as data.
pub trait Runs {
    fn run(&mut self, call: &Call) -> Outcome;
}

impl Runs for reference::Bench {
    fn run(&mut self, call: &Call) -> Outcome {
        match call {
            Call::SetCell { cell, kind } => self.set_cell(*cell, *kind).into(),
            Call::Open(c) => self.open(c.q, c.k, c.gain).into(),
            Call::LoadPlan(plan) => {
                let plan: Vec<_> =
                    plan.iter().map(|&Channel { q, k, gain }| reference::Channel { q, k, gain }).collect();
                self.load_plan(&plan).map_or_else(|(number, place)| Outcome::of(number, place), |()| Outcome::of(0, 0))
            }
            Call::Close { q, k } => self.close(*q, *k).into(),
            Call::SetGain(c) => self.set_gain(c.q, c.k, c.gain).into(),
            Call::LoadBits { q, k, bits } => self.load_bits(*q, *k, &bits.bytes()).into(),
            Call::SetSync { case, frame, half, gp, gs } => self.set_sync(*case, *frame, *half, *gp, *gs).into(),
            Call::ClearSync => self.clear_sync().into(),
            Call::Start => self.start().into(),
            Call::Draw { re, im } => drawn(*re, *im, |re, im| match self.draw(re, im) {
                Ok(count) => (0, count),
                Err(number) => (number, 0),
            }),
        }
    }
}

impl Runs for smugolec::Bench {
    fn run(&mut self, call: &Call) -> Outcome {
        match call {
            Call::SetCell { cell, kind } => self.set_cell(CellParameter(*cell), *kind).into(),
            Call::Open(c) => self.open(c.q, c.k, c.gain).into(),
            Call::LoadPlan(plan) => {
                self.load_plan(plan).map_or_else(|r| Outcome::of(r.refusal.0, r.place), |()| Outcome::of(0, 0))
            }
            Call::Close { q, k } => self.close(*q, *k).into(),
            Call::SetGain(c) => self.set_gain(c.q, c.k, c.gain).into(),
            Call::LoadBits { q, k, bits } => self.load_bits(*q, *k, &bits.bytes()).into(),
            Call::SetSync { case, frame, half, gp, gs } => self.set_sync(*case, *frame, *half, *gp, *gs).into(),
            Call::ClearSync => self.clear_sync().into(),
            Call::Start => self.start().into(),
            Call::Draw { re, im } => drawn(*re, *im, |re, im| match self.draw(re, im) {
                Ok(count) => (0, count),
                Err(refusal) => (refusal.0, 0),
            }),
        }
    }
}

/// The first 17 records of a plan; those past its end would be refused, so they show if they are read.
pub fn first_records(plan: &[Channel]) -> ffi::PlanRecords {
    let mut first = ffi::PlanRecords { records: [Channel { q: 99, k: 99, gain: 9999 }; 17] };
    for (to, from) in first.records.iter_mut().zip(plan) {
        *to = *from;
    }
    first
}

/// The raw exports, with their place and count as they come.
impl Runs for ffi::Bench {
    fn run(&mut self, call: &Call) -> Outcome {
        let result = match call {
            Call::SetCell { cell, kind } => ffi::tdd_bench_set_cell(*self, *cell, *kind),
            Call::Open(c) => ffi::tdd_bench_open(*self, c.q, c.k, c.gain),
            Call::LoadPlan(plan) => {
                let result = ffi::tdd_bench_load_records(*self, first_records(plan), plan.len());
                *self = result.bench;
                return Outcome::of(result.refusal, result.place);
            }
            Call::Close { q, k } => ffi::tdd_bench_close(*self, *q, *k),
            Call::SetGain(c) => ffi::tdd_bench_set_gain(*self, c.q, c.k, c.gain),
            Call::LoadBits { q, k, bits } => {
                let bytes = bits.bytes();
                // SAFETY: the bytes are as many as is said.
                unsafe { ffi::tdd_bench_load_bits(*self, *q, *k, bytes.as_ptr(), bytes.len()) }
            }
            Call::SetSync { case, frame, half, gp, gs } => {
                ffi::tdd_bench_set_sync(*self, *case, *frame, *half, *gp, *gs)
            }
            Call::ClearSync => ffi::tdd_bench_clear_sync(*self),
            Call::Start => ffi::tdd_bench_start(*self),
            Call::Draw { re, im } => return drawn(*re, *im, |re, im| draw_raw(self, re, im)),
        };
        *self = result.bench;
        Outcome::of(result.refusal, 0)
    }
}

fn draw_raw(bench: &mut ffi::Bench, re: &mut [i32], im: &mut [i32]) -> (u32, usize) {
    // SAFETY: the buffers have as many entries as is said, and overlap nothing.
    let result = unsafe { ffi::tdd_bench_draw(*bench, re.as_mut_ptr(), re.len(), im.as_mut_ptr(), im.len()) };
    *bench = result.bench;
    (result.refusal, result.count)
}
