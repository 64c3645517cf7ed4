//! Find: where the primary sync code is strongest in a recording.

use std::collections::BTreeSet;
use std::fmt;

use smugolec::{analyser, ffi};

use crate::analyser::{Input, Outcome, buffer_length, damage, hold};
use crate::chips::{Chips, LOUDEST, any_candidate, burst};
use crate::lent::Lent;
use crate::random::Random;
use crate::reference::{self, Peak};

struct Find {
    recording: Chips,
    scratch: [usize; 2],
}

/// Mostly short, since the reference takes its time for long ones.
fn any_length(random: &mut Random) -> usize {
    match random.below(100) {
        0..3 => random.within(256, 5120) as usize,
        3..5 => 2560,
        5..10 => random.one_of(&[5118, 5119, 5120]),
        10..30 => random.one_of(&[256, 257, 258]),
        30..40 => random.within(256, 1100) as usize,
        _ => random.within(256, 320) as usize,
    }
}

/// One to three bursts at places of their own, equal or not, in silence or some noise: two equal ones tie.
fn with_bursts(random: &mut Random, length: usize) -> Chips {
    let loud = random.one_of(&[0, 0, 0, 1, 100, 10_000, LOUDEST]);
    let mut recording = Chips::noise(random, length, loud);
    let (case, candidate) = any_candidate(random);
    let gains = random.one_of(&[1, 100, 4095, 12_000, LOUDEST]);
    for _ in 0..1 + random.below(3) {
        let gp = random.one_of(&[gains, gains, -gains, 1]);
        let part = burst(case, candidate, gp, random.one_of(&[0, gains]));
        let place = random.below(length);
        let place = random.one_of(&[0, length.saturating_sub(256), place, place]);
        recording.add(&part, place);
    }
    recording
}

impl Input for Find {
    type Answer = (usize, i64);
    type Entry = i32;

    fn random(random: &mut Random) -> Find {
        let length = any_length(random);
        let mut recording = if random.chance(40) { with_bursts(random, length) } else { Chips::any(random, length) };
        let damage = damage(random);
        if random.chance(damage) {
            recording.resize(random.one_of(&[0, 1, 15, 16, 255, 255, 5121, 5121, 5136, 6000]));
        }
        if random.chance(damage) {
            recording.unequal(random);
        }
        if random.chance(damage) {
            recording.spoil(random);
        }
        let enough = recording.re.len().saturating_sub(15);
        let scratch = [(); 2].map(|()| {
            let too_few = random.chance(damage);
            buffer_length(random, enough, too_few)
        });
        Find { recording, scratch }
    }

    fn chips(&mut self) -> &mut Chips {
        &mut self.recording
    }

    fn library(&self) -> Outcome<(usize, i64), i32> {
        let mut buffers = self.scratch.map(Lent::new);
        let [re, im] = &mut buffers;
        let answer = analyser::find(&self.recording.re, &self.recording.im, re.lend(), im.lend());
        let answer = answer.map(|peak| (peak.start, peak.size)).map_err(|refusal| refusal.0);
        if answer.is_ok() {
            buffers.iter_mut().for_each(Lent::forget);
        }
        Outcome { answer, buffers: buffers.into() }
    }

    fn reference(&self) -> Outcome<(usize, i64), i32> {
        let mut buffers = self.scratch.map(Lent::new);
        let [re, im] = &mut buffers;
        let answer = reference::find(&self.recording.re, &self.recording.im, re.lend(), im.lend());
        Outcome { answer: answer.map(|Peak { start, size }| (start, size)), buffers: buffers.into() }
    }
}

impl fmt::Display for Find {
    fn fmt(&self, f: &mut fmt::Formatter) -> fmt::Result {
        let [re, im] = self.scratch;
        write!(f, "find with scratch of {re} re and {im} im, recording")?;
        self.recording.fmt(f)
    }
}

/// What the raw export gives: 0 in every other field where it refuses.
fn raw(input: &Find) -> ffi::FindResult {
    let Chips { re, im } = &input.recording;
    let [mut scratch_re, mut scratch_im] = input.scratch.map(|length| vec![0; length]);
    let (to_re, to_im) = (scratch_re.as_mut_ptr(), scratch_im.as_mut_ptr());
    // SAFETY: the buffers have as many entries as is said, and overlap nothing.
    unsafe {
        ffi::tdd_find(re.as_ptr(), re.len(), im.as_ptr(), im.len(), to_re, scratch_re.len(), to_im, scratch_im.len())
    }
}

#[test]
fn random_recordings() {
    let (mut starts, mut lengths) = (BTreeSet::new(), BTreeSet::new());
    let (mut first, mut last, mut largest) = (0, 0, 0);
    hold::<Find>("find", &[12, 16, 17, 18], |input, due| {
        let (refusal, (start, size)) = due.answer.map_or_else(|number| (number, (0, 0)), |answer| (0, answer));
        assert_eq!(raw(input), ffi::FindResult { refusal, start, size }, "{input}");
        if due.answer.is_ok() {
            let length = input.recording.re.len();
            starts.insert(start);
            lengths.insert(length);
            first += usize::from(start == 0);
            last += usize::from(start == length - 256);
            largest = largest.max(size);
        }
    });
    println!("find: {} starts, {first} first and {last} last ones, sizes to {largest}", starts.len());
    assert!(starts.len() >= 500, "{} starts", starts.len());
    assert!(first >= 300 && last >= 300, "{first} first starts and {last} last ones");
    assert!([256, 257, 2560, 5119, 5120].iter().all(|length| lengths.contains(length)), "{lengths:?}");
    assert_eq!(largest, (512 * i64::from(LOUDEST)).pow(2), "the largest size that a recording can have");
}
