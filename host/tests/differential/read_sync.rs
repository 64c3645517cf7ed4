//! Read sync: what a sync burst was sent for.

use std::collections::BTreeSet;
use std::fmt;

use smugolec::{analyser, ffi};

use crate::analyser::{Input, Outcome, damage, hold};
use crate::chips::{Chips, LOUDEST, any_candidate, burst};
use crate::random::Random;
use crate::reference::{self, Candidate};

struct ReadSync {
    case: u32,
    chips: Chips,
}

/// A burst at some gains: the least, the largest, unequal ones, and as loud as 256 chips may be.
fn any_burst(random: &mut Random) -> (u32, Chips) {
    let (case, candidate) = any_candidate(random);
    let any = (random.within(1, 4095), random.within(1, 4095));
    let (gp, gs) = random.one_of(&[(1, 1), (4095, 4095), (1, 4095), (4095, 1), (LOUDEST, LOUDEST), any, any]);
    (case, burst(case, candidate, gp, gs))
}

/// A burst alone, or with noise, or turned by j, or with another burst of the same gains, for which no candidate may beat all others.
fn any_chips(random: &mut Random) -> (u32, Chips) {
    let (case, mut chips) = any_burst(random);
    match random.below(8) {
        0..3 => {}
        3 => {
            let loud = random.one_of(&[1, 100, 5000, LOUDEST]);
            chips.add(&Chips::noise(random, 256, loud), 0);
        }
        4 => {
            let gain = random.within(1, 1000);
            chips = burst(case, candidate_of(random, case), gain, gain);
            chips.add(&burst(case, candidate_of(random, case), gain, gain), 0);
        }
        5 => chips = Chips { im: chips.re, re: chips.im.iter().map(|im| -im).collect() },
        _ => return (1 + random.below(2) as u32, Chips::any(random, 256)),
    }
    // At times read for the other case.
    let case = if random.chance(10) { 3 - case } else { case };
    (case, chips)
}

fn candidate_of(random: &mut Random, case: u32) -> Candidate {
    let candidate = any_candidate(random).1;
    Candidate { half: candidate.half.min(case - 1), ..candidate }
}

impl Input for ReadSync {
    type Answer = (u32, u32, u32);
    type Entry = i32;

    fn random(random: &mut Random) -> ReadSync {
        let (case, chips) = any_chips(random);
        let mut input = ReadSync { case, chips };
        let damage = damage(random);
        if random.chance(damage) {
            input.case = random.past(3);
        }
        if random.chance(damage) {
            input.chips.resize(random.one_of(&[0, 1, 15, 16, 240, 255, 257, 272, 512, 2560]));
        }
        if random.chance(damage) {
            input.chips.unequal(random);
        }
        if random.chance(damage) {
            input.chips.spoil(random);
        }
        input
    }

    fn chips(&mut self) -> &mut Chips {
        &mut self.chips
    }

    fn library(&self) -> Outcome<(u32, u32, u32), i32> {
        let answer = analyser::read_sync(self.case, &self.chips.re, &self.chips.im);
        let answer = answer.map(|candidate| (candidate.group.0, candidate.frame, candidate.half));
        Outcome { answer: answer.map_err(|refusal| refusal.0), buffers: Vec::new() }
    }

    fn reference(&self) -> Outcome<(u32, u32, u32), i32> {
        let answer = reference::read_sync(self.case, &self.chips.re, &self.chips.im);
        Outcome { answer: answer.map(|Candidate { group, frame, half }| (group, frame, half)), buffers: Vec::new() }
    }
}

impl fmt::Display for ReadSync {
    fn fmt(&self, f: &mut fmt::Formatter) -> fmt::Result {
        write!(f, "read sync of case {}, chips", self.case)?;
        self.chips.fmt(f)
    }
}

#[test]
fn random_bursts() {
    let mut candidates = BTreeSet::new();
    let mut ties = 0;
    hold::<ReadSync>("read sync", &[14, 12, 16, 17, 19], |input, due| {
        // The raw export has 0 in every other field where it refuses.
        let Chips { re, im } = &input.chips;
        // SAFETY: the buffers have as many entries as is said, and nothing is written.
        let raw = unsafe { ffi::tdd_read_sync(input.case, re.as_ptr(), re.len(), im.as_ptr(), im.len()) };
        let (refusal, (group, frame, half)) =
            due.answer.map_or_else(|number| (number, (0, 0, 0)), |answer| (0, answer));
        assert_eq!(raw, ffi::SyncResult { refusal, group, frame, half }, "{input}");
        match due.answer {
            Ok(answer) => _ = candidates.insert((input.case, answer)),
            Err(number) => ties += usize::from(number == 19 && re.iter().any(|&re| re != 0)),
        }
    });
    println!("read sync: {ties} ties that are not silence");
    assert_eq!(candidates.iter().filter(|(case, _)| *case == 1).count(), 64, "answers of case 1");
    assert_eq!(candidates.iter().filter(|(case, _)| *case == 2).count(), 128, "answers of case 2");
    assert!(ties >= 300, "{ties} ties");
}
