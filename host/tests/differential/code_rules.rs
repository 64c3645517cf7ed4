//! The code rules: every number in range, a margin past each limit, and any numbers.

use std::collections::BTreeSet;
use std::fmt::Debug;

use smugolec::codes::{self, Allocated, ModulatedCode};
use smugolec::{CellParameter, CodeGroup, Complex, Refusal, ffi};

use crate::random::{Random, printed_seed};
use crate::reference;

const ANY: usize = 100_000;

/// The answers that a call gave, 0 where it was accepted.
struct Answers {
    name: &'static str,
    seen: BTreeSet<u32>,
}

impl Answers {
    fn of(name: &'static str) -> Answers {
        Answers { name, seen: BTreeSet::new() }
    }

    /// The call was accepted and gave these refusals and no other.
    fn check(&self, refusals: &[u32]) {
        assert_eq!(self.seen, refusals.iter().copied().chain([0]).collect(), "answers of {}", self.name);
    }

    /// Compares the wrapper's answer and the raw export's with the reference's; a refusing export has 0 in every other field.
    fn compare<T: Debug + PartialEq>(
        &mut self,
        arguments: &[u32],
        wrapper: Result<T, Refusal>,
        (refusal, raw): (u32, T),
        (due, zero): (Result<T, u32>, T),
    ) {
        let name = self.name;
        self.seen.insert(refusal);
        assert_eq!(wrapper.map_err(|refusal| refusal.0), due, "{name} {arguments:?}: found is left, due is right");
        let due = due.map_or_else(|number| (number, zero), |value| (0, value));
        assert_eq!((refusal, raw), due, "raw {name} {arguments:?}: found is left, due is right");
    }
}

const ZERO: Complex = Complex { re: 0, im: 0 };

fn complex(due: Result<reference::Complex, u32>) -> Result<Complex, u32> {
    due.map(|value| Complex { re: value.re, im: value.im })
}

/// Any number, or one that is valid in its low bits.
fn any(random: &mut Random, limit: u32) -> u32 {
    if random.chance(50) { random.below(limit as usize) as u32 } else { random.past(limit) }
}

#[test]
fn elements() {
    let mut random = Random::of(printed_seed("elements"), 0);
    let mut answers = Answers::of("element");
    let mut compare = |q, k, chip| {
        let raw = ffi::tdd_element(q, k, chip);
        let due = (reference::element(q, k, chip), 0);
        answers.compare(&[q, k, chip], codes::element(q, k, chip), (raw.refusal, raw.element), due);
    };
    for q in 0..=33 {
        for k in 0..=33 {
            (0..=270).for_each(|chip| compare(q, k, chip));
        }
    }
    for _ in 0..ANY {
        compare(any(&mut random, 17), any(&mut random, 17), any(&mut random, 17));
    }
    answers.check(&[3, 4, 16]);
}

#[test]
fn relations() {
    let mut random = Random::of(printed_seed("relations"), 0);
    let mut answers = Answers::of("related");
    let mut compare = |q1, k1, q2, k2| {
        let raw = ffi::tdd_related(q1, k1, q2, k2);
        assert!(raw.related <= 1, "related {q1} {k1} {q2} {k2}: found {}", raw.related);
        let due = (reference::related(q1, k1, q2, k2), false);
        answers.compare(&[q1, k1, q2, k2], codes::related(q1, k1, q2, k2), (raw.refusal, raw.related == 1), due);
    };
    for n in 0..34_u32.pow(4) {
        compare(n / 34_u32.pow(3), n / 34_u32.pow(2) % 34, n / 34 % 34, n % 34);
    }
    for _ in 0..ANY {
        compare(any(&mut random, 17), any(&mut random, 17), any(&mut random, 17), any(&mut random, 17));
    }
    answers.check(&[3, 4]);
}

#[test]
fn code_groups() {
    let mut random = Random::of(printed_seed("code_groups"), 0);
    let mut answers = Answers::of("code group");
    let mut compare = |cell| {
        let raw = ffi::tdd_code_group(cell);
        let wrapper = codes::code_group(CellParameter(cell)).map(|group| group.0);
        answers.compare(&[cell], wrapper, (raw.refusal, raw.group), (reference::code_group(cell), 0));
    };
    (0..=200).for_each(&mut compare);
    (0..ANY).for_each(|_| compare(any(&mut random, 128)));
    answers.check(&[1]);
}

#[test]
fn scrambling_chips() {
    let mut random = Random::of(printed_seed("scrambling_chips"), 0);
    let mut answers = Answers::of("scrambling chip");
    let mut compare = |cell, chip| {
        let raw = ffi::tdd_scrambling_chip(cell, chip);
        let wrapper = codes::scrambling_chip(CellParameter(cell), chip);
        let due = (complex(reference::scrambling_chip(cell, chip)), ZERO);
        answers.compare(&[cell, chip], wrapper, (raw.refusal, raw.chip), due);
    };
    for cell in 0..=200 {
        (0..=270).for_each(|chip| compare(cell, chip));
    }
    (0..ANY).for_each(|_| compare(any(&mut random, 128), any(&mut random, 16)));
    answers.check(&[1, 16]);
}

#[test]
fn primary_chips() {
    let mut random = Random::of(printed_seed("primary_chips"), 0);
    let mut answers = Answers::of("primary chip");
    let mut compare = |chip| {
        let raw = ffi::tdd_primary_chip(chip);
        let due = (complex(reference::primary_chip(chip)), ZERO);
        answers.compare(&[chip], codes::primary_chip(chip), (raw.refusal, raw.chip), due);
    };
    (0..=270).for_each(&mut compare);
    (0..ANY).for_each(|_| compare(any(&mut random, 256)));
    answers.check(&[16]);
}

#[test]
fn secondary_chips() {
    let mut random = Random::of(printed_seed("secondary_chips"), 0);
    let mut answers = Answers::of("secondary chip");
    let mut compare = |number, chip| {
        let raw = ffi::tdd_secondary_chip(number, chip);
        let due = (complex(reference::secondary_chip(number, chip)), ZERO);
        answers.compare(&[number, chip], codes::secondary_chip(number, chip), (raw.refusal, raw.chip), due);
    };
    for number in 0..=40 {
        (0..=270).for_each(|chip| compare(number, chip));
    }
    (0..ANY).for_each(|_| compare(any(&mut random, 16), any(&mut random, 256)));
    answers.check(&[16]);
}

fn allocated(codes: [reference::Modulated; 3]) -> Allocated {
    let [first, second, marker] = codes.map(|modulated| ModulatedCode {
        code: modulated.code,
        unit: Complex { re: modulated.unit.re, im: modulated.unit.im },
    });
    Allocated { first, second, marker }
}

#[test]
fn allocations() {
    let mut random = Random::of(printed_seed("allocations"), 0);
    let mut answers = Answers::of("allocation");
    let nothing = ModulatedCode { code: 0, unit: ZERO };
    let zero = Allocated { first: nothing, second: nothing, marker: nothing };
    let mut compare = |case, group, frame, half| {
        let raw = ffi::tdd_allocation(case, group, frame, half);
        let wrapper = codes::allocation(case, CodeGroup(group), frame, half);
        let due = (reference::allocation(case, group, frame, half).map(allocated), zero);
        answers.compare(&[case, group, frame, half], wrapper, (raw.refusal, raw.codes), due);
    };
    for group in 0..=40 {
        (0..125).for_each(|n| compare(n / 25, group, n / 5 % 5, n % 5));
    }
    for _ in 0..ANY {
        compare(any(&mut random, 3), any(&mut random, 32), any(&mut random, 3), any(&mut random, 2));
    }
    answers.check(&[1, 14, 15]);
}

#[test]
fn burst_starts() {
    let mut random = Random::of(printed_seed("burst_starts"), 0);
    let mut answers = Answers::of("burst start");
    let mut compare = |group| {
        let raw = ffi::tdd_burst_start(group);
        let due = (reference::burst_start(group), 0);
        answers.compare(&[group], codes::burst_start(CodeGroup(group)), (raw.refusal, raw.start), due);
    };
    (0..=200).for_each(&mut compare);
    (0..ANY).for_each(|_| compare(any(&mut random, 32)));
    answers.check(&[1]);
}
