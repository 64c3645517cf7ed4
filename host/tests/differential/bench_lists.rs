//! Lists of bench calls, each from a fresh bench, on a bench under test and on the reference.

use std::ops::Range;

use smugolec::{Bench, ffi};

use crate::calls::{Call, Outcome, Runs};
use crate::coverage::Coverage;
use crate::lists::{self, MOODS, Maker};
use crate::random::{Random, printed_seed};
use crate::reference;
use crate::shrink::{Fault, readable, shrink};
use crate::tracker::{SLOT, Tracker};

/// Lists by number: those of the wrapper, and others of the raw exports.
const LISTS: Range<usize> = 0..6000;
const RAW_LISTS: Range<usize> = 6000..7000;

/// A bench under test and the reference, which take the same calls.
struct Pair<B> {
    bench: B,
    reference: reference::Bench,
}

impl<B: Runs + Clone + PartialEq> Pair<B> {
    fn fresh(bench: B) -> Pair<B> {
        Pair { bench, reference: reference::Bench::fresh() }
    }

    /// What is due at the call, or where the bench under test differs.
    fn step(&mut self, call: &Call) -> Result<Outcome, String> {
        let before = self.bench.clone();
        let found = self.bench.run(call);
        let due = self.reference.run(call);
        if let Some(text) = found.difference(&due) {
            return Err(text);
        }
        if due.answer.refusal != 0 && self.bench != before {
            return Err(format!("{}, as is due, but the bench changed", due.answer));
        }
        Ok(due)
    }
}

/// The first call of a list at which the bench under test differs from the reference.
fn fault<B: Runs + Clone + PartialEq>(fresh: B, calls: &[Call]) -> Option<Fault> {
    let mut pair = Pair::fresh(fresh);
    calls.iter().enumerate().find_map(|(place, call)| pair.step(call).err().map(|text| Fault { place, text }))
}

/// After each list: what is left of the slot under way, and then a slot of the settings, so that nothing hidden stays.
fn last_calls() -> [Call; 3] {
    let whole = Call::Draw { re: SLOT, im: SLOT };
    [whole.clone(), Call::Start, whole]
}

/// Runs a random list, made call by call as the reference answers. Gives the list where it fails.
fn run_list<B: Runs + Clone + PartialEq>(fresh: B, random: &mut Random, coverage: &mut Coverage) -> Option<Vec<Call>> {
    let mood = &MOODS[random.below(MOODS.len())];
    let length = lists::length(random);
    let mut tracker = Tracker::fresh();
    let mut pair = Pair::fresh(fresh);
    let mut list = Vec::new();
    for n in 0..length + 3 {
        let mut maker = Maker { random, tracker: &tracker, mood };
        let call = match n.checked_sub(length) {
            None if n == 0 => maker.first_call(),
            None => maker.call(),
            Some(last) => last_calls()[last].clone(),
        };
        list.push(call.clone());
        let Ok(due) = pair.step(&call) else {
            return Some(list);
        };
        coverage.count(&call, &due, &mut tracker);
    }
    None
}

/// A failing list in short.
fn report<B: Runs + Clone + PartialEq>(fresh: &B, named: &str, list: &[Call]) -> String {
    let (short, fault) = shrink(list, |calls| fault(fresh.clone(), calls));
    let lengths = format!("failed at its call {}, shrunk to {}", list.len(), short.len());
    format!("{named} {lengths}:\n{}", readable(&short, &fault))
}

/// Runs lists, or gives the report of the first one that fails.
fn run_lists<B: Runs + Clone + PartialEq>(fresh: &B, seed: u64, lists: Range<usize>) -> Result<Coverage, String> {
    let mut coverage = Coverage::default();
    for n in lists {
        if let Some(list) = run_list(fresh.clone(), &mut Random::of(seed, n), &mut coverage) {
            return Err(report(fresh, &format!("list {n} of TDD_SEED={seed}"), &list));
        }
    }
    Ok(coverage)
}

#[test]
fn random_lists() {
    let seed = printed_seed("random_lists");
    let coverage = run_lists(&Bench::fresh(), seed, LISTS).unwrap_or_else(|report| panic!("{report}"));
    println!("{coverage}");
    coverage.check();
}

#[test]
fn random_lists_on_raw_exports() {
    let seed = printed_seed("random_lists_on_raw_exports");
    let coverage = run_lists(&ffi::tdd_bench_fresh(), seed, RAW_LISTS).unwrap_or_else(|report| panic!("{report}"));
    println!("{coverage}");
    coverage.check_refusals(1);
}

/// The burst of every cell in every case, frame and half: random lists come upon most of them only.
#[test]
fn every_sync_burst() {
    let seed = printed_seed("every_sync_burst");
    for cell in 0..128 {
        let mut random = Random::of(seed, cell);
        for (case, frame, half) in [(1, 1, 0), (1, 2, 0), (2, 1, 0), (2, 1, 1), (2, 2, 0), (2, 2, 1)] {
            let [gp, gs] = [(); 2].map(|()| random.within(1, 4095) as u32);
            let set = [Call::SetCell { cell: cell as u32, kind: 1 }, Call::SetSync { case, frame, half, gp, gs }];
            let list = [&set[..], &last_calls()].concat();
            if fault(Bench::fresh(), &list).is_some() {
                panic!("{}", report(&Bench::fresh(), &format!("list of TDD_SEED={seed}"), &list));
            }
        }
    }
}

/// The reference, but with every gain that is set, up to the largest, one too high.
#[derive(Clone, PartialEq)]
struct LouderBench(reference::Bench);

impl Runs for LouderBench {
    fn run(&mut self, call: &Call) -> Outcome {
        match call {
            Call::SetGain(channel) => {
                let mut channel = *channel;
                channel.gain += u32::from((1..4095).contains(&channel.gain));
                self.0.run(&Call::SetGain(channel))
            }
            _ => self.0.run(call),
        }
    }
}

#[test]
fn a_wrong_bench_is_reported_with_a_short_list() {
    let seed = printed_seed("a_wrong_bench_is_reported_with_a_short_list");
    let report = run_lists(&LouderBench(reference::Bench::fresh()), seed, LISTS).err().expect("the wrong gain shows");
    println!("{report}");
    let lines: Vec<&str> = report.lines().collect();
    let calls: Vec<&str> = lines[1..lines.len() - 1].iter().map(|line| line.split_once(". ").unwrap().1).collect();
    for (call, name) in calls.iter().zip(["open", "set gain", "start", "draw"]) {
        assert!(call.starts_with(name) || call.starts_with("load plan"), "{report}");
    }
    assert_eq!(calls.len(), 4, "{report}");
    assert!(report.contains("found"), "{report}");
}
