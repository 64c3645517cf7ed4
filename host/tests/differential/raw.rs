//! What only the raw exports can be given: plan counts past the records, and null pointers of length 0.

use std::ptr::{null, null_mut};

use smugolec::{Channel, ffi};

use crate::calls::{Call, Runs, first_records};
use crate::lists::{MOODS, Maker};
use crate::random::{Random, printed_seed};
use crate::reference;
use crate::tracker::Tracker;

const PLANS: usize = 5000;

/// A bench with some codes open and a slot under way.
fn busy_bench() -> ffi::Bench {
    let mut bench = ffi::tdd_bench_fresh();
    let plan = [Channel { q: 4, k: 1, gain: 3 }, Channel { q: 8, k: 0, gain: 4095 }];
    for call in [Call::LoadPlan(plan.to_vec()), Call::Start, Call::Draw { re: 100, im: 100 }] {
        assert_eq!(bench.run(&call).answer.refusal, 0, "{call}");
    }
    bench
}

#[test]
fn a_plan_of_more_than_17_counts_as_17() {
    let seed = printed_seed("a_plan_of_more_than_17_counts_as_17");
    let bench = busy_bench();
    let mut places = [0; 17];
    for n in 0..PLANS {
        let mut random = Random::of(seed, n);
        let any = random.word() as usize;
        let mood = &MOODS[random.below(MOODS.len())];
        let mut maker = Maker { random: &mut random, tracker: &Tracker::fresh(), mood };
        let mut plan = maker.plan();
        while plan.len() < 17 {
            plan.extend(maker.plan());
        }
        plan.truncate(17);
        let due = reference::Bench::fresh().run(&Call::LoadPlan(plan.clone())).answer;
        places[due.place] += 1;
        for count in [17, 18, 31, 32, 40, 0x1_0000, 1 << 32, (1 << 32) + 3, any.max(17), usize::MAX] {
            let found = ffi::tdd_bench_load_records(bench, first_records(&plan), count);
            let text = format!("count {count} for {}", Call::LoadPlan(plan.clone()));
            assert_eq!((found.refusal, found.place), (due.refusal, due.place), "{text}: found is left, due is right");
            assert!(found.bench == bench, "{text}: the bench changed");
        }
    }
    assert!(places.iter().all(|&plans| plans > 0), "refused plans by place: {places:?}");
}

#[test]
fn records_past_the_count_are_not_read() {
    let records = std::array::from_fn(|k| Channel { q: 16, k: k as u32 % 16, gain: 1 + k as u32 });
    for count in 0..=16 {
        let found = ffi::tdd_bench_load_records(busy_bench(), ffi::PlanRecords { records }, count);
        assert_eq!((found.refusal, found.place), (0, 0), "count {count}");
        let open = found.bench.settings.gains.iter().filter(|&&gain| gain != 0).count();
        assert_eq!(open, count, "open codes after a plan of {count}");
    }
}

#[test]
fn null_pointers_of_length_0() {
    let bench = busy_bench();
    // SAFETY: no buffer has an entry.
    unsafe {
        let drawn = ffi::tdd_bench_draw(bench, null_mut(), 0, null_mut(), 0);
        assert_eq!((drawn.refusal, drawn.count), (0, 0));
        assert!(drawn.bench == bench);
        let drawn = ffi::tdd_bench_draw(ffi::tdd_bench_fresh(), null_mut(), 0, null_mut(), 0);
        assert_eq!((drawn.refusal, drawn.count), (11, 0));
        assert_eq!(ffi::tdd_bench_load_bits(bench, 4, 1, null(), 0).refusal, 8);
        assert_eq!(ffi::tdd_bench_load_bits(bench, 4, 2, null(), 0).refusal, 7);
        assert_eq!(ffi::tdd_read(0, 16, 0, null(), 0, null(), 0, null_mut(), 0, null_mut(), 0), 16);
        assert_eq!(ffi::tdd_harden(null(), 0, null(), 0, null_mut(), 0), 0);
        assert_eq!(ffi::tdd_read_sync(1, null(), 0, null(), 0).refusal, 16);
        assert_eq!(ffi::tdd_find(null(), 0, null(), 0, null_mut(), 0, null_mut(), 0).refusal, 16);
    }
}
