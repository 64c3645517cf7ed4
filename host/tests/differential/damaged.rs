//! Every pattern of bytes is a bench. Document 01 has no such benches, so there is nothing to compare: each call must end, keep to its list of refusals,
//! and stay within what it was lent.

use std::mem::{offset_of, size_of};

use smugolec::ffi::{self, Settings, Sync};

use crate::calls::{Answer, Call, Outcome, Runs};
use crate::lists::{MOODS, Maker};
use crate::random::{Random, printed_seed};
use crate::tracker::{SLOT, Slot, Tracker};

const BENCHES: usize = 6000;

/// The fields of settings: first byte, bytes of an entry, entries.
const FIELDS: [(usize, usize, usize); 10] = [
    (offset_of!(Settings, cell), 4, 1),
    (offset_of!(Settings, kind), 4, 1),
    (offset_of!(Settings, gains), 2, 31),
    (offset_of!(Settings, pairs), 1, 2208),
    (offset_of!(Settings, sync) + offset_of!(Sync, on), 1, 1),
    (offset_of!(Settings, sync) + offset_of!(Sync, case), 4, 1),
    (offset_of!(Settings, sync) + offset_of!(Sync, frame), 4, 1),
    (offset_of!(Settings, sync) + offset_of!(Sync, half), 4, 1),
    (offset_of!(Settings, sync) + offset_of!(Sync, gp), 2, 1),
    (offset_of!(Settings, sync) + offset_of!(Sync, gs), 2, 1),
];

/// First byte and bytes of a random field of a bench, of one entry where it has many.
fn any_field(random: &mut Random) -> (usize, usize) {
    match random.below(8) {
        0 => (offset_of!(ffi::Bench, running), 1),
        1 => (offset_of!(ffi::Bench, position), 8),
        _ => {
            let settings = random.one_of(&[offset_of!(ffi::Bench, settings), offset_of!(ffi::Bench, sending)]);
            let (from, size, entries) = random.one_of(&FIELDS);
            (settings + from + size * random.below(entries), size)
        }
    }
}

/// Changes a byte of a bench by `change`. The byte must be a field's.
fn change_byte(bench: &mut ffi::Bench, place: usize, change: impl FnOnce(u8) -> u8) {
    assert!(place < size_of::<ffi::Bench>());
    // SAFETY: the place is inside the bench, which has nothing but numbers: every byte of a field may be read, and hold any value.
    unsafe {
        let byte = std::ptr::from_mut(bench).cast::<u8>().add(place);
        byte.write(change(byte.read()));
    }
}

fn set_field(bench: &mut ffi::Bench, (from, size): (usize, usize), value: u64) {
    for (place, byte) in (from..from + size).zip(value.to_le_bytes()) {
        change_byte(bench, place, |_| byte);
    }
}

/// All fields random; at times with a type, a position and a slot that draws get through.
fn random_bench(random: &mut Random) -> ffi::Bench {
    let mut bench = ffi::tdd_bench_fresh();
    for settings in [offset_of!(ffi::Bench, settings), offset_of!(ffi::Bench, sending)] {
        for (from, size, entries) in FIELDS {
            (0..entries).for_each(|n| set_field(&mut bench, (settings + from + size * n, size), random.word()));
        }
    }
    bench.running = random.word() as u8;
    bench.position = random.word() as usize;
    if random.chance(70) {
        bench.running = random.one_of(&[0, 1, 1, 1, 2, 255]);
        bench.position = random.one_of(&[0, 1, 17, 900, 1500, 2559, 2560, 2561, usize::MAX]);
        bench.sending.kind = random.one_of(&[0, 1, 2, 3, 4]);
        bench.sending.sync.case = random.one_of(&[0, 1, 2, 3]);
        bench.sending.cell = random.one_of(&[0, 3, 64, 127, 128, u32::MAX]);
    }
    bench
}

/// What a bench looks like to the maker of its next call.
fn tracker_of(bench: &ffi::Bench) -> Tracker {
    let codes = [1, 2, 4, 8, 16].into_iter().flat_map(|q| (0..q).map(move |k| (q, k)));
    let open = codes.filter(|(q, k)| bench.settings.gains[(q - 1 + k) as usize] != 0).collect();
    let slot = Slot { cell: 0, kind: 1, codes: 0, loaded: 0, sync: None, drawn: bench.position.min(SLOT) };
    let kind = bench.settings.kind.clamp(1, 3);
    Tracker { kind, open, slot: (bench.running != 0).then_some(slot), ..Tracker::fresh() }
}

/// A bench that some random calls made.
fn valid_bench(random: &mut Random) -> ffi::Bench {
    let mut bench = ffi::tdd_bench_fresh();
    let mood = &MOODS[random.below(MOODS.len())];
    for _ in 0..random.below(40) {
        let tracker = &tracker_of(&bench);
        bench.run(&Maker { random, tracker, mood }.call());
    }
    bench
}

/// A bench and the sort of its damage.
fn damaged_bench(random: &mut Random) -> (ffi::Bench, &'static str) {
    let any = random.word();
    let value = random.one_of(&[0, 1, 2, 3, 4, 16, 32, 127, 128, 2559, 2560, 4095, 4096, u64::MAX, any]);
    match random.below(4) {
        0 => (random_bench(random), "of random bytes"),
        1 => {
            let mut bench = ffi::tdd_bench_fresh();
            bench.running = random.below(2) as u8;
            set_field(&mut bench, any_field(random), value);
            (bench, "fresh with a field damaged")
        }
        2 => {
            let mut bench = valid_bench(random);
            set_field(&mut bench, any_field(random), value);
            (bench, "valid with a field damaged")
        }
        _ => {
            let mut bench = valid_bench(random);
            for _ in 0..random.one_of(&[1, 5, 50, 500]) {
                let (from, size) = any_field(random);
                let flip = random.word() as u8;
                change_byte(&mut bench, from + random.below(size), |byte| byte ^ flip);
            }
            (bench, "valid with bytes flipped")
        }
    }
}

/// What holds of every call on every bench, where it does not hold.
fn wrong(call: &Call, before: &ffi::Bench, outcome: &Outcome, after: &ffi::Bench) -> Option<&'static str> {
    let answer = &outcome.answer;
    let refused = answer.refusal != 0;
    let under_way = before.running != 0;
    let (start, draw) = (matches!(call, Call::Start), matches!(call, Call::Draw { .. }));
    let untouched = outcome.buffers.iter().flatten().all(|buffer| buffer.unwritten_but(answer.count));
    let air = |bench: &ffi::Bench| (bench.running, bench.sending, bench.position);
    let place_or_count = match call {
        Call::LoadPlan(plan) if refused => answer.place >= plan.len().min(17),
        Call::Draw { re, .. } if !refused => wrong_count(*re, before, answer.count, after),
        _ => (answer.place, answer.count) != (0, 0),
    };
    let rules = [
        (refused && !call.refusals().contains(&answer.refusal), "a refusal of another call"),
        (refused && after != before, "refused, but the bench changed"),
        (place_or_count, "a wrong place or count"),
        (!untouched, "an entry past the count, or outside the lent part, was written"),
        ((start || draw) && after.settings != before.settings, "the settings changed"),
        (!start && !draw && air(after) != air(before), "the air changed"),
        (start && refused != under_way, "start did not go by the slot under way"),
        (start && !refused && after.sending != before.settings, "start copied other settings"),
        (draw && (answer.refusal == 11) == under_way, "draw did not go by the slot under way"),
    ];
    rules.into_iter().find_map(|(wrong, text)| wrong.then_some(text))
}

/// A draw's count is at most the length and a slot, and the position moves by it or the slot ends.
fn wrong_count(length: usize, before: &ffi::Bench, count: usize, after: &ffi::Bench) -> bool {
    let moved = after.sending == before.sending && Some(after.position) == before.position.checked_add(count);
    count > length || count > SLOT || (after.running != 0 && !moved)
}

/// Runs a call on a bench and checks what it did. Gives its answer and the new bench.
fn check_call(before: &ffi::Bench, call: &Call, named: &str) -> (Answer, ffi::Bench) {
    let mut bench = *before;
    let outcome = bench.run(call);
    let text = || format!("{named}: {call}: {}\n{before:?}", outcome.answer);
    if let Some(wrong) = wrong(call, before, &outcome, &bench) {
        panic!("{wrong}: {}", text());
    }
    // The wrapper does as the raw export, and a call does the same again.
    let mut wrapper = smugolec::Bench::from_ffi(*before);
    let again = wrapper.run(call);
    assert!(again.difference(&outcome).is_none() && *wrapper.as_ffi() == bench, "not the same again: {}", text());
    (outcome.answer, bench)
}

#[test]
fn every_pattern_of_bytes_is_a_bench() {
    let seed = printed_seed("every_pattern_of_bytes_is_a_bench");
    let (mut accepted, mut chips) = ([0; 10], 0);
    for n in 0..BENCHES {
        let random = &mut Random::of(seed, n);
        let (mut bench, sort) = damaged_bench(random);
        let named = format!("bench {n} of TDD_SEED={seed}, {sort}");
        let mood = &MOODS[random.one_of(&[0, 1, 5, 6, 7])];
        // Each call on the bench as it is, and then a few in a row.
        for step in 0..16 {
            let mut maker = Maker { random, tracker: &tracker_of(&bench), mood };
            let call = if step < 10 { maker.call_at(step) } else { maker.call() };
            let (answer, after) = check_call(&bench, &call, &named);
            bench = if step < 10 { bench } else { after };
            accepted[call.place()] += usize::from(answer.refusal == 0);
            chips += answer.count;
        }
    }
    println!("accepted calls: {accepted:?}, {chips} chips");
    assert!(accepted.iter().all(|&times| times >= 1000), "accepted calls: {accepted:?}");
    assert!(chips >= 1_000_000, "{chips} chips");
}
