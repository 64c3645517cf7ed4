//! What the bench makes, the analyser reads back.

use super::super::{Bench, Candidate, burst_start, find, harden, primary_chip, read, read_sync, secondary_chip};
use super::{Random, draw_slot, fields};

/// Codes of mixed spreading factors, none related to another, that fill the tree.
const MIXED: [(u32, u32); 5] = [(2, 1), (4, 0), (8, 2), (16, 6), (16, 7)];

/// Sets of unrelated codes: one alone at each level, a mix, and each level whole.
fn code_sets() -> Vec<Vec<(u32, u32)>> {
    let mut sets = vec![MIXED.to_vec()];
    for q in [1, 2, 4, 8, 16] {
        sets.push((0..q).map(|k| (q, k)).collect());
        sets.push(vec![(q, q / 2)]);
    }
    sets
}

/// The readings of one field.
fn read_field(
    cell: u32,
    (q, k): (u32, u32),
    slot: &(Vec<i32>, Vec<i32>),
    (start, length): (usize, usize),
) -> (Vec<i32>, Vec<i32>) {
    let stretch = start..start + length;
    let readings = length / q as usize;
    let mut out = (vec![0; readings], vec![0; readings]);
    let (re, im) = (&slot.0[stretch.clone()], &slot.1[stretch]);
    read(cell, q, k, re, im, &mut out.0, &mut out.1).unwrap();
    out
}

/// A bench with every code of the set open, random gains and bits; the bits come along.
fn loaded(random: &mut Random, kind: u32, codes: &[(u32, u32)]) -> (Bench, u32, Vec<Vec<u8>>) {
    let cell = random.below(128);
    let mut bench = Bench::fresh();
    bench.set_cell(cell, kind).unwrap();
    let [(_, field_1), (_, field_2)] = fields(kind);
    let mut all = Vec::new();
    for &(q, k) in codes {
        let bits = random.bits(2 * (field_1 + field_2) / q as usize);
        bench.open(q, k, 1 + random.below(4095)).unwrap();
        bench.load_bits(q, k, &bits).unwrap();
        all.push(bits);
    }
    (bench, cell, all)
}

#[test]
fn bits_to_slot_to_bits() {
    let mut random = Random(1);
    for kind in [1, 2, 3] {
        for codes in code_sets() {
            let (mut bench, cell, all) = loaded(&mut random, kind, &codes);
            let slot = draw_slot(&mut bench);
            for (&code, bits) in codes.iter().zip(&all) {
                let mut hard = Vec::new();
                for field in fields(kind) {
                    let (re, im) = read_field(cell, code, &slot, field);
                    let mut part = vec![9; 2 * re.len()];
                    harden(&re, &im, &mut part).unwrap();
                    hard.extend(part);
                }
                assert_eq!(&hard, bits);
            }
        }
    }
}

#[test]
fn readings_are_q_times_gain_times_symbol() {
    let mut bench = Bench::fresh();
    bench.set_cell(100, 3).unwrap();
    bench.open(8, 6, 37).unwrap();
    bench.open(16, 3, 4000).unwrap();
    let mut bits = vec![0; 464];
    for (n, bit) in bits.iter_mut().enumerate() {
        *bit = [0, 0, 0, 1, 1, 0, 1, 1][n % 8];
    }
    bench.load_bits(8, 6, &bits).unwrap();
    let slot = draw_slot(&mut bench);
    let mut n = 0;
    for field in fields(3) {
        let (re, im) = read_field(100, (8, 6), &slot, field);
        for reading in re.into_iter().zip(im) {
            let expected = [(0, 296), (296, 0), (-296, 0), (0, -296)][n % 4];
            assert_eq!(reading, expected);
            n += 1;
        }
    }
    assert_eq!(n, 232);
}

#[test]
fn free_codes_read_0() {
    let mut random = Random(2);
    let (mut bench, cell, _) = loaded(&mut random, 2, &MIXED[1..4]);
    let slot = draw_slot(&mut bench);
    for code in [(2, 1), (4, 2), (16, 7), (16, 15)] {
        for field in fields(2) {
            let (re, im) = read_field(cell, code, &slot, field);
            assert!(re.iter().chain(&im).all(|&x| x == 0));
        }
    }
}

#[test]
fn midamble_and_guard_are_0() {
    let mut random = Random(3);
    for kind in [1, 2, 3] {
        let (mut bench, _, _) = loaded(&mut random, kind, &[(1, 0)]);
        let (re, im) = draw_slot(&mut bench);
        for position in 0..2560 {
            let data = fields(kind).iter().any(|&(start, length)| position >= start && position < start + length);
            assert_eq!((re[position], im[position]) != (0, 0), data);
        }
    }
}

#[test]
fn burst_alone_gives_its_candidate() {
    for case in [1, 2] {
        for group in 0..32 {
            for frame in [1, 2] {
                for half in 0..case {
                    for (gp, gs) in [(1, 1), (1, 4095), (4095, 1), (4095, 4095), (30, 17)] {
                        let mut bench = Bench::fresh();
                        bench.set_cell(4 * group + frame, 1).unwrap();
                        bench.set_sync(case, frame, half, gp, gs).unwrap();
                        let (re, im) = draw_slot(&mut bench);
                        let start = burst_start(group).unwrap() as usize;
                        let end = start + 256;
                        assert_eq!(
                            read_sync(case, &re[start..end], &im[start..end]),
                            Ok(Candidate { group, frame, half })
                        );
                        let around = re[..start].iter().chain(&re[end..]).chain(&im[..start]).chain(&im[end..]);
                        assert!(around.into_iter().all(|&x| x == 0));
                    }
                }
            }
        }
    }
}

#[test]
fn burst_chips_by_hand() {
    // Case 2, group 9, frame 2, half 1: -C10, C13, -C14, which are all (1+j) times a real code.
    let mut bench = Bench::fresh();
    bench.set_cell(38, 1).unwrap();
    bench.set_sync(2, 2, 1, 100, 7).unwrap();
    let (re, im) = draw_slot(&mut bench);
    for chip in 0..256 {
        let real = |i| secondary_chip(i, chip).unwrap().re;
        let expected = 100 * primary_chip(chip).unwrap().re + 7 * (-real(10) + real(13) - real(14));
        assert_eq!(re[432 + chip as usize], expected);
        assert_eq!(im[432 + chip as usize], expected);
    }
    // Case 1, group 31, frame 2: -jC13, -jC14, -C10; -j(1+j) is 1-j.
    let mut bench = Bench::fresh();
    bench.set_cell(127, 1).unwrap();
    bench.set_sync(1, 2, 0, 100, 7).unwrap();
    let (re, im) = draw_slot(&mut bench);
    for chip in 0..256 {
        let real = |i| secondary_chip(i, chip).unwrap().re;
        let primary = 100 * primary_chip(chip).unwrap().re;
        let pair = real(13) + real(14);
        assert_eq!(re[2208 + chip as usize], primary + 7 * (pair - real(10)));
        assert_eq!(im[2208 + chip as usize], primary + 7 * (-pair - real(10)));
    }
}

#[test]
fn slot_with_burst_is_the_sum_of_both() {
    let mut random = Random(4);
    for _ in 0..20 {
        let (mut bench, cell, _) = loaded(&mut random, 1, &MIXED);
        let data = draw_slot(&mut bench);
        let (gp, gs) = (1 + random.below(4095), 1 + random.below(4095));
        bench.set_sync(1, 2, 0, gp, gs).unwrap();
        let both = draw_slot(&mut bench);
        bench.load_plan(&[]).unwrap();
        let burst = draw_slot(&mut bench);
        for n in 0..2560 {
            assert_eq!(both.0[n], data.0[n] + burst.0[n]);
            assert_eq!(both.1[n], data.1[n] + burst.1[n]);
        }
        // A reading is the code's own and the burst's own.
        for field in fields(1) {
            let whole = read_field(cell, (8, 2), &both, field);
            let own = read_field(cell, (8, 2), &data, field);
            let sync = read_field(cell, (8, 2), &burst, field);
            for n in 0..whole.0.len() {
                assert_eq!(whole.0[n], own.0[n] + sync.0[n]);
                assert_eq!(whole.1[n], own.1[n] + sync.1[n]);
            }
        }
    }
}

#[test]
fn find_gives_the_burst_of_a_slot() {
    for group in 0..32 {
        let mut bench = Bench::fresh();
        bench.set_cell(4 * group + 3, 1).unwrap();
        bench.set_sync(2, 1, 1, 40, 3).unwrap();
        let (re, im) = draw_slot(&mut bench);
        let peak = find(&re, &im, &mut [0; 2545], &mut [0; 2545]).unwrap();
        assert_eq!(peak.start, burst_start(group).unwrap() as usize);
        // The secondary codes add nothing to P there, and Cp with itself gives 512.
        assert_eq!(peak.size, (40 * 512) * (40 * 512));
    }
}

#[test]
fn entries_past_those_written_stay() {
    let chips = [3; 32];
    let mut out = ([7; 5], [8; 4]);
    read(1, 16, 2, &chips, &chips, &mut out.0, &mut out.1).unwrap();
    assert_eq!(out.0[2..], [7; 3]);
    assert_eq!(out.1[2..], [8; 2]);
    let mut bits = [9; 7];
    harden(&[1, -1], &[0, 0], &mut bits).unwrap();
    assert_eq!(bits, [0, 1, 1, 0, 9, 9, 9]);
}
