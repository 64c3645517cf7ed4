//! Document 01, "Tests at the edges", and the bounds of the other refusals.

use super::super::{
    Bench, Candidate, Channel, Peak, allocation, burst_start, code_group, element, find, harden, primary_chip, read,
    read_sync, scrambling_chip, secondary_chip,
};

const FACTORS: [u32; 5] = [1, 2, 4, 8, 16];

#[test]
fn gain_4095_and_4096() {
    let mut bench = Bench::fresh();
    assert_eq!(bench.open(4, 0, 0), Err(5));
    assert_eq!(bench.open(4, 0, 4096), Err(5));
    assert_eq!(bench.open(4, 0, u32::MAX), Err(5));
    assert_eq!(bench.open(4, 0, 4095), Ok(()));
    assert_eq!(bench.open(4, 1, 1), Ok(()));
    assert_eq!(bench.set_gain(4, 1, 4095), Ok(()));
    assert_eq!(bench.set_gain(4, 1, 4096), Err(5));
    assert_eq!(bench.set_gain(4, 1, 0), Err(5));
    assert_eq!(bench.set_sync(1, 1, 0, 4095, 4095), Ok(()));
    assert_eq!(bench.set_sync(1, 1, 0, 4096, 4095), Err(5));
    assert_eq!(bench.set_sync(1, 1, 0, 4095, 4096), Err(5));
    assert_eq!(bench.set_sync(1, 1, 0, 0, 1), Err(5));
    assert_eq!(bench.set_sync(1, 1, 0, 1, 0), Err(5));
    let record = |gain| Channel { q: 4, k: 0, gain };
    assert_eq!(bench.load_plan(&[record(4096)]), Err((5, 0)));
    assert_eq!(bench.load_plan(&[record(4095)]), Ok(()));
}

#[test]
fn index_q_less_1_and_q() {
    for q in FACTORS {
        let mut bench = Bench::fresh();
        assert_eq!(bench.open(q, q, 1), Err(4));
        assert_eq!(bench.open(q, q - 1, 1), Ok(()));
        assert_eq!(bench.close(q, q), Err(4));
        assert_eq!(bench.close(q, q - 1), Ok(()));
        assert_eq!(element(q, q, 0), Err(4));
        assert!(element(q, q - 1, 0).is_ok());
        assert_eq!(element(q, q - 1, q), Err(16));
        assert!(element(q, q - 1, q - 1).is_ok());
    }
}

#[test]
fn only_the_five_spreading_factors() {
    for q in (0..100).chain([u32::MAX]) {
        let expected = if FACTORS.contains(&q) { Ok(()) } else { Err(3) };
        assert_eq!(Bench::fresh().open(q, 0, 1), expected);
    }
}

#[test]
fn find_255_256_5120_5121_chips() {
    let call = |n: usize, scratch: usize| {
        let chips = vec![0; n];
        find(&chips, &chips, &mut vec![0; scratch], &mut vec![0; scratch])
    };
    let nothing = Ok(Peak { start: 0, size: 0 });
    assert_eq!(call(0, 6000), Err(16));
    assert_eq!(call(255, 6000), Err(16));
    assert_eq!(call(256, 6000), nothing);
    assert_eq!(call(5120, 6000), nothing);
    assert_eq!(call(5121, 6000), Err(16));
    assert_eq!(call(256, 241), nothing);
    assert_eq!(call(256, 240), Err(18));
    assert_eq!(call(5120, 5105), nothing);
    assert_eq!(call(5120, 5104), Err(18));
}

#[test]
fn each_scratch_buffer_counts() {
    let chips = vec![0; 300];
    assert_eq!(find(&chips, &chips, &mut [0; 284], &mut [0; 285]), Err(18));
    assert_eq!(find(&chips, &chips, &mut [0; 285], &mut [0; 284]), Err(18));
    assert!(find(&chips, &chips, &mut [0; 285], &mut [0; 999]).is_ok());
}

#[test]
fn bit_counts() {
    let counts =
        [(1, [3904, 1952, 976, 488, 244]), (2, [4416, 2208, 1104, 552, 276]), (3, [3712, 1856, 928, 464, 232])];
    for (kind, by_factor) in counts {
        for (q, count) in FACTORS.into_iter().zip(by_factor) {
            let mut bench = Bench::fresh();
            bench.set_cell(5, kind).unwrap();
            bench.open(q, q - 1, 7).unwrap();
            assert_eq!(bench.load_bits(q, q - 1, &vec![1; count]), Ok(()));
            assert_eq!(bench.load_bits(q, q - 1, &vec![1; count - 1]), Err(8));
            assert_eq!(bench.load_bits(q, q - 1, &vec![1; count + 1]), Err(8));
            assert_eq!(bench.load_bits(q, q - 1, &[]), Err(8));
        }
    }
}

#[test]
fn bytes_above_1() {
    let mut bench = Bench::fresh();
    bench.open(16, 3, 7).unwrap();
    for byte in 0..=255 {
        let mut bits = [0; 244];
        bits[243] = byte;
        let expected = if byte > 1 { Err(9) } else { Ok(()) };
        assert_eq!(bench.load_bits(16, 3, &bits), expected);
    }
}

#[test]
fn cell_parameters_and_types() {
    let mut bench = Bench::fresh();
    assert_eq!(bench.set_cell(127, 3), Ok(()));
    assert_eq!(bench.set_cell(128, 3), Err(1));
    assert_eq!(bench.set_cell(u32::MAX, 3), Err(1));
    assert_eq!(bench.set_cell(127, 0), Err(2));
    assert_eq!(bench.set_cell(127, 4), Err(2));
    assert_eq!(code_group(0), Ok(0));
    assert_eq!(code_group(127), Ok(31));
    assert_eq!(code_group(128), Err(1));
    assert!(scrambling_chip(127, 15).is_ok());
    assert_eq!(scrambling_chip(127, 16), Err(16));
    assert_eq!(scrambling_chip(128, 0), Err(1));
}

#[test]
fn sync_code_numbers_and_chips() {
    let listed = [0, 1, 3, 4, 5, 6, 8, 10, 12, 13, 14, 15];
    for number in (0..40).chain([u32::MAX]) {
        let known = listed.contains(&number);
        assert_eq!(secondary_chip(number, 255).is_ok(), known);
        assert_eq!(secondary_chip(number, 256), Err(16));
        if !known {
            assert_eq!(secondary_chip(number, 0), Err(16));
        }
    }
    assert!(primary_chip(255).is_ok());
    assert_eq!(primary_chip(256), Err(16));
    assert_eq!(primary_chip(u32::MAX), Err(16));
}

#[test]
fn groups_cases_frames_halves() {
    assert_eq!(burst_start(0), Ok(0));
    assert_eq!(burst_start(32), Err(1));
    assert_eq!(burst_start(u32::MAX), Err(1));
    for case in 0..4 {
        for frame in 0..4 {
            for half in 0..3 {
                let expected = if case != 1 && case != 2 {
                    Some(14)
                } else if !(1..=2).contains(&frame) || half > 1 || (case, half) == (1, 1) {
                    Some(15)
                } else {
                    None
                };
                let mut bench = Bench::fresh();
                let answer = bench.set_sync(case, frame, half, 1, 1);
                assert_eq!(answer.err(), expected);
                assert_eq!(allocation(case, 31, frame, half).err(), expected);
                assert_eq!(allocation(case, 32, frame, half).err(), Some(1));
            }
        }
    }
}

#[test]
fn field_lengths_to_read() {
    for length in 0..1300 {
        let chips = vec![100; length];
        let mut out = (vec![0; 2000], vec![0; 2000]);
        let answer = read(3, 16, 2, &chips, &chips, &mut out.0, &mut out.1);
        let fits = length > 0 && length <= 1104 && length % 16 == 0;
        assert_eq!(answer, if fits { Ok(()) } else { Err(16) });
    }
}

#[test]
fn components_to_100000() {
    for (component, fits) in
        [(100_000, true), (-100_000, true), (100_001, false), (-100_001, false), (i32::MAX, false), (i32::MIN, false)]
    {
        let zeros = [0; 256];
        let mut chips = [0; 256];
        chips[255] = component;
        for (re, im) in [(&chips, &zeros), (&zeros, &chips)] {
            let number = if fits { None } else { Some(17) };
            let answer = read(0, 1, 0, re, im, &mut [0; 256], &mut [0; 256]);
            assert_eq!(answer.err(), number);
            assert_eq!(find(re, im, &mut [0; 256], &mut [0; 256]).err(), number);
            if !fits {
                assert_eq!(read_sync(1, re, im), Err(17));
            }
        }
    }
}

#[test]
fn answer_buffers_of_length_over_q() {
    for q in FACTORS {
        let enough = 976 / q as usize;
        let chips = [1; 976];
        let call = |re: usize, im: usize| {
            let mut out = (vec![0; re], vec![0; im]);
            read(0, q, 0, &chips, &chips, &mut out.0, &mut out.1)
        };
        assert_eq!(call(enough, enough), Ok(()));
        assert_eq!(call(enough, enough + 5), Ok(()));
        assert_eq!(call(enough - 1, enough), Err(18));
        assert_eq!(call(enough, enough - 1), Err(18));
    }
}

#[test]
fn hardening_scores_extremes_exactly() {
    let (low, high) = (i32::MIN, i32::MAX);
    let one = |re: i32, im: i32| {
        let mut bits = [9; 3];
        harden(&[re], &[im], &mut bits).unwrap();
        assert_eq!(bits[2], 9);
        (bits[0], bits[1])
    };
    assert_eq!(one(low, high), (1, 0));
    assert_eq!(one(high, low), (1, 1));
    assert_eq!(one(low, low), (1, 0));
    assert_eq!(one(high, high), (0, 0));
    assert_eq!(one(low, 0), (1, 0));
    assert_eq!(one(0, low), (1, 1));
    assert_eq!(one(3, -3), (0, 1));
    assert_eq!(one(-3, 3), (0, 0));
}

#[test]
fn nothing_to_harden() {
    assert_eq!(harden(&[], &[], &mut []), Ok(()));
    assert_eq!(harden(&[1], &[1], &mut [0; 1]), Err(18));
}

#[test]
fn extreme_chips_stay_exact() {
    let sign = |chip: u32| primary_chip(chip).unwrap().re;
    let chips: Vec<i32> = (0..256).map(|chip| 100_000 * sign(chip)).collect();
    let peak = find(&chips, &chips, &mut [0; 241], &mut [0; 241]).unwrap();
    assert_eq!(peak.start, 0);
    assert_eq!(peak.size, 51_200_000 * 51_200_000);
    assert_eq!(read_sync(1, &chips, &chips), Err(19));
}

#[test]
fn the_largest_chips_can_be_read() {
    let mut bench = Bench::fresh();
    bench.set_cell(127, 1).unwrap();
    for k in 0..16 {
        bench.open(16, k, 4095).unwrap();
    }
    bench.set_sync(2, 2, 1, 4095, 4095).unwrap();
    let (re, im) = super::draw_slot(&mut bench);
    assert_eq!(re.iter().chain(&im).map(|x| x.abs()).max(), Some(81_900));
    let burst = (&re[2208..2464], &im[2208..2464]);
    assert_ne!(read_sync(2, burst.0, burst.1), Err(17));
}

#[test]
fn equal_peaks_give_the_smallest_start() {
    let mut re = vec![0; 2000];
    let mut im = vec![0; 2000];
    for start in [300, 700, 1500] {
        for chip in 0..256 {
            let primary = primary_chip(chip).unwrap();
            re[start + chip as usize] = 7 * primary.re;
            im[start + chip as usize] = 7 * primary.im;
        }
    }
    assert_eq!(find(&re, &im, &mut [0; 1985], &mut [0; 1985]), Ok(Peak { start: 300, size: (7 * 512) * (7 * 512) }));
}

#[test]
fn a_phase_turn_leaves_the_candidate() {
    let mut bench = Bench::fresh();
    bench.set_cell(77, 1).unwrap();
    bench.set_sync(2, 2, 0, 9, 4).unwrap();
    let (re, im) = super::draw_slot(&mut bench);
    let start = burst_start(19).unwrap() as usize;
    let (re, im) = (&re[start..start + 256], &im[start..start + 256]);
    let turned: Vec<i32> = im.iter().map(|x| -x).collect();
    let expected = Ok(Candidate { group: 19, frame: 2, half: 0 });
    assert_eq!(read_sync(2, re, im), expected);
    assert_eq!(read_sync(2, &turned, re), expected);
}
