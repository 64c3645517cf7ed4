//! The slot under way: pieces, settings changed meanwhile, and lists of any calls.

use super::super::{Bench, Channel};
use super::{Random, draw_slot};

/// A bench with something in every part of the slot.
fn bench() -> Bench {
    let mut random = Random(5);
    let mut bench = Bench::fresh();
    bench.set_cell(60, 1).unwrap();
    for (q, k, count) in [(2, 0, 1952), (8, 5, 488), (16, 12, 244)] {
        bench.open(q, k, 1 + random.below(4095)).unwrap();
        bench.load_bits(q, k, &random.bits(count)).unwrap();
    }
    bench.set_sync(1, 2, 0, 90, 80).unwrap();
    bench
}

#[test]
fn pieces_make_the_whole() {
    let whole = draw_slot(&mut bench());
    let mut random = Random(6);
    for _ in 0..20 {
        let mut bench = bench();
        bench.start().unwrap();
        let (mut re, mut im) = (Vec::new(), Vec::new());
        while re.len() < 2560 {
            let length = random.below(900) as usize;
            let mut piece = (vec![7; length], vec![8; length]);
            let count = bench.draw(&mut piece.0, &mut piece.1).unwrap();
            assert_eq!(count, length.min(2560 - re.len()));
            assert!(piece.0[count..].iter().all(|&x| x == 7));
            assert!(piece.1[count..].iter().all(|&x| x == 8));
            re.extend(&piece.0[..count]);
            im.extend(&piece.1[..count]);
        }
        assert_eq!((&re, &im), (&whole.0, &whole.1));
        assert_eq!(bench.draw(&mut [], &mut []), Err(11));
    }
}

#[test]
fn chip_by_chip() {
    let whole = draw_slot(&mut bench());
    let mut bench = bench();
    bench.start().unwrap();
    for n in 0..2560 {
        assert_eq!(bench.start(), Err(10));
        let (mut re, mut im) = ([0; 1], [0; 1]);
        assert_eq!(bench.draw(&mut re, &mut im), Ok(1));
        assert_eq!((re[0], im[0]), (whole.0[n], whole.1[n]));
    }
    assert_eq!(bench.draw(&mut [0; 1], &mut [0; 1]), Err(11));
    assert_eq!(bench.start(), Ok(()));
}

#[test]
fn length_0_returns_0() {
    let mut bench = bench();
    bench.start().unwrap();
    let before = bench.clone();
    assert_eq!(bench.draw(&mut [], &mut []), Ok(0));
    assert_eq!(bench, before);
}

#[test]
fn a_slot_under_way_keeps_its_settings() {
    let whole = draw_slot(&mut bench());
    let mut bench = bench();
    bench.start().unwrap();
    let (mut re, mut im) = (vec![0; 2560], vec![0; 2560]);
    let changes: [fn(&mut Bench); 8] = [
        |b| b.set_gain(2, 0, 1).unwrap(),
        |b| b.load_bits(8, 5, &[1; 488]).unwrap(),
        |b| b.close(16, 12).unwrap(),
        |b| b.open(16, 13, 77).unwrap(),
        |b| b.clear_sync().unwrap(),
        |b| b.set_sync(2, 1, 1, 4, 4).unwrap(),
        |b| b.load_plan(&[]).unwrap(),
        |b| b.set_cell(3, 2).unwrap(),
    ];
    for (n, change) in changes.into_iter().enumerate() {
        change(&mut bench);
        assert_eq!(bench.start(), Err(10));
        let piece = 320 * n..320 * (n + 1);
        let count = bench.draw(&mut re[piece.clone()], &mut im[piece]);
        assert_eq!(count, Ok(320));
    }
    assert_eq!((&re, &im), (&whole.0, &whole.1));
    // The next slot has the new settings: type 2 with nothing open.
    let (re, im) = draw_slot(&mut bench);
    assert!(re.iter().chain(&im).all(|&x| x == 0));
}

#[test]
fn set_cell_closes_and_clears() {
    let mut bench = bench();
    bench.set_cell(60, 1).unwrap();
    let mut other = Bench::fresh();
    other.set_cell(60, 1).unwrap();
    assert_eq!(bench, other);
}

#[test]
fn set_gain_keeps_the_bits_and_open_gives_0() {
    let mut one = Bench::fresh();
    one.open(4, 3, 10).unwrap();
    one.load_bits(4, 3, &[1; 976]).unwrap();
    one.set_gain(4, 3, 20).unwrap();
    let (re, im) = draw_slot(&mut one);
    let mut two = Bench::fresh();
    two.open(4, 3, 20).unwrap();
    let zeros = draw_slot(&mut two);
    two.load_bits(4, 3, &[1; 976]).unwrap();
    assert_eq!(one, two);
    assert_eq!(draw_slot(&mut two), (re.clone(), im.clone()));
    // 00 is +j and 11 is -j: each chip is the negative.
    assert!(zeros.0.iter().zip(&re).all(|(zero, one)| *zero == -one));
    assert!(zeros.1.iter().zip(&im).all(|(zero, one)| *zero == -one));
}

#[test]
fn the_order_of_opening_does_not_matter() {
    let mut one = Bench::fresh();
    one.open(4, 3, 10).unwrap();
    one.open(2, 0, 11).unwrap();
    let mut two = Bench::fresh();
    let plan = [(2, 0, 11), (4, 3, 10)].map(|(q, k, gain)| Channel { q, k, gain });
    two.load_plan(&plan).unwrap();
    assert_eq!(one, two);
}

/// Any call with any arguments is answered, a refusal changes nothing, and draws between a start
/// and the slot's end count 2,560 chips.
#[test]
fn lists_of_any_calls() {
    let mut random = Random(7);
    let factor = |random: &mut Random| [1, 2, 4, 8, 16, 16, 8, 4, 3][random.below(9) as usize];
    let gain = |random: &mut Random| [1, 4095, 0, 4096, 50, 60, 70][random.below(7) as usize];
    for _ in 0..2000 {
        let mut bench = Bench::fresh();
        let mut left = None;
        for _ in 0..random.below(60) {
            let before = bench.clone();
            let (q, g) = (factor(&mut random), gain(&mut random));
            let k = random.below(q + 1);
            let r = &mut random;
            let answer = match r.below(11) {
                0 => bench.set_cell(r.below(130), r.below(5)),
                1 | 2 => bench.open(q, k, g),
                3 => {
                    let mut plan = Vec::new();
                    for _ in 0..r.below(4) {
                        let (q, gain) = (factor(r), gain(r));
                        let k = r.below(q + 1);
                        plan.push(Channel { q, k, gain });
                    }
                    bench.load_plan(&plan).map_err(|(number, place)| {
                        assert!(place < plan.len());
                        number
                    })
                }
                4 => bench.close(q, k),
                5 => bench.set_gain(q, k, g),
                6 => {
                    let bits = r.bits(3904 / q as usize);
                    bench.load_bits(q, k, &bits)
                }
                7 => {
                    let (frame, half) = (r.below(4), r.below(3));
                    bench.set_sync(r.below(4), frame, half, g, 5)
                }
                8 => bench.clear_sync(),
                9 => {
                    let answer = bench.start();
                    assert_eq!(answer.is_ok(), left.is_none());
                    left.get_or_insert(2560);
                    answer
                }
                _ => {
                    let length = r.below(2000) as usize;
                    let mut buffers = (vec![0; length], vec![0; length]);
                    let answer = bench.draw(&mut buffers.0, &mut buffers.1);
                    let expected = left.map(|left| length.min(left)).ok_or(11);
                    assert_eq!(answer, expected);
                    left = match (left, answer) {
                        (Some(left), Ok(count)) if count < left => Some(left - count),
                        _ => None,
                    };
                    answer.map(|_| ())
                }
            };
            if let Err(number) = answer {
                assert!((1..=15).contains(&number));
                assert_eq!(bench, before);
            }
        }
    }
}
