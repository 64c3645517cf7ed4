//! Document 01, "Proved table of instances", by number.

use super::super::{
    Bench, Modulated, allocation, burst_start, element, harden, primary_chip, read, related, scrambling_chip,
    secondary_chip,
};
use super::{complex, draw_slot};

fn code(q: u32, k: u32) -> Vec<i32> {
    (0..q).map(|chip| element(q, k, chip).unwrap()).collect()
}

/// The first readings of field 1.
fn readings(cell: u32, q: u32, k: u32, re: &[i32], im: &[i32]) -> Vec<(i32, i32)> {
    let mut out_re = [0; 976];
    let mut out_im = [0; 976];
    let field_1 = (&re[..976], &im[..976]);
    read(cell, q, k, field_1.0, field_1.1, &mut out_re, &mut out_im).unwrap();
    out_re.into_iter().zip(out_im).collect()
}

/// Bits for a channel: `first`, then 0.
fn padded(first: &[u8], count: usize) -> Vec<u8> {
    let mut bits = first.to_vec();
    bits.resize(count, 0);
    bits
}

#[test]
fn instance_1() {
    assert_eq!(code(4, 1), [1, 1, -1, -1]);
}

#[test]
fn instance_2() {
    assert_eq!(code(8, 5), [1, -1, 1, -1, -1, 1, -1, 1]);
}

#[test]
fn instance_3() {
    assert_eq!(related(4, 1, 16, 5), Ok(true));
    assert_eq!(related(16, 5, 4, 1), Ok(true));
    assert_eq!(related(4, 1, 16, 8), Ok(false));
    assert_eq!(related(16, 8, 4, 1), Ok(false));
}

#[test]
fn instance_4() {
    assert_eq!(scrambling_chip(8, 0), Ok(complex(0, 1)));
    assert_eq!(scrambling_chip(8, 1), Ok(complex(-1, 0)));
    assert_eq!(scrambling_chip(8, 2), Ok(complex(0, -1)));
    assert_eq!(scrambling_chip(8, 3), Ok(complex(-1, 0)));
}

#[test]
fn instance_5() {
    let mut bench = Bench::fresh();
    bench.set_cell(8, 1).unwrap();
    bench.open(4, 1, 3).unwrap();
    bench.load_bits(4, 1, &padded(&[0, 1], 976)).unwrap();
    let (re, im) = draw_slot(&mut bench);
    assert_eq!(re[..4], [0, -3, 0, 3]);
    assert_eq!(im[..4], [3, 0, 3, 0]);
    assert_eq!(readings(8, 4, 1, &re, &im)[0], (12, 0));
}

#[test]
fn instance_6() {
    let mut bench = Bench::fresh();
    bench.set_cell(8, 1).unwrap();
    bench.open(2, 0, 3).unwrap();
    bench.open(4, 2, 5).unwrap();
    bench.load_bits(2, 0, &padded(&[0, 1, 0, 1], 1952)).unwrap();
    bench.load_bits(4, 2, &padded(&[1, 0], 976)).unwrap();
    let (re, im) = draw_slot(&mut bench);
    assert_eq!(re[..4], [0, -8, 0, -8]);
    assert_eq!(im[..4], [-2, 0, 2, 0]);
    assert_eq!(readings(8, 2, 0, &re, &im)[..2], [(6, 0), (6, 0)]);
    assert_eq!(readings(8, 4, 2, &re, &im)[0], (-20, 0));
    assert_eq!(readings(8, 4, 3, &re, &im)[0], (0, 0));
}

#[test]
fn instance_7() {
    assert_eq!(burst_start(15), Ok(720));
    assert_eq!(burst_start(16), Ok(1488));
    assert_eq!(burst_start(31), Ok(2208));
}

fn modulated(code: u32, re: i32, im: i32) -> Modulated {
    Modulated { code, unit: complex(re, im) }
}

#[test]
fn instance_8() {
    assert_eq!(allocation(1, 31, 2, 0), Ok([modulated(13, 0, -1), modulated(14, 0, -1), modulated(10, -1, 0)]));
}

#[test]
fn instance_9() {
    assert_eq!(allocation(2, 9, 2, 1), Ok([modulated(10, -1, 0), modulated(13, 1, 0), modulated(14, -1, 0)]));
}

#[test]
fn instance_10() {
    assert_eq!(primary_chip(48), Ok(complex(-1, -1)));
}

#[test]
fn instance_11() {
    assert_eq!(secondary_chip(1, 16), Ok(complex(-1, -1)));
}

#[test]
fn instance_12() {
    let mut bits = [9; 6];
    assert_eq!(harden(&[0, 5, -5], &[0, 5, -5], &mut bits), Ok(()));
    assert_eq!(bits, [0, 0, 0, 0, 1, 0]);
}
