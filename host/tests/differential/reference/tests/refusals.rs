//! The order of every call's refusals, each call made with the wrongs that remain after the earlier
//! ones are put right, and nothing changed by any of them.

use super::super::{Bench, Channel, allocation, element, find, harden, read, read_sync, related, scrambling_chip};

/// A bench with codes, bits and sync, and a slot partly drawn.
fn busy_bench() -> Bench {
    let mut bench = Bench::fresh();
    bench.set_cell(41, 1).unwrap();
    bench.open(4, 1, 9).unwrap();
    bench.load_bits(4, 1, &[1; 976]).unwrap();
    bench.open(16, 0, 11).unwrap();
    bench.set_sync(2, 2, 1, 5, 6).unwrap();
    bench.start().unwrap();
    bench.draw(&mut [0; 100], &mut [0; 100]).unwrap();
    bench.set_gain(4, 1, 10).unwrap();
    bench
}

/// The same, set up for burst type 2.
fn busy_type_2() -> Bench {
    let mut bench = busy_bench();
    bench.set_cell(41, 2).unwrap();
    bench.open(4, 1, 9).unwrap();
    bench
}

/// The call refuses and the bench stays.
fn refused<E: PartialEq + std::fmt::Debug>(bench: &Bench, number: E, call: impl FnOnce(&mut Bench) -> Result<(), E>) {
    let mut after = bench.clone();
    assert_eq!(call(&mut after), Err(number));
    assert_eq!(&after, bench);
}

#[test]
fn set_cell() {
    let bench = busy_bench();
    refused(&bench, 1, |b| b.set_cell(128, 0));
    refused(&bench, 2, |b| b.set_cell(127, 0));
}

#[test]
fn open() {
    let bench = busy_bench();
    refused(&bench, 3, |b| b.open(3, 99, 0));
    refused(&bench, 4, |b| b.open(4, 4, 0));
    refused(&bench, 5, |b| b.open(4, 1, 0));
    // Equal, above and below an open code.
    refused(&bench, 6, |b| b.open(4, 1, 1));
    refused(&bench, 6, |b| b.open(2, 0, 1));
    refused(&bench, 6, |b| b.open(1, 0, 1));
    refused(&bench, 6, |b| b.open(8, 3, 1));
    refused(&bench, 6, |b| b.open(16, 4, 1));
    assert_eq!(bench.clone().open(16, 8, 1), Ok(()));
}

#[test]
fn load_plan() {
    let bench = busy_bench();
    let record = |q, k, gain| Channel { q, k, gain };
    let good = record(4, 1, 4);
    refused(&bench, (3, 1), |b| b.load_plan(&[good, record(3, 99, 0)]));
    refused(&bench, (4, 1), |b| b.load_plan(&[good, record(4, 4, 0)]));
    refused(&bench, (5, 1), |b| b.load_plan(&[good, record(4, 1, 0)]));
    refused(&bench, (6, 1), |b| b.load_plan(&[good, record(4, 1, 1)]));
    refused(&bench, (6, 2), |b| b.load_plan(&[good, record(4, 0, 1), record(1, 0, 1)]));
    // The first record that fails, whatever its number.
    refused(&bench, (6, 1), |b| b.load_plan(&[good, record(16, 5, 1), record(3, 0, 0)]));
    refused(&bench, (5, 0), |b| b.load_plan(&[record(4, 1, 0), record(3, 0, 0)]));
    // Codes open before are no bar, and an empty list closes everything.
    let mut after = bench.clone();
    assert_eq!(after.load_plan(&[record(2, 0, 1), record(2, 1, 1)]), Ok(()));
    assert_eq!(after.load_plan(&[]), Ok(()));
    assert_eq!(after.close(2, 0), Err(7));
    assert_eq!(after.open(1, 0, 1), Ok(()));
}

#[test]
fn close() {
    let bench = busy_bench();
    refused(&bench, 3, |b| b.close(0, 0));
    refused(&bench, 4, |b| b.close(4, 4));
    refused(&bench, 7, |b| b.close(4, 2));
    refused(&bench, 7, |b| b.close(8, 2));
    refused(&bench, 7, |b| b.close(2, 0));
}

#[test]
fn set_gain() {
    let bench = busy_bench();
    refused(&bench, 3, |b| b.set_gain(32, 40, 0));
    refused(&bench, 4, |b| b.set_gain(4, 5, 0));
    refused(&bench, 5, |b| b.set_gain(4, 2, 0));
    refused(&bench, 7, |b| b.set_gain(4, 2, 1));
}

#[test]
fn load_bits() {
    let bench = busy_bench();
    refused(&bench, 3, |b| b.load_bits(5, 9, &[2]));
    refused(&bench, 4, |b| b.load_bits(4, 9, &[2]));
    refused(&bench, 7, |b| b.load_bits(4, 2, &[2]));
    refused(&bench, 8, |b| b.load_bits(4, 1, &[2]));
    refused(&bench, 9, |b| b.load_bits(4, 1, &[2; 976]));
}

#[test]
fn set_sync() {
    let type_2 = busy_type_2();
    refused(&type_2, 13, |b| b.set_sync(3, 3, 2, 0, 0));
    refused(&type_2, 13, |b| b.set_sync(1, 1, 0, 1, 1));
    let bench = busy_bench();
    refused(&bench, 14, |b| b.set_sync(3, 3, 2, 0, 0));
    refused(&bench, 15, |b| b.set_sync(2, 3, 0, 0, 0));
    refused(&bench, 15, |b| b.set_sync(2, 0, 0, 0, 0));
    refused(&bench, 15, |b| b.set_sync(2, 1, 2, 0, 0));
    refused(&bench, 15, |b| b.set_sync(1, 1, 1, 0, 0));
    refused(&bench, 5, |b| b.set_sync(1, 1, 0, 0, 1));
    refused(&bench, 5, |b| b.set_sync(1, 1, 0, 1, 0));
}

#[test]
fn clear_sync() {
    assert_eq!(Bench::fresh().clear_sync(), Ok(()));
    assert_eq!(busy_type_2().clear_sync(), Ok(()));
}

#[test]
fn start() {
    let bench = busy_bench();
    refused(&bench, 10, Bench::start);
}

#[test]
fn draw() {
    let check = |bench: &Bench, number: u32, lengths: (usize, usize)| {
        let mut after = bench.clone();
        let mut re = vec![7; lengths.0];
        let mut im = vec![8; lengths.1];
        assert_eq!(after.draw(&mut re, &mut im), Err(number));
        assert_eq!(&after, bench);
        assert!(re.iter().all(|&x| x == 7) && im.iter().all(|&x| x == 8));
    };
    let fresh = Bench::fresh();
    check(&fresh, 11, (3, 4));
    check(&fresh, 11, (3, 3));
    check(&fresh, 11, (0, 0));
    let bench = busy_bench();
    check(&bench, 12, (3, 4));
    check(&bench, 12, (4, 3));
    check(&bench, 12, (0, 1));
}

#[test]
fn read_field() {
    let check = |number, cell, q, k, re: &[i32], im: &[i32], out: usize| {
        let mut out_re = vec![7; out];
        let mut out_im = vec![8; out];
        let answer = read(cell, q, k, re, im, &mut out_re, &mut out_im);
        assert_eq!(answer, Err(number));
        assert!(out_re.iter().all(|&x| x == 7) && out_im.iter().all(|&x| x == 8));
    };
    let wild = [100_001; 33];
    check(1, 128, 3, 99, &wild, &wild[1..], 0);
    check(3, 127, 3, 99, &wild, &wild[1..], 0);
    check(4, 127, 4, 4, &wild, &wild[1..], 0);
    check(12, 127, 4, 3, &wild, &wild[1..], 0);
    check(16, 127, 4, 3, &wild, &wild, 0);
    check(17, 127, 4, 3, &wild[1..], &wild[1..], 0);
    check(18, 127, 4, 3, &[1; 32], &[1; 32], 7);
    check(16, 127, 4, 3, &[], &[], 0);
    check(16, 127, 4, 3, &[100_001; 1120], &[0; 1120], 0);
}

#[test]
fn harden_readings() {
    let mut bits = [7; 3];
    assert_eq!(harden(&[1, 2], &[1], &mut bits), Err(12));
    assert_eq!(harden(&[1, 2], &[1, 2], &mut bits), Err(18));
    assert_eq!(bits, [7; 3]);
}

#[test]
fn read_sync_burst() {
    let wild = [100_001; 257];
    assert_eq!(read_sync(0, &wild, &wild[1..]), Err(14));
    assert_eq!(read_sync(3, &wild, &wild[1..]), Err(14));
    assert_eq!(read_sync(1, &wild, &wild[1..]), Err(12));
    assert_eq!(read_sync(1, &wild, &wild), Err(16));
    assert_eq!(read_sync(1, &wild[2..], &wild[2..]), Err(16));
    assert_eq!(read_sync(1, &wild[1..], &wild[1..]), Err(17));
    assert_eq!(read_sync(1, &[0; 256], &[0; 256]), Err(19));
    assert_eq!(read_sync(2, &[0; 256], &[0; 256]), Err(19));
}

#[test]
fn find_burst() {
    let wild = [100_001; 5121];
    let check = |number, re: &[i32], im: &[i32], scratch: usize| {
        let mut scratch_re = vec![7; scratch];
        let mut scratch_im = vec![8; scratch];
        let answer = find(re, im, &mut scratch_re, &mut scratch_im);
        assert_eq!(answer, Err(number));
        assert!(scratch_re.iter().all(|&x| x == 7) && scratch_im.iter().all(|&x| x == 8));
    };
    check(12, &wild, &wild[1..], 5);
    check(16, &wild, &wild, 5);
    check(16, &wild[..255], &wild[..255], 5);
    check(17, &wild[1..], &wild[1..], 5);
    check(18, &[0; 256], &[0; 256], 5);
}

#[test]
fn code_calls() {
    assert_eq!(element(3, 99, 99), Err(3));
    assert_eq!(element(4, 99, 99), Err(4));
    assert_eq!(element(4, 3, 99), Err(16));
    assert_eq!(related(3, 99, 3, 99), Err(3));
    assert_eq!(related(4, 99, 3, 99), Err(4));
    assert_eq!(related(4, 3, 3, 99), Err(3));
    assert_eq!(related(4, 3, 4, 99), Err(4));
    assert_eq!(scrambling_chip(128, 16), Err(1));
    assert_eq!(scrambling_chip(127, 16), Err(16));
    assert_eq!(allocation(3, 32, 3, 2), Err(1));
    assert_eq!(allocation(3, 31, 3, 2), Err(14));
    assert_eq!(allocation(2, 31, 3, 2), Err(15));
    assert_eq!(allocation(1, 31, 1, 1), Err(15));
}
