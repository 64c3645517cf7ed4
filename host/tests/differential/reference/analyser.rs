//! Document 01, "Analyser calls".

use super::codes::{check_cell, check_code, code, scrambling_code};
use super::complex::{Complex, Wide, ZERO};
use super::sync_codes::{BURST, NUMBERS, allocation, check_case, primary_code, secondary_code};

/// "A field, readings, chips or a recording come as a re and an im buffer, and 12 compares those
/// two."
fn check_lengths(re: &[i32], im: &[i32]) -> Result<(), u32> {
    if re.len() != im.len() {
        return Err(12);
    }
    Ok(())
}

/// "17 a component outside -100000 to 100000"
fn check_components(re: &[i32], im: &[i32]) -> Result<(), u32> {
    if re.iter().chain(im).any(|component| !(-100_000..=100_000).contains(component)) {
        return Err(17);
    }
    Ok(())
}

/// Entry n of a re and an im buffer.
fn entry(re: &[i32], im: &[i32], n: usize) -> Wide {
    Complex { re: re[n], im: im[n] }.wide()
}

/// "Read (parameter, Q, k, field, two answer buffers): reading n is the sum over the n-th Q chips
/// of chip × conj(complex scrambling element) × code element. Refuses 1; 3; 4; 12; 16 length 0,
/// above 1104 or no multiple of 16; 17 a component outside -100000 to 100000; 18 an answer buffer
/// shorter than length/Q."
pub fn read(
    cell: u32,
    q: u32,
    k: u32,
    re: &[i32],
    im: &[i32],
    out_re: &mut [i32],
    out_im: &mut [i32],
) -> Result<(), u32> {
    check_cell(cell)?;
    check_code(q, k)?;
    check_lengths(re, im)?;
    let length = re.len();
    if length == 0 || length > 1104 || !length.is_multiple_of(16) {
        return Err(16);
    }
    check_components(re, im)?;
    let factor = q as usize;
    let readings = length / factor;
    if out_re.len() < readings || out_im.len() < readings {
        return Err(18);
    }
    for n in 0..readings {
        let mut sum = ZERO;
        for chip in n * factor..(n + 1) * factor {
            let scrambling = scrambling_code(cell)[chip % 16].wide();
            let element: i64 = code(q, k)[chip % factor].into();
            sum = sum + element * (entry(re, im, chip) * scrambling.conj());
        }
        let reading = sum.narrow();
        out_re[n] = reading.re;
        out_im[n] = reading.im;
    }
    Ok(())
}

/// "for reading y the pairs 00, 01, 10, 11 score im, re, -re, -im; the largest wins, the earliest
/// on a tie"
fn harden_one(y: Wide) -> [u8; 2] {
    let scores = [([0, 0], y.im), ([0, 1], y.re), ([1, 0], -y.re), ([1, 1], -y.im)];
    let (mut pair, mut largest) = scores[0];
    for (next, score) in scores {
        if score > largest {
            (pair, largest) = (next, score);
        }
    }
    pair
}

/// "Harden (readings, byte buffer): [...] two bytes each. Any 32-bit reading is scored exactly.
/// Refuses 12; 18 fewer than two bytes a reading."
pub fn harden(re: &[i32], im: &[i32], bits: &mut [u8]) -> Result<(), u32> {
    check_lengths(re, im)?;
    if bits.len() < 2 * re.len() {
        return Err(18);
    }
    for n in 0..re.len() {
        let pair = harden_one(entry(re, im, n));
        bits[2 * n] = pair[0];
        bits[2 * n + 1] = pair[1];
    }
    Ok(())
}

/// "S(i) is the sum of chip × conj(Ci), P that with Cp": the sum over 256 chips with one code.
fn correlate(re: &[i32], im: &[i32], code: &[Complex]) -> Wide {
    let mut sum = ZERO;
    for (n, element) in code.iter().enumerate() {
        sum = sum + entry(re, im, n) * element.wide().conj();
    }
    sum
}

/// A code group, frame and half that a burst can tell.
#[derive(Clone, Copy, PartialEq, Eq, Debug)]
pub struct Candidate {
    pub group: u32,
    pub frame: u32,
    pub half: u32,
}

/// "Each group, frame and half of the case is a candidate (half 0 alone in case 1)".
fn candidates(case: u32) -> Vec<Candidate> {
    let halves = if case == 1 { 0..=0 } else { 0..=1 };
    let mut all = Vec::new();
    for group in 0..=31 {
        for frame in 1..=2 {
            for half in halves.clone() {
                all.push(Candidate { group, frame, half });
            }
        }
    }
    all
}

/// "Read sync (case, 256 chips): [...] each [...] candidate [...] with score the sum over its three
/// codes of the real part of S(i) × conj(u) × conj(P). The one that beats every other is the
/// answer. Refuses 14; 12; 16 length not 256; 17; 19 where no candidate beats all others, and only
/// there".
pub fn read_sync(case: u32, re: &[i32], im: &[i32]) -> Result<Candidate, u32> {
    check_case(case)?;
    check_lengths(re, im)?;
    if re.len() != BURST {
        return Err(16);
    }
    check_components(re, im)?;
    let p = correlate(re, im, primary_code());
    let mut s = [ZERO; 16];
    for i in NUMBERS {
        s[i as usize] = correlate(re, im, secondary_code(i));
    }
    let mut scored = Vec::new();
    for candidate in candidates(case) {
        let Candidate { group, frame, half } = candidate;
        let mut score = 0;
        for modulated in allocation(case, group, frame, half).expect("an allocation") {
            let u = modulated.unit.wide();
            score += (s[modulated.code as usize] * u.conj() * p.conj()).re;
        }
        scored.push((candidate, score));
    }
    for &(candidate, score) in &scored {
        let beats_every_other = scored.iter().all(|&(other, other_score)| other == candidate || score > other_score);
        if beats_every_other {
            return Ok(candidate);
        }
    }
    Err(19)
}

/// A start and the squared size of its P.
#[derive(Clone, Copy, PartialEq, Eq, Debug)]
pub struct Peak {
    pub start: usize,
    pub size: i64,
}

/// "Find (recording of n chips, two scratch buffers): the smallest start of 256 chips whose P has
/// the largest squared size, and that size as computed from the chips. Refuses 12; 16 n below 256
/// or above 5120; 17; 18 a scratch buffer shorter than n-15. After an accepted find the scratch
/// contents are free." This one leaves them.
pub fn find(re: &[i32], im: &[i32], scratch_re: &mut [i32], scratch_im: &mut [i32]) -> Result<Peak, u32> {
    check_lengths(re, im)?;
    let n = re.len();
    if !(256..=5120).contains(&n) {
        return Err(16);
    }
    check_components(re, im)?;
    if scratch_re.len() < n - 15 || scratch_im.len() < n - 15 {
        return Err(18);
    }
    let mut peak = Peak { start: 0, size: -1 };
    for start in 0..=n - BURST {
        let p = correlate(&re[start..], &im[start..], primary_code());
        let size = p.re * p.re + p.im * p.im;
        if size > peak.size {
            peak = Peak { start, size };
        }
    }
    Ok(peak)
}
