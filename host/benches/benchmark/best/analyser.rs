//! Read and harden.
use super::check_code;
use crate::Answer;
use crate::tables::{CODES, SCRAMBLING};

const LIMIT: i32 = 100_000;

/// Whether a component is out of range. Moved so that the range begins at the smallest number, one comparison tests both ends, and without an early exit
/// four are tested at a time.
pub fn any_outside(x: &[i32]) -> bool {
    let outside = |x: i32| i32::from(x.wrapping_add(LIMIT.wrapping_add(i32::MIN)) > 2 * LIMIT + i32::MIN);
    x.iter().fold(0, |any, &x| any | -outside(x)) != 0
}

/// Times a code's element and the conjugate of the scrambling element, a chip keeps or changes its signs, and at even chips re and im change places:
/// -1 where the component that goes to re, and where the one that goes to im, changes its sign.
struct Signs {
    to_re: [i32; 16],
    to_im: [i32; 16],
}

fn signs(cell: u32, node: usize) -> Signs {
    let (code, scrambling) = (&CODES[node], &SCRAMBLING[cell as usize]);
    Signs {
        to_re: std::array::from_fn(|c| (code[c] * (scrambling[c].re + scrambling[c].im)) >> 1),
        to_im: std::array::from_fn(|c| (code[c] * (scrambling[c].re - scrambling[c].im)) >> 1),
    }
}

#[inline(never)]
pub fn read(cell: u32, q: u32, k: u32, re: &[i32], im: &[i32], out_re: &mut [i32], out_im: &mut [i32]) -> Answer {
    if cell > 127 {
        return Err(1);
    }
    let node = check_code(q, k)?;
    if re.len() != im.len() {
        return Err(12);
    }
    if re.is_empty() || re.len() > 1104 || !re.len().is_multiple_of(16) {
        return Err(16);
    }
    if any_outside(re) | any_outside(im) {
        return Err(17);
    }
    let count = re.len() >> q.trailing_zeros();
    if out_re.len() < count || out_im.len() < count {
        return Err(18);
    }
    let (out_re, out_im) = (&mut out_re[..count], &mut out_im[..count]);
    let signs = signs(cell, node);
    match q {
        1 => read_by::<1, 16>(&signs, re, im, out_re, out_im),
        2 => read_by::<2, 8>(&signs, re, im, out_re, out_im),
        4 => read_by::<4, 4>(&signs, re, im, out_re, out_im),
        8 => read_by::<8, 2>(&signs, re, im, out_re, out_im),
        _ => read_16(&signs, re, im, out_re, out_im),
    }
    Ok(())
}

/// Sixteen chips and their W readings at a time. Signs and changed places are `xor` and subtraction, for there is no product of four 32-bit numbers.
#[inline(always)]
fn read_by<const Q: usize, const W: usize>(s: &Signs, re: &[i32], im: &[i32], out_re: &mut [i32], out_im: &mut [i32]) {
    let chips = re.as_chunks::<16>().0.iter().zip(im.as_chunks::<16>().0);
    let readings = out_re.as_chunks_mut::<W>().0.iter_mut().zip(out_im.as_chunks_mut::<W>().0);
    for ((re, im), (out_re, out_im)) in chips.zip(readings) {
        let (mut x, mut y) = ([0; 16], [0; 16]);
        for c in 0..16 {
            let swap = (re[c] ^ im[c]) & -(c as i32 % 2);
            x[c] = (im[c] ^ swap ^ s.to_re[c]) - s.to_re[c];
            y[c] = (re[c] ^ swap ^ s.to_im[c]) - s.to_im[c];
        }
        *out_re = std::array::from_fn(|n| x[n * Q..][..Q].iter().sum());
        *out_im = std::array::from_fn(|n| y[n * Q..][..Q].iter().sum());
    }
}

/// The sums of a reading's chips by their place in four. A changed sign is `xor` with -1 alone: what is then missing is 1 for each.
#[inline(always)]
fn lanes(chips: &[i32; 16], signs: &[i32; 16]) -> [i32; 4] {
    let mut sums = [0; 4];
    for v in 0..4 {
        for l in 0..4 {
            sums[l] += chips[4 * v + l] ^ signs[4 * v + l];
        }
    }
    sums
}

/// Q 16: even places of im and odd ones of re belong to re, the others to im, so nothing changes places before the last additions. Those are vector code
/// too, for four readings at a time.
fn read_16(s: &Signs, re: &[i32], im: &[i32], out_re: &mut [i32], out_im: &mut [i32]) {
    let of_re: [i32; 16] = std::array::from_fn(|c| if c % 2 == 0 { s.to_im[c] } else { s.to_re[c] });
    let of_im: [i32; 16] = std::array::from_fn(|c| if c % 2 == 0 { s.to_re[c] } else { s.to_im[c] });
    let (missing_re, missing_im) = (-s.to_re.iter().sum::<i32>(), -s.to_im.iter().sum::<i32>());
    let last = |even: [i32; 4], odd: [i32; 4]| even[0] + even[2] + odd[1] + odd[3];
    let ((re4, re1), (im4, im1)) = (re.as_chunks::<16>().0.as_chunks::<4>(), im.as_chunks::<16>().0.as_chunks::<4>());
    let ((x4, x1), (y4, y1)) = (out_re.as_chunks_mut::<4>(), out_im.as_chunks_mut::<4>());
    for ((re, im), (x, y)) in re4.iter().zip(im4).zip(x4.iter_mut().zip(y4)) {
        let (mut r, mut i) = ([[0; 4]; 4], [[0; 4]; 4]);
        for n in 0..4 {
            (r[n], i[n]) = (lanes(&re[n], &of_re), lanes(&im[n], &of_im));
        }
        for n in 0..4 {
            x[n] = last(i[n], r[n]) + missing_re;
        }
        for n in 0..4 {
            y[n] = last(r[n], i[n]) + missing_im;
        }
    }
    for ((re, im), (x, y)) in re1.iter().zip(im1).zip(x1.iter_mut().zip(y1)) {
        let (r, i) = (lanes(re, &of_re), lanes(im, &of_im));
        (*x, *y) = (last(i, r) + missing_re, last(r, i) + missing_im);
    }
}

/// The pair's first bit is 1 where re + im is below 0, its second where re is above im: that is where the four scores and their order of precedence part.
/// re < -im is re <= !im, which no 32-bit number makes overflow.
#[inline(never)]
pub fn harden(re: &[i32], im: &[i32], bits: &mut [u8]) -> Answer {
    if re.len() != im.len() {
        return Err(12);
    }
    if bits.len() / 2 < re.len() {
        return Err(18);
    }
    for ((&re, &im), pair) in re.iter().zip(im).zip(bits.as_chunks_mut::<2>().0) {
        *pair = (u16::from(re <= !im) | u16::from(re > im) << 8).to_le_bytes();
    }
    Ok(())
}
