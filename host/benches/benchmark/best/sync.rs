//! Read sync and find. P and every S(i) are (1 - j) times a correlation with real signs, so re and im are correlated apart, and the factor, squared size 2,
//! is left out where scores are compared.
use super::analyser::any_outside;
use super::codes::ROWS;
use crate::Answer;
use crate::tables::{A, A_SIGNS, B_SIGNS, CODE_SETS};
use smugolec::CodeGroup;
use smugolec::analyser::{Candidate, Peak};

/// The correlations of one component with the signs of the sixteen secondary codes and of the primary code.
struct Correlations {
    secondary: [i32; 16],
    primary: i32,
}

/// a and b differ in the sign of their last eight elements alone, so two sums of eight chips a part serve both. What is left of the secondary codes is a
/// 16-point Hadamard transform: four rounds of sums and differences.
#[inline(always)]
fn correlations(x: &[[i32; 16]; 16]) -> Correlations {
    let (mut first, mut last) = ([0; 16], [0; 16]);
    for m in 0..16 {
        for l in 0..8 {
            first[m] += A[l] * x[m][l];
            last[m] += A[8 + l] * x[m][8 + l];
        }
    }
    let primary = (0..16).map(|m| A_SIGNS[m] * (first[m] + last[m])).sum();
    let mut s: [i32; 16] = std::array::from_fn(|m| B_SIGNS[m] * (first[m] - last[m]));
    for h in [8, 4, 2, 1] {
        s = std::array::from_fn(|i| if i & h == 0 { s[i] + s[i | h] } else { s[i & !h] - s[i] });
    }
    Correlations { secondary: s, primary }
}

/// A row of a code set: the pair's and the marker's shares of a score, before their signs.
#[derive(Clone, Copy)]
struct Row {
    score: i64,
    set: usize,
    row: usize,
    shares: [i64; 3],
}

/// Every candidate of a row has its own three signs, and all eight stand for one: the best has the signs of the shares, its score is the sum of their sizes,
/// and no share may be 0. So 8 rows decide for 64 candidates, 16 for 128.
fn best_row(case: u32, re: &Correlations, im: &Correlations) -> Option<Row> {
    let (pr, pi) = (i64::from(re.primary), i64::from(im.primary));
    let mut best = Row { score: -1, set: 0, row: 0, shares: [0; 3] };
    let mut alone = true;
    for (set, codes) in CODE_SETS[..2 * case as usize].iter().enumerate() {
        let of = |i: u32| (i64::from(re.secondary[i as usize]), i64::from(im.secondary[i as usize]));
        let real = codes.map(|i| of(i).0 * pr + of(i).1 * pi);
        let imaginary = codes.map(|i| of(i).1 * pr - of(i).0 * pi);
        for (row, [first, second, marker]) in ROWS.into_iter().enumerate() {
            let pair = if row == 0 { real } else { imaginary };
            let shares = [pair[first], pair[second], real[marker]];
            let score = shares[0].abs() + shares[1].abs() + shares[2].abs();
            alone = score > best.score || (alone && score < best.score);
            if score > best.score {
                best = Row { score, set, row, shares };
            }
        }
    }
    (alone && !best.shares.contains(&0)).then_some(best)
}

#[inline(never)]
pub fn read_sync(case: u32, re: &[i32], im: &[i32]) -> Answer<Candidate> {
    if case.wrapping_sub(1) > 1 {
        return Err(14);
    }
    if re.len() != im.len() {
        return Err(12);
    }
    let (Some(x), Some(y)) = (parts(re), parts(im)) else {
        return Err(16);
    };
    if any_outside(re) | any_outside(im) {
        return Err(17);
    }
    let best = best_row(case, &correlations(x), &correlations(y)).ok_or(19u32)?;
    let (set, row) = (best.set as u32, best.row as u32);
    let [first, second, marker] = best.shares.map(|share| u32::from(share < 0));
    Ok(if case == 1 {
        Candidate { group: CodeGroup(16 * set + 4 * row + 2 * first + second), frame: 1 + marker, half: 0 }
    } else {
        Candidate { group: CodeGroup(8 * set + 2 * row + (first ^ second)), frame: 1 + first, half: marker }
    })
}

/// 256 chips as sixteen parts.
fn parts(x: &[i32]) -> Option<&[[i32; 16]; 16]> {
    let (parts, rest) = x.as_chunks::<16>();
    parts.try_into().ok().filter(|_| rest.is_empty())
}

/// How many sums of 16 chips are made before the correlations that they allow: the tile's buffers stay in the nearest cache.
const TILE: usize = 512;

/// out[i] = x[i + a] + x[i + b] + y[i + c] - y[i + d].
#[inline(always)]
fn sum(out: &mut [i32], x: &[i32], [a, b]: [usize; 2], y: &[i32], [c, d]: [usize; 2]) {
    let n = out.len();
    let (a, b, c, d) = (&x[a..][..n], &x[b..][..n], &y[c..][..n], &y[d..][..n]);
    for i in 0..n {
        out[i] = a[i] + b[i] + (c[i] - d[i]);
    }
}

/// The correlation with the primary code's signs at every start, by 13 additions instead of 255. The code is a Golay sequence: it is
/// h = x(0) + x(1) + x(8) - x(9), then s = h(0) + h(2) + h(4) - h(6), which is a; with u, v = s(0) + s(32) ± (s(16) - s(48)) the code is
/// u(0) - v(64) + u(128) + v(192).
fn correlate(x: &[i32], out: &mut [i32]) {
    let (mut h, mut s) = ([0; TILE + 6], [0; 48 + TILE]);
    let (mut u, mut v) = ([0; 192 + TILE], [0; 192 + TILE]);
    let sums = x.len() - 15;
    for from in (0..sums).step_by(TILE) {
        let n = TILE.min(sums - from);
        sum(&mut h[..n + 6], &x[from..], [0, 1], &x[from..], [8, 9]);
        sum(&mut s[48..48 + n], &h, [0, 2], &h, [4, 6]);
        for i in 0..n {
            let (even, odd) = (s[i] + s[i + 32], s[i + 16] - s[i + 48]);
            (u[192 + i], v[192 + i]) = (even + odd, even - odd);
        }
        // The first correlation needs 240 sums after its own.
        let early = 240usize.saturating_sub(from).min(n);
        if early < n {
            sum(&mut out[from + early - 240..from + n - 240], &u[early..], [0, 128], &v[early..], [192, 64]);
        }
        s.copy_within(n..n + 48, 0);
        u.copy_within(n..n + 192, 0);
        v.copy_within(n..n + 192, 0);
    }
}

/// The largest squared size and where it first stands. A size at 32 bits of floating point is off by less than its millionth part, so only the blocks whose
/// largest is that near to the largest of all are looked at exactly.
fn strongest(re: &[i32], im: &[i32]) -> Peak {
    const BLOCK: usize = 128;
    let blocks = || re.chunks(BLOCK).zip(im.chunks(BLOCK));
    let mut largest = [0f32; 5120 / BLOCK];
    for ((re, im), largest) in blocks().zip(&mut largest) {
        *largest = largest_about(re, im);
    }
    let least = largest.iter().fold(0f32, |a, &b| a.max(b)) * 0.999_999;
    let mut peak = Peak { start: 0, size: -1 };
    for ((at, (re, im)), largest) in blocks().enumerate().zip(largest) {
        if largest >= least {
            for (i, (&re, &im)) in re.iter().zip(im).enumerate() {
                let size = 2 * (i64::from(re) * i64::from(re) + i64::from(im) * i64::from(im));
                if size > peak.size {
                    peak = Peak { start: at * BLOCK + i, size };
                }
            }
        }
    }
    peak
}

/// The largest of a block's sizes, by sixteen largest ones kept beside each other.
fn largest_about(re: &[i32], im: &[i32]) -> f32 {
    let size = |re: i32, im: i32| re as f32 * re as f32 + im as f32 * im as f32;
    let larger = |a: f32, b: f32| if a > b { a } else { b };
    let mut largest = [0f32; 16];
    let ((re16, re_rest), (im16, im_rest)) = (re.as_chunks::<16>(), im.as_chunks::<16>());
    for (re, im) in re16.iter().zip(im16) {
        for l in 0..16 {
            largest[l] = larger(size(re[l], im[l]), largest[l]);
        }
    }
    let rest = re_rest.iter().zip(im_rest).map(|(&re, &im)| size(re, im));
    rest.chain(largest).fold(0f32, larger)
}

#[inline(never)]
pub fn find(re: &[i32], im: &[i32], scratch_re: &mut [i32], scratch_im: &mut [i32]) -> Answer<Peak> {
    if re.len() != im.len() {
        return Err(12);
    }
    if re.len() < 256 || re.len() > 5120 {
        return Err(16);
    }
    if any_outside(re) | any_outside(im) {
        return Err(17);
    }
    if scratch_re.len() < re.len() - 15 || scratch_im.len() < re.len() - 15 {
        return Err(18);
    }
    let starts = re.len() - 255;
    correlate(re, &mut scratch_re[..starts]);
    correlate(im, &mut scratch_im[..starts]);
    Ok(strongest(&scratch_re[..starts], &scratch_im[..starts]))
}
