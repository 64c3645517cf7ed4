//! The chips of a slot, sixteen at a time.
//!
//! A pair of bits (b1, b0) is the symbol (b0 - b1) + j (1 - b0 - b1). Open codes are unrelated, so at most 8 of them add up below either code of Q 2:
//! 8 × 4095 is below 2^15, and sums of 16 bits, eight to a vector, are enough up to the last addition.
use super::codes::allocated;
use crate::direct::start_of;
use crate::tables::{A, A_SIGNS, B_SIGNS, CODES, SCRAMBLING};
use smugolec::ffi::Settings;

/// Field 1, midamble and field 2 of the burst types.
pub const PARTS: [(usize, usize, usize); 3] = [(976, 512, 976), (1104, 256, 1104), (976, 512, 880)];

/// Sixteen chips: re in the first half, im in the second.
type Row = [i16; 32];

/// Entry i of a block belongs to one code of each level, Q 2, 4, 8 and 16. Row i of a level has that code's elements at the chips that the entry's symbol
/// covers, and 0 elsewhere.
static ENTRIES: [[Row; 16]; 4] = entries();
/// The scrambling codes.
static ROTATIONS: [Row; 128] = rotations();

const fn entries() -> [[Row; 16]; 4] {
    let mut rows = [[[0; 32]; 16]; 4];
    let mut at = 0;
    while at < 4 * 16 * 32 {
        let (level, i, c) = (at / 512, at / 32 % 16, at % 16);
        let (q, width) = (2 << level, 8 >> level);
        if c / q == i % width {
            rows[level][i][at % 32] = CODES[q - 1 + i / width][c] as i16;
        }
        at += 1;
    }
    rows
}

const fn rotations() -> [Row; 128] {
    let mut rows = [[0; 32]; 128];
    let mut at = 0;
    while at < 128 * 16 {
        let (p, c) = (at / 16, at % 16);
        rows[p][c] = SCRAMBLING[p][c].re as i16;
        rows[p][16 + c] = SCRAMBLING[p][c].im as i16;
        at += 1;
    }
    rows
}

/// The slot's chips from chip `from` on.
pub fn chips(s: &Settings, from: usize, re: &mut [i32], im: &mut [i32]) {
    let (field1, midamble, field2) = PARTS[(s.kind - 1) as usize];
    let second = field1 + midamble;
    let cut = |chip: usize| chip.clamp(from, from + re.len()) - from;
    let [a, b, c] = [cut(field1), cut(second), cut(second + field2)];
    for part in [&mut *re, &mut *im] {
        part[a..b].fill(0);
        part[c..].fill(0);
    }
    let ((re1, re2), (im1, im2)) = (re.split_at_mut(b), im.split_at_mut(b));
    write(
        s,
        [
            Stretch { pairs: &s.pairs, from, re: &mut re1[..a], im: &mut im1[..a] },
            Stretch {
                pairs: &s.pairs[field1..],
                from: from.saturating_sub(second),
                re: &mut re2[..c - b],
                im: &mut im2[..c - b],
            },
        ],
    );
    if s.sync.on != 0 {
        add_burst(s, from, re, im);
    }
}

/// Chips of a field, from its chip `from` on.
struct Stretch<'a> {
    pairs: &'a [u8],
    from: usize,
    re: &'a mut [i32],
    im: &'a mut [i32],
}

impl Stretch<'_> {
    fn silence(self) {
        self.re.fill(0);
        self.im.fill(0);
    }

    /// Writes the chips by a function that makes blocks of them. A block that the stretch cuts is made whole, and its part copied. The function has the
    /// loop over the blocks in it: it is too large to be inlined in all three places.
    fn by(self, blocks: impl Fn(&[[u8; 16]], &mut [[i32; 16]], &mut [[i32; 16]])) {
        let pairs = self.pairs.as_chunks::<16>().0;
        let part = |chip: usize, re: &mut [i32], im: &mut [i32]| {
            let (mut x, mut y) = ([[0; 16]], [[0; 16]]);
            blocks(&pairs[chip / 16..][..1], &mut x, &mut y);
            re.copy_from_slice(&x[0][chip % 16..][..re.len()]);
            im.copy_from_slice(&y[0][chip % 16..][..im.len()]);
        };
        let head = (self.from.next_multiple_of(16) - self.from).min(self.re.len());
        let ((re_head, re), (im_head, im)) = (self.re.split_at_mut(head), self.im.split_at_mut(head));
        if head > 0 {
            part(self.from, re_head, im_head);
        }
        let ((re, re_tail), (im, im_tail)) = (re.as_chunks_mut::<16>(), im.as_chunks_mut::<16>());
        let first = self.from.div_ceil(16);
        let tail = 16 * (first + re.len());
        if !re.is_empty() {
            blocks(&pairs[first..], re, im);
        }
        if !re_tail.is_empty() {
            part(tail, re_tail, im_tail);
        }
    }
}

/// Makes block after block.
#[inline(always)]
fn each(
    pairs: &[[u8; 16]],
    re: &mut [[i32; 16]],
    im: &mut [[i32; 16]],
    block: impl Fn(&[u8; 16], &mut [i32; 16], &mut [i32; 16]),
) {
    for ((pairs, re), im) in pairs.iter().zip(re).zip(im) {
        block(pairs, re, im);
    }
}

/// The gains of the codes that own the entries of a block, level by level: Q 2, 4, 8 and 16. An entry has one open owner at most.
type Gains = [[i16; 16]; 4];

#[inline(always)]
fn level<const Q: usize>(gains: &[u16; 31]) -> [i16; 16] {
    std::array::from_fn(|i| gains[Q - 1 + i * Q / 16] as i16)
}

/// Chooses how the blocks are made. Tables pay off when enough blocks use them: each takes about as long as two blocks by rounds.
fn write(s: &Settings, stretches: [Stretch; 2]) {
    let blocks = (stretches[0].re.len() + stretches[1].re.len()).div_ceil(16);
    if s.gains[0] != 0 {
        return by_chips(s, stretches);
    }
    let g = [level::<2>(&s.gains), level::<4>(&s.gains), level::<8>(&s.gains), level::<16>(&s.gains)];
    let any: [i16; 16] = std::array::from_fn(|i| g[0][i] | g[1][i] | g[2][i] | g[3][i]);
    let (mut two, mut count) = ([0; 8], 0);
    for j in 0..8 {
        two[count] = j;
        count += usize::from(any[2 * j] | any[2 * j + 1] != 0);
    }
    match count {
        0 => stretches.into_iter().for_each(Stretch::silence),
        _ if blocks < 2 * count => by_rounds(s, &g, stretches),
        1 => by_tables(s, &g, [two[0]], stretches),
        2 => by_tables(s, &g, [two[0], two[1]], stretches),
        3 => by_tables(s, &g, [two[0], two[1], two[2]], stretches),
        4 => by_tables(s, &g, [two[0], two[1], two[2], two[3]], stretches),
        _ => by_tables(s, &g, [0, 1, 2, 3, 4, 5, 6, 7], stretches),
    }
}

/// What an entry adds to its block for each of the four pairs: symbol j, 1, -1, -j.
fn entry_rows(g: &Gains, i: usize, rotation: &Row) -> [Row; 4] {
    let level = (0..3).find(|&level| g[level][i] != 0).unwrap_or(3);
    let (gain, elements) = (g[level][i], &ENTRIES[level][i]);
    let mut rows = [[0; 32]; 4];
    for c in 0..32 {
        rows[1][c] = gain * elements[c] * rotation[c];
    }
    rows[2] = rows[1].map(|x| -x);
    for c in 0..16 {
        (rows[0][c], rows[0][16 + c]) = (rows[2][16 + c], rows[1][c]);
        (rows[3][c], rows[3][16 + c]) = (rows[1][16 + c], rows[2][c]);
    }
    rows
}

/// By tables of finished chips: a table for two entries of a block has a row for each of the sixteen values that they can have together, and a block is
/// the sum of N such rows. `two` says which two entries each table is for, 2j and 2j + 1.
#[inline(always)]
fn by_tables<const N: usize>(s: &Settings, g: &Gains, two: [usize; N], stretches: [Stretch; 2]) {
    let rotation = &ROTATIONS[s.cell as usize];
    let mut tables = [[[0; 32]; 16]; N];
    for (table, j) in tables.iter_mut().zip(two) {
        let (first, second) = (entry_rows(g, 2 * j, rotation), entry_rows(g, 2 * j + 1, rotation));
        for (at, row) in table.iter_mut().enumerate() {
            for c in 0..32 {
                row[c] = first[at % 4][c] + second[at / 4][c];
            }
        }
    }
    let block = |pairs: &[u8; 16], re: &mut [i32; 16], im: &mut [i32; 16]| {
        let row = |n: usize| {
            let j = if N == 8 { n } else { two[n] % 8 };
            &tables[n][usize::from(pairs[2 * j] | pairs[2 * j + 1] << 2) % 16]
        };
        let mut low = *row(0);
        let mut high = if N > 4 { *row(4) } else { [0; 32] };
        for n in 1..N.min(4) {
            let (a, b) = (row(n), if N > 4 { row(4 + n) } else { &[0; 32] });
            for c in 0..32 {
                low[c] += a[c];
                high[c] += b[c];
            }
        }
        for c in 0..16 {
            re[c] = i32::from(low[c]) + i32::from(high[c]);
        }
        for c in 0..16 {
            im[c] = i32::from(low[16 + c]) + i32::from(high[16 + c]);
        }
    };
    stretches.into_iter().for_each(|x| x.by(|pairs, re, im| each(pairs, re, im, block)));
}

/// The signs of the scrambling code. Its elements are imaginary at even chips, where re and im change places, and real at odd ones.
fn signs(cell: u32) -> ([i16; 16], [i16; 16]) {
    let rotation = &ROTATIONS[cell as usize];
    (std::array::from_fn(|c| rotation[c] - rotation[16 + c]), std::array::from_fn(|c| rotation[c] + rotation[16 + c]))
}

/// With Q 1 each pair is a chip.
fn by_chips(s: &Settings, stretches: [Stretch; 2]) {
    let gain = s.gains[0] as i16;
    let (re_signs, im_signs) = signs(s.cell);
    let (re_gains, im_gains) = (re_signs.map(|x| gain * x), im_signs.map(|x| gain * x));
    let block = |pairs: &[u8; 16], re: &mut [i32; 16], im: &mut [i32; 16]| {
        let first = pairs.map(|p| i16::from(p >> 1));
        let second = pairs.map(|p| i16::from(p & 1));
        for c in 0..16 {
            let x = if c % 2 == 0 { 1 - second[c] } else { second[c] };
            re[c] = i32::from(re_gains[c] * (x - first[c]));
            im[c] = i32::from(im_gains[c] * (1 - x - first[c]));
        }
    };
    stretches.into_iter().for_each(|x| x.by(|pairs, re, im| each(pairs, re, im, block)));
}

/// From level 2Q to level Q: each code of Q stands in the two below it, once with its second half negated. H is 8/Q.
#[inline(always)]
fn up<const H: usize>(x: [i16; 16]) -> [i16; 16] {
    std::array::from_fn(|i| {
        let n = i / (2 * H) * (2 * H) + i % (2 * H) / 2;
        if i % 2 == 0 { x[n] + x[n + H] } else { x[n] - x[n + H] }
    })
}

/// By four rounds of sums and differences up the tree, the last one at 32 bits. All levels are joined without a test, for a branch would cost more.
fn by_rounds(s: &Settings, [g2, g4, g8, g16]: &Gains, stretches: [Stretch; 2]) {
    let (re_signs, im_signs) = signs(s.cell);
    let join = |x: [i16; 16], gains: &[i16; 16], symbols: &[i16; 16]| -> [i16; 16] {
        std::array::from_fn(|i| x[i] + gains[i] * symbols[i])
    };
    let climb = |y: [i16; 16]| {
        let x = up::<1>(join([0; 16], g16, &y));
        let x = up::<2>(join(x, g8, &y));
        join(up::<4>(join(x, g4, &y)), g2, &y)
    };
    let block = |pairs: &[u8; 16], re: &mut [i32; 16], im: &mut [i32; 16]| {
        let x = climb(pairs.map(|p| i16::from(p & 1) - i16::from(p >> 1)));
        let y = climb(pairs.map(|p| 1 - i16::from(p & 1) - i16::from(p >> 1)));
        last_round(re, &re_signs, &y, &x);
        last_round(im, &im_signs, &x, &y);
    };
    stretches.into_iter().for_each(|x| x.by(|pairs, re, im| each(pairs, re, im, block)));
}

#[inline(always)]
fn last_round(chips: &mut [i32; 16], signs: &[i16; 16], even: &[i16; 16], odd: &[i16; 16]) {
    for r in 0..8 {
        let (s, t) = (signs[2 * r], signs[2 * r + 1]);
        chips[2 * r] = i32::from(s * even[r]) + i32::from(s * even[r + 8]);
        chips[2 * r + 1] = i32::from(t * odd[r]) - i32::from(t * odd[r + 8]);
    }
}

/// Adds the sync burst where it falls. Its part m is a times one number and b times another.
fn add_burst(s: &Settings, from: usize, re: &mut [i32], im: &mut [i32]) {
    let start = start_of(s.cell / 4) as usize;
    let (first, end) = (from.max(start), (from + re.len()).min(start + 256));
    let mut chip = first;
    while chip < end {
        let (m, i) = ((chip - start) / 16, (chip - start) % 16);
        let count = (16 - i).min(end - chip);
        let (burst_re, burst_im) = burst_part(s, m);
        for (chips, burst) in [(&mut *re, &burst_re), (&mut *im, &burst_im)] {
            for (chip, burst) in chips[chip - from..][..count].iter_mut().zip(&burst[i..]) {
                *chip += burst;
            }
        }
        chip += count;
    }
}

fn burst_part(s: &Settings, m: usize) -> ([i32; 16], [i32; 16]) {
    let y = &s.sync;
    let codes = allocated(y.case, s.cell / 4, y.frame, y.half);
    let (mut x, mut z) = (0, 0);
    for c in [codes.first, codes.second, codes.marker] {
        let sign = if (c.code as usize & m).count_ones() % 2 == 1 { -B_SIGNS[m] } else { B_SIGNS[m] };
        (x, z) = (x + sign * c.unit.re, z + sign * c.unit.im);
    }
    let (p, gs) = (A_SIGNS[m] * i32::from(y.gp), i32::from(y.gs));
    let part = |t: i32| std::array::from_fn(|i| A[i] * if i < 8 { p + t } else { p - t });
    (part(gs * (x - z)), part(gs * (x + z)))
}
