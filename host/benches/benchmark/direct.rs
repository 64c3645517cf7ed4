//! The direct forms: what one writes first from document 01, the sums as the document has them, the codes in tables. The bench goes in by value, and
//! the new one comes back beside the answer. Each call stands by itself and is never inlined, as the library's are.
use crate::Answer;
use crate::tables::{CODE_SETS, CODES, NO_SYNC, NUMBERS, PRIMARY, SCRAMBLING, SECONDARY, SYMBOLS, code_at, complex};
use smugolec::analyser::{Candidate, Peak};
use smugolec::codes::{Allocated, ModulatedCode};
use smugolec::{Channel, CodeGroup, Complex, ffi};

fn times(x: Complex, y: Complex) -> Complex {
    complex(x.re * y.re - x.im * y.im, x.re * y.im + x.im * y.re)
}

fn plus(x: Complex, y: Complex) -> Complex {
    complex(x.re + y.re, x.im + y.im)
}

fn scaled(gain: i32, x: Complex) -> Complex {
    complex(gain * x.re, gain * x.im)
}

fn conj(x: Complex) -> Complex {
    complex(x.re, -x.im)
}

// ---- Tests that several calls share, each with its number.

fn check_cell(cell: u32) -> Answer {
    if cell > 127 { Err(1) } else { Ok(()) }
}

fn check_code(q: u32, k: u32) -> Answer {
    if ![1, 2, 4, 8, 16].contains(&q) {
        return Err(3);
    }
    if k >= q { Err(4) } else { Ok(()) }
}

fn check_gain(gain: u32) -> Answer {
    if (1..=4095).contains(&gain) { Ok(()) } else { Err(5) }
}

fn check_timing(case: u32, frame: u32, half: u32) -> Answer {
    if ![1, 2].contains(&case) {
        return Err(14);
    }
    if ![1, 2].contains(&frame) || half > 1 || (half == 1 && case == 1) { Err(15) } else { Ok(()) }
}

fn check_components(re: &[i32], im: &[i32]) -> Answer {
    if re.iter().chain(im).all(|x| (-100_000..=100_000).contains(x)) { Ok(()) } else { Err(17) }
}

// ---- The bench.

/// The library's struct: the same size and content.
pub struct Bench(pub ffi::Bench);

const FRESH: ffi::Settings = ffi::Settings { cell: 0, kind: 1, gains: [0; 31], pairs: [0; 2208], sync: NO_SYNC };

/// Field 1, midamble, field 2 of a burst type.
fn parts(kind: u32) -> (usize, usize, usize) {
    match kind {
        1 => (976, 512, 976),
        2 => (1104, 256, 1104),
        _ => (976, 512, 880),
    }
}

fn node(q: u32, k: u32) -> usize {
    (q - 1 + k) as usize
}

/// Sets the pairs of code (q, k): it owns 16/q entries of each block.
fn set_pairs(settings: &mut ffi::Settings, q: u32, k: u32, pair: impl Fn(usize) -> u8) {
    let width = 16 / q as usize;
    let from = k as usize * width;
    for block in 0..138 {
        for r in 0..width {
            settings.pairs[16 * block + from + r] = pair(block * width + r);
        }
    }
}

impl Bench {
    #[inline(never)]
    pub fn fresh() -> Bench {
        Bench(ffi::Bench { settings: FRESH, running: 0, sending: FRESH, position: 0 })
    }

    fn try_set_cell(&mut self, cell: u32, kind: u32) -> Answer {
        check_cell(cell)?;
        if ![1, 2, 3].contains(&kind) {
            return Err(2);
        }
        let s = &mut self.0.settings;
        (s.cell, s.kind, s.gains, s.sync) = (cell, kind, [0; 31], NO_SYNC);
        Ok(())
    }

    #[inline(never)]
    pub fn set_cell(mut self, cell: u32, kind: u32) -> (Answer, Bench) {
        (self.try_set_cell(cell, kind), self)
    }

    fn try_open(&mut self, q: u32, k: u32, gain: u32) -> Answer {
        check_code(q, k)?;
        check_gain(gain)?;
        let s = &mut self.0.settings;
        let clash = |node: usize| {
            let (q2, k2) = code_at(node);
            s.gains[node] != 0 && are_related(q, k, q2 as u32, k2 as u32)
        };
        if (0..31).any(clash) {
            return Err(6);
        }
        s.gains[node(q, k)] = gain as u16;
        set_pairs(s, q, k, |_| 0);
        Ok(())
    }

    #[inline(never)]
    pub fn open(mut self, q: u32, k: u32, gain: u32) -> (Answer, Bench) {
        (self.try_open(q, k, gain), self)
    }

    /// On a copy of the bench, which is dropped where a record fails.
    #[inline(never)]
    pub fn load_plan(self, plan: &[Channel]) -> (Result<(), (u32, usize)>, Bench) {
        let mut new = Bench(self.0);
        new.0.settings.gains = [0; 31];
        for (place, c) in plan.iter().enumerate() {
            if let Err(number) = new.try_open(c.q, c.k, c.gain) {
                return (Err((number, place)), self);
            }
        }
        (Ok(()), new)
    }

    fn check_open(&self, q: u32, k: u32) -> Answer {
        if self.0.settings.gains[node(q, k)] == 0 { Err(7) } else { Ok(()) }
    }

    fn try_close(&mut self, q: u32, k: u32) -> Answer {
        check_code(q, k)?;
        self.check_open(q, k)?;
        self.0.settings.gains[node(q, k)] = 0;
        Ok(())
    }

    #[inline(never)]
    pub fn close(mut self, q: u32, k: u32) -> (Answer, Bench) {
        (self.try_close(q, k), self)
    }

    fn try_set_gain(&mut self, q: u32, k: u32, gain: u32) -> Answer {
        check_code(q, k)?;
        check_gain(gain)?;
        self.check_open(q, k)?;
        self.0.settings.gains[node(q, k)] = gain as u16;
        Ok(())
    }

    #[inline(never)]
    pub fn set_gain(mut self, q: u32, k: u32, gain: u32) -> (Answer, Bench) {
        (self.try_set_gain(q, k, gain), self)
    }

    fn try_load_bits(&mut self, q: u32, k: u32, bits: &[u8]) -> Answer {
        check_code(q, k)?;
        self.check_open(q, k)?;
        let (field1, _, field2) = parts(self.0.settings.kind);
        if bits.len() != 2 * (field1 + field2) / q as usize {
            return Err(8);
        }
        if has_byte_above_1(bits) {
            return Err(9);
        }
        let pair = |n| if 2 * n < bits.len() { 2 * bits[2 * n] + bits[2 * n + 1] } else { 0 };
        set_pairs(&mut self.0.settings, q, k, pair);
        Ok(())
    }

    #[inline(never)]
    pub fn load_bits(mut self, q: u32, k: u32, bits: &[u8]) -> (Answer, Bench) {
        (self.try_load_bits(q, k, bits), self)
    }

    fn try_set_sync(&mut self, case: u32, frame: u32, half: u32, gp: u32, gs: u32) -> Answer {
        if self.0.settings.kind != 1 {
            return Err(13);
        }
        check_timing(case, frame, half)?;
        check_gain(gp)?;
        check_gain(gs)?;
        self.0.settings.sync = ffi::Sync { on: 1, case, frame, half, gp: gp as u16, gs: gs as u16 };
        Ok(())
    }

    #[inline(never)]
    pub fn set_sync(mut self, case: u32, frame: u32, half: u32, gp: u32, gs: u32) -> (Answer, Bench) {
        (self.try_set_sync(case, frame, half, gp, gs), self)
    }

    #[inline(never)]
    pub fn clear_sync(mut self) -> (Answer, Bench) {
        self.0.settings.sync = NO_SYNC;
        (Ok(()), self)
    }

    #[inline(never)]
    pub fn start(mut self) -> (Answer, Bench) {
        if self.0.running != 0 {
            return (Err(10), self);
        }
        (self.0.sending, self.0.running, self.0.position) = (self.0.settings, 1, 0);
        (Ok(()), self)
    }

    fn try_draw(&mut self, re: &mut [i32], im: &mut [i32]) -> Answer<usize> {
        if self.0.running == 0 {
            return Err(11);
        }
        if re.len() != im.len() {
            return Err(12);
        }
        let from = self.0.position;
        let count = re.len().min(2560 - from);
        let slot = Slot::new(&self.0.sending);
        for (i, (re, im)) in re[..count].iter_mut().zip(&mut im[..count]).enumerate() {
            Complex { re: *re, im: *im } = slot.chip(from + i);
        }
        self.0.position += count;
        self.0.running = u8::from(self.0.position < 2560);
        Ok(count)
    }

    #[inline(never)]
    pub fn draw(mut self, re: &mut [i32], im: &mut [i32]) -> (Answer<usize>, Bench) {
        (self.try_draw(re, im), self)
    }
}

/// `iter().any` as one writes it; it is timed by itself too.
#[inline(never)]
pub fn has_byte_above_1(bits: &[u8]) -> bool {
    bits.iter().any(|&b| b > 1)
}

// ---- The slot.

struct OpenCode {
    q: usize,
    k: usize,
    gain: i32,
    elements: &'static [i32; 16],
}

/// What the chips of a slot are made of, looked up once a draw.
struct Slot<'a> {
    settings: &'a ffi::Settings,
    open: Vec<OpenCode>,
    burst: Option<(usize, Allocated)>,
}

impl Slot<'_> {
    fn new(settings: &ffi::Settings) -> Slot<'_> {
        let open = (0..31).filter(|&node| settings.gains[node] != 0).map(|node| {
            let (q, k) = code_at(node);
            OpenCode { q, k, gain: settings.gains[node].into(), elements: &CODES[node] }
        });
        let (y, group) = (&settings.sync, settings.cell / 4);
        let burst = (y.on != 0).then(|| (start_of(group) as usize, allocated(y.case, group, y.frame, y.half)));
        Slot { settings, open: open.collect(), burst }
    }

    /// Chip q of a field, `before` chips of the slot's fields coming before it: the sum over open channels.
    fn data_chip(&self, before: usize, q: usize) -> Complex {
        let scrambling = SCRAMBLING[self.settings.cell as usize][q % 16];
        let block = before + q - q % 16;
        self.open.iter().fold(complex(0, 0), |sum, c| {
            let pair = self.settings.pairs[block + c.k * (16 / c.q) + q % 16 / c.q];
            let symbol = SYMBOLS[usize::from(pair)];
            plus(sum, scaled(c.gain * c.elements[q % 16], times(symbol, scrambling)))
        })
    }

    fn burst_chip(&self, n: usize, codes: &Allocated) -> Complex {
        let modulated = |m: ModulatedCode| times(m.unit, SECONDARY[m.code as usize][n]);
        let secondary = plus(plus(modulated(codes.first), modulated(codes.second)), modulated(codes.marker));
        let y = &self.settings.sync;
        plus(scaled(y.gp.into(), PRIMARY[n]), scaled(y.gs.into(), secondary))
    }

    fn chip(&self, n: usize) -> Complex {
        let (field1, midamble, field2) = parts(self.settings.kind);
        let second = field1 + midamble;
        let data = if n < field1 {
            self.data_chip(0, n)
        } else if second <= n && n < second + field2 {
            self.data_chip(field1, n - second)
        } else {
            complex(0, 0)
        };
        match &self.burst {
            Some((start, codes)) if *start <= n && n < start + 256 => plus(data, self.burst_chip(n - start, codes)),
            _ => data,
        }
    }
}

// ---- The analyser.

#[inline(never)]
pub fn read(cell: u32, q: u32, k: u32, re: &[i32], im: &[i32], out_re: &mut [i32], out_im: &mut [i32]) -> Answer {
    check_cell(cell)?;
    check_code(q, k)?;
    if re.len() != im.len() {
        return Err(12);
    }
    if re.is_empty() || re.len() > 1104 || !re.len().is_multiple_of(16) {
        return Err(16);
    }
    check_components(re, im)?;
    let count = re.len() / q as usize;
    if out_re.len() < count || out_im.len() < count {
        return Err(18);
    }
    let (scrambling, code) = (&SCRAMBLING[cell as usize], &CODES[node(q, k)]);
    let q = q as usize;
    for n in 0..count {
        let mut sum = complex(0, 0);
        for (i, element) in code[..q].iter().enumerate() {
            let chip = complex(re[n * q + i], im[n * q + i]);
            sum = plus(sum, scaled(*element, times(chip, conj(scrambling[(n * q + i) % 16]))));
        }
        (out_re[n], out_im[n]) = (sum.re, sum.im);
    }
    Ok(())
}

#[inline(never)]
pub fn harden(re: &[i32], im: &[i32], bits: &mut [u8]) -> Answer {
    if re.len() != im.len() {
        return Err(12);
    }
    if bits.len() / 2 < re.len() {
        return Err(18);
    }
    for ((&re, &im), pair) in re.iter().zip(im).zip(bits.chunks_exact_mut(2)) {
        let (re, im) = (i64::from(re), i64::from(im));
        let scores = [im, re, -re, -im];
        let mut best = 0;
        for i in 1..4 {
            if scores[i] > scores[best] {
                best = i;
            }
        }
        pair.copy_from_slice(&[(best / 2) as u8, (best % 2) as u8]);
    }
    Ok(())
}

/// The sum of chip × conj(code), 256 chips of either.
fn correlation(re: &[i32], im: &[i32], code: &[Complex; 256]) -> Complex {
    let chips = re.iter().zip(im).map(|(&re, &im)| complex(re, im));
    chips.zip(code).fold(complex(0, 0), |sum, (chip, &c)| plus(sum, times(chip, conj(c))))
}

/// The real part of x × conj(u) × conj(p) at 64 bits.
fn share(x: Complex, u: Complex, p: Complex) -> i64 {
    let y = times(x, conj(u));
    i64::from(y.re) * i64::from(p.re) + i64::from(y.im) * i64::from(p.im)
}

#[inline(never)]
pub fn read_sync(case: u32, re: &[i32], im: &[i32]) -> Answer<Candidate> {
    if ![1, 2].contains(&case) {
        return Err(14);
    }
    if re.len() != im.len() {
        return Err(12);
    }
    if re.len() != 256 {
        return Err(16);
    }
    check_components(re, im)?;
    let p = correlation(re, im, &PRIMARY);
    let mut s = [complex(0, 0); 16];
    for i in NUMBERS {
        s[i as usize] = correlation(re, im, &SECONDARY[i as usize]);
    }
    let (mut best, mut largest, mut alone) = (None, i64::MIN, false);
    for (group, frame, half) in candidates(case) {
        let codes = allocated(case, group, frame, half);
        let of = |m: ModulatedCode| share(s[m.code as usize], m.unit, p);
        let score = of(codes.first) + of(codes.second) + of(codes.marker);
        if score > largest {
            (best, largest, alone) = (Some(Candidate { group: CodeGroup(group), frame, half }), score, true);
        } else if score == largest {
            alone = false;
        }
    }
    best.filter(|_| alone).ok_or(19)
}

/// Every group, frame and half of a case.
pub fn candidates(case: u32) -> impl Iterator<Item = (u32, u32, u32)> {
    (0..32).flat_map(move |group| (1..=2).flat_map(move |frame| (0..case).map(move |half| (group, frame, half))))
}

#[inline(never)]
pub fn find(re: &[i32], im: &[i32], scratch_re: &mut [i32], scratch_im: &mut [i32]) -> Answer<Peak> {
    if re.len() != im.len() {
        return Err(12);
    }
    if re.len() < 256 || re.len() > 5120 {
        return Err(16);
    }
    check_components(re, im)?;
    if scratch_re.len() < re.len() - 15 || scratch_im.len() < re.len() - 15 {
        return Err(18);
    }
    let mut peak = Peak { start: 0, size: -1 };
    for start in 0..=re.len() - 256 {
        let p = correlation(&re[start..start + 256], &im[start..start + 256], &PRIMARY);
        let size = i64::from(p.re) * i64::from(p.re) + i64::from(p.im) * i64::from(p.im);
        if size > peak.size {
            peak = Peak { start, size };
        }
    }
    Ok(peak)
}

// ---- The code rules.

#[inline(never)]
pub fn element(q: u32, k: u32, chip: u32) -> Answer<i32> {
    check_code(q, k)?;
    if chip >= q {
        return Err(16);
    }
    Ok(CODES[node(q, k)][chip as usize])
}

/// Up from the lower of two codes to the level of the other.
fn are_related(mut q1: u32, mut k1: u32, mut q2: u32, mut k2: u32) -> bool {
    while q1 > q2 {
        (q1, k1) = (q1 / 2, k1 / 2);
    }
    while q2 > q1 {
        (q2, k2) = (q2 / 2, k2 / 2);
    }
    k1 == k2
}

#[inline(never)]
pub fn related(q1: u32, k1: u32, q2: u32, k2: u32) -> Answer<bool> {
    check_code(q1, k1)?;
    check_code(q2, k2)?;
    Ok(are_related(q1, k1, q2, k2))
}

#[inline(never)]
pub fn code_group(cell: u32) -> Answer<CodeGroup> {
    check_cell(cell)?;
    Ok(CodeGroup(cell / 4))
}

#[inline(never)]
pub fn scrambling_chip(cell: u32, chip: u32) -> Answer<Complex> {
    check_cell(cell)?;
    SCRAMBLING[cell as usize].get(chip as usize).copied().ok_or(16)
}

#[inline(never)]
pub fn primary_chip(chip: u32) -> Answer<Complex> {
    PRIMARY.get(chip as usize).copied().ok_or(16)
}

#[inline(never)]
pub fn secondary_chip(number: u32, chip: u32) -> Answer<Complex> {
    if !NUMBERS.contains(&number) {
        return Err(16);
    }
    SECONDARY[number as usize].get(chip as usize).copied().ok_or(16)
}

/// The three codes with their units, by the rules of the two cases.
fn allocated(case: u32, group: u32, frame: u32, half: u32) -> Allocated {
    let sign = |negative| if negative { -1 } else { 1 };
    let (set, row, first, second, marker) = if case == 1 {
        let r = group % 16;
        (group / 16, r / 4, sign(r % 4 >= 2), sign(r % 2 == 1), sign(frame == 2))
    } else {
        let r = group % 8;
        let pair = sign(frame == 2);
        (group / 8, r / 2, pair, pair * sign(r % 2 == 1), sign(half == 1))
    };
    let [a, b, d] = CODE_SETS[set as usize];
    let (pair, unit, last) = match row {
        0 => ([a, b], complex(1, 0), d),
        1 => ([a, b], complex(0, 1), d),
        2 => ([a, d], complex(0, 1), b),
        _ => ([b, d], complex(0, 1), a),
    };
    Allocated {
        first: ModulatedCode { code: pair[0], unit: scaled(first, unit) },
        second: ModulatedCode { code: pair[1], unit: scaled(second, unit) },
        marker: ModulatedCode { code: last, unit: complex(marker, 0) },
    }
}

#[inline(never)]
pub fn allocation(case: u32, group: u32, frame: u32, half: u32) -> Answer<Allocated> {
    if group > 31 {
        return Err(1);
    }
    check_timing(case, frame, half)?;
    Ok(allocated(case, group, frame, half))
}

pub fn start_of(group: u32) -> u32 {
    if group < 16 { 48 * group } else { 720 + 48 * group }
}

#[inline(never)]
pub fn burst_start(group: u32) -> Answer<u32> {
    if group > 31 { Err(1) } else { Ok(start_of(group)) }
}
