//! What the calls are given: random numbers, the same in every run, and signals made of them.
use crate::tables::{PRIMARY, SECONDARY};
use smugolec::codes::{Allocated, allocation};
use smugolec::{Bench, CellParameter, Channel, CodeGroup, ffi};

/// Marsaglia's xorshift of 64 bits.
pub struct Random(pub u64);

impl Random {
    pub fn below(&mut self, n: u32) -> u32 {
        self.0 ^= self.0 << 13;
        self.0 ^= self.0 >> 7;
        self.0 ^= self.0 << 17;
        (self.0 >> 32) as u32 % n
    }

    pub fn bits(&mut self, count: usize) -> Vec<u8> {
        (0..count).map(|_| self.below(2) as u8).collect()
    }

    /// Components from -size to size.
    pub fn noise(&mut self, count: usize, size: i32) -> Vec<i32> {
        (0..count).map(|_| self.below(2 * size as u32 + 1) as i32 - size).collect()
    }

    pub fn pick<T: Copy>(&mut self, from: &[T]) -> T {
        from[self.below(from.len() as u32) as usize]
    }
}

/// `count` codes of factor q from index 0 on, with gains up to 4095.
pub fn plan(q: u32, count: u32) -> Vec<Channel> {
    (0..count).map(|k| Channel { q, k, gain: 4095 - 97 * k }).collect()
}

/// A bench of cell 8 and type 1 with these codes open and random bits in all of them.
pub fn bench(plan: &[Channel]) -> ffi::Bench {
    let mut random = Random(2026);
    let mut bench = Bench::fresh();
    bench.set_cell(CellParameter(8), 1).expect("a cell parameter and a type");
    bench.load_plan(plan).expect("a plan");
    for c in plan {
        bench.load_bits(c.q, c.k, &random.bits(3904 / c.q as usize)).expect("bits");
    }
    *bench.as_ffi()
}

/// A re and an im buffer, which the three forms of a row share.
pub type Signal = (&'static [i32], &'static [i32]);

pub fn noise(count: usize, size: i32) -> Signal {
    let mut random = Random(976);
    (random.noise(count, size).leak(), random.noise(count, size).leak())
}

/// Adds a sync burst whose primary and secondary codes have the same gain.
pub fn add_burst(re: &mut [i32], im: &mut [i32], codes: &Allocated, gain: i32) {
    for n in 0..256 {
        (re[n], im[n]) = (re[n] + gain * PRIMARY[n].re, im[n] + gain * PRIMARY[n].im);
        for c in [codes.first, codes.second, codes.marker] {
            let (u, chip) = (c.unit, SECONDARY[c.code as usize][n]);
            re[n] += gain * (u.re * chip.re - u.im * chip.im);
            im[n] += gain * (u.re * chip.im + u.im * chip.re);
        }
    }
}

/// The sync burst of a case, group 13, frame 2 and the case's last half, in noise of twice its gain.
pub fn burst(case: u32) -> Signal {
    let mut random = Random(7);
    let (mut re, mut im) = (random.noise(256, 2000), random.noise(256, 2000));
    let codes = allocation(case, CodeGroup(13), 2, case - 1).expect("a candidate");
    add_burst(&mut re, &mut im, &codes, 1000);
    (re.leak(), im.leak())
}

/// A recording of noise with the primary code in it.
pub fn recording(count: usize, start: usize) -> Signal {
    let mut random = Random(5120);
    let (mut re, mut im) = (random.noise(count, 20_000), random.noise(count, 20_000));
    for n in 0..256 {
        re[start + n] += 5000 * PRIMARY[n].re;
        im[start + n] += 5000 * PRIMARY[n].im;
    }
    (re.leak(), im.leak())
}
