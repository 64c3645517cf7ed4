//! Chips for the analyser: silence, noise, extremes, ties, drawn slots, sync bursts.

use std::fmt;
use std::sync::LazyLock;

use crate::random::{Random, seed};
use crate::reference::{self, Bench};
use crate::tracker::SLOT;

/// The largest component that the analyser takes.
pub const LOUDEST: i32 = 100_000;

#[derive(Clone)]
pub struct Chips {
    pub re: Vec<i32>,
    pub im: Vec<i32>,
}

impl Chips {
    pub fn silence(length: usize) -> Chips {
        Chips { re: vec![0; length], im: vec![0; length] }
    }

    fn each(length: usize, mut component: impl FnMut() -> i32) -> Chips {
        let re = (0..length).map(|_| component()).collect();
        Chips { re, im: (0..length).map(|_| component()).collect() }
    }

    pub fn noise(random: &mut Random, length: usize, loud: i32) -> Chips {
        Chips::each(length, || random.within(-loud, loud))
    }

    pub fn extremes(random: &mut Random, length: usize) -> Chips {
        Chips::each(length, || random.one_of(&[-LOUDEST, LOUDEST]))
    }

    /// A few chips in silence: sums over different stretches often tie.
    pub fn impulses(random: &mut Random, length: usize) -> Chips {
        let mut chips = Chips::silence(length);
        for _ in 0..if length == 0 { 0 } else { 1 + random.below(3) } {
            let place = random.below(length);
            let loud = random.one_of(&[1, 1, 1, 7, LOUDEST]);
            chips.re[place] = random.one_of(&[0, loud, -loud]);
            chips.im[place] = random.one_of(&[0, loud, -loud]);
        }
        chips
    }

    /// A row that repeats: sums over stretches a row apart tie.
    pub fn repeated(random: &mut Random, length: usize) -> Chips {
        let row = 1 + random.below(40);
        let loud = random.one_of(&[1, 3, 1000, LOUDEST]);
        let row = Chips::noise(random, row, loud);
        let repeat = |row: Vec<i32>| row.into_iter().cycle().take(length).collect();
        Chips { re: repeat(row.re), im: repeat(row.im) }
    }

    /// A stretch of a drawn slot, and of the next where it is longer, with some noise.
    pub fn drawn(random: &mut Random, length: usize) -> Chips {
        let mut chips = Chips::silence(length);
        let mut from = random.below(SLOT);
        let mut to = 0;
        while to < length {
            let slot = &SLOTS[random.below(SLOTS.len())];
            chips.add(&slot.chips.part(from, SLOT.min(from + length - to)), to);
            to += SLOT - from;
            from = 0;
        }
        let loud = random.one_of(&[0, 0, 10, 1000, 30_000]);
        chips.add(&Chips::noise(random, length, loud), 0);
        chips
    }

    /// Chips of any of these sorts.
    pub fn any(random: &mut Random, length: usize) -> Chips {
        match random.below(8) {
            0 => Chips::silence(length),
            1 => Chips::extremes(random, length),
            2 => Chips::impulses(random, length),
            3 => Chips::repeated(random, length),
            4 | 5 => Chips::drawn(random, length),
            _ => {
                let loud = random.one_of(&[1, 2, 10, 1000, LOUDEST]);
                Chips::noise(random, length, loud)
            }
        }
    }

    pub fn part(&self, from: usize, to: usize) -> Chips {
        Chips { re: self.re[from..to].to_vec(), im: self.im[from..to].to_vec() }
    }

    /// Adds chips from `at` on, as far as they fit, within the largest component.
    pub fn add(&mut self, other: &Chips, at: usize) {
        for (sums, terms) in [(&mut self.re, &other.re), (&mut self.im, &other.im)] {
            for (sum, term) in sums[at..].iter_mut().zip(terms) {
                *sum = (*sum + term).clamp(-LOUDEST, LOUDEST);
            }
        }
    }

    pub fn resize(&mut self, length: usize) {
        self.re.resize(length, 0);
        self.im.resize(length, 0);
    }

    pub fn silence_part(&mut self, from: usize, to: usize) {
        for buffer in [&mut self.re, &mut self.im] {
            let to = to.min(buffer.len());
            buffer[from.min(to)..to].fill(0);
        }
    }

    /// Makes the im buffer another length.
    pub fn unequal(&mut self, random: &mut Random) {
        let length = self.im.len();
        let other = random.one_of(&[0, length.saturating_sub(1), length + 1, length + 16, length / 2, 256]);
        self.im.resize(other, 0);
    }

    /// Puts one component outside the range, most often just outside.
    pub fn spoil(&mut self, random: &mut Random) {
        let buffer = if random.chance(50) { &mut self.re } else { &mut self.im };
        if buffer.is_empty() {
            return;
        }
        let place = random.below(buffer.len());
        let place = random.one_of(&[0, buffer.len() - 1, place]);
        buffer[place] = random.one_of(&[LOUDEST + 1, -LOUDEST - 1, i32::MAX, i32::MIN, 0x5A5A_5A5A]);
    }
}

/// Each buffer's length, and its entries that are not 0 with their places.
impl fmt::Display for Chips {
    fn fmt(&self, f: &mut fmt::Formatter) -> fmt::Result {
        for (name, buffer) in [("re", &self.re), ("im", &self.im)] {
            let loud = buffer.iter().enumerate().filter(|(_, entry)| **entry != 0);
            let loud: Vec<String> = loud.map(|(place, entry)| format!("{place}: {entry}")).collect();
            let except = if loud.is_empty() { "" } else { " except " };
            write!(f, "\n  {name}: {} entries, 0{except}{}", buffer.len(), loud.join(", "))?;
        }
        Ok(())
    }
}

/// A slot that the reference drew.
pub struct DrawnSlot {
    pub cell: u32,
    pub codes: Vec<(u32, u32)>,
    /// The first chip and the length of each field.
    pub fields: [(usize, usize); 2],
    pub chips: Chips,
}

/// Slots of many settings.
pub static SLOTS: LazyLock<Vec<DrawnSlot>> = LazyLock::new(|| {
    let slots = 0..200;
    slots.map(|n| drawn_slot(&mut Random::of(!seed(), n))).collect()
});

fn drawn_slot(random: &mut Random) -> DrawnSlot {
    let (cell, kind) = (random.below(128) as u32, random.one_of(&[1, 1, 2, 3]));
    let (field_1, start_2, field_2) = [(976, 1488, 976), (1104, 1360, 1104), (976, 1488, 880)][kind as usize - 1];
    let mut bench = Bench::fresh();
    bench.set_cell(cell, kind).unwrap();
    let mut codes = Vec::new();
    for _ in 0..random.one_of(&[0, 1, 4, 20, 40]) {
        let q = random.one_of(&[1, 2, 4, 8, 16, 16, 16]);
        let k = random.below(q as usize) as u32;
        if bench.open(q, k, random.within(1, 4095) as u32).is_ok() {
            let bits = (0..2 * (field_1 + field_2) / q as usize).map(|_| random.below(2) as u8).collect::<Vec<_>>();
            bench.load_bits(q, k, &bits).unwrap();
            codes.push((q, k));
        }
    }
    if kind == 1 && random.chance(70) {
        let case = 1 + random.below(2) as u32;
        let (frame, half) = (1 + random.below(2) as u32, random.below(case as usize) as u32);
        bench.set_sync(case, frame, half, random.within(1, 4095) as u32, random.within(1, 4095) as u32).unwrap();
    }
    bench.start().unwrap();
    let mut chips = Chips::silence(SLOT);
    bench.draw(&mut chips.re, &mut chips.im).unwrap();
    DrawnSlot { cell, codes, fields: [(0, field_1), (start_2, field_2)], chips }
}

/// A sync burst by itself, with these gains of the primary and the secondary codes, within the largest component.
pub fn burst(case: u32, candidate: reference::Candidate, gp: i32, gs: i32) -> Chips {
    let codes = reference::allocation(case, candidate.group, candidate.frame, candidate.half).unwrap();
    let mut chips = Chips::silence(256);
    for n in 0..256 {
        let primary = reference::primary_chip(n as u32).unwrap();
        let (mut re, mut im) = (gp * primary.re, gp * primary.im);
        for modulated in codes {
            let secondary = reference::secondary_chip(modulated.code, n as u32).unwrap();
            let u = modulated.unit;
            re += gs * (u.re * secondary.re - u.im * secondary.im);
            im += gs * (u.re * secondary.im + u.im * secondary.re);
        }
        (chips.re[n], chips.im[n]) = (re.clamp(-LOUDEST, LOUDEST), im.clamp(-LOUDEST, LOUDEST));
    }
    chips
}

/// A case with one of its candidates.
pub fn any_candidate(random: &mut Random) -> (u32, reference::Candidate) {
    let case = 1 + random.below(2);
    let (group, frame, half) = (random.below(32), 1 + random.below(2), random.below(case));
    (case as u32, reference::Candidate { group: group as u32, frame: frame as u32, half: half as u32 })
}
