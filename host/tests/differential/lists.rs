//! Random bench calls, valid and damaged, that reach deep states.

use smugolec::Channel;

use crate::calls::{Bits, Call};
use crate::random::Random;
use crate::reference;
use crate::tracker::{SLOT, Tracker};

/// What a list is mostly about: the weights of the calls, in the order of `CALLS`; how many arguments of a hundred are damaged; the spreading factors of
/// opened codes.
pub struct Mood {
    weights: [usize; 10],
    damaged: usize,
    factors: &'static [u32],
}

const ALL_FACTORS: &[u32] = &[1, 2, 4, 8, 16];

pub static MOODS: [Mood; 8] = [
    // Every call alike.
    Mood { weights: [1; 10], damaged: 10, factors: ALL_FACTORS },
    // Arguments mostly damaged.
    Mood { weights: [2, 3, 3, 3, 3, 3, 3, 1, 2, 3], damaged: 35, factors: ALL_FACTORS },
    // Many codes open, to all 16, with bits.
    Mood { weights: [0, 40, 1, 1, 4, 40, 2, 1, 8, 16], damaged: 2, factors: &[16] },
    Mood { weights: [1, 30, 1, 2, 4, 20, 2, 1, 8, 16], damaged: 3, factors: &[4, 8, 16] },
    // Codes closed and opened again, with bits from before.
    Mood { weights: [1, 20, 2, 16, 6, 20, 1, 1, 8, 12], damaged: 3, factors: ALL_FACTORS },
    // Slots in many pieces.
    Mood { weights: [1, 6, 2, 2, 4, 6, 2, 1, 8, 60], damaged: 5, factors: &[2, 4, 8, 16] },
    // Plans.
    Mood { weights: [2, 2, 30, 2, 2, 16, 2, 1, 8, 16], damaged: 6, factors: &[8, 16] },
    // Sync bursts in every case.
    Mood { weights: [8, 4, 2, 2, 1, 4, 20, 4, 16, 20], damaged: 4, factors: ALL_FACTORS },
];

/// Makes calls for a list that has come to where the tracker is.
pub struct Maker<'a> {
    pub random: &'a mut Random,
    pub tracker: &'a Tracker,
    pub mood: &'a Mood,
}

/// How many calls a list has: none to some hundred, mostly a few.
pub fn length(random: &mut Random) -> usize {
    let (from, to) = random.one_of(&[(0, 3), (0, 10), (0, 30), (10, 50), (20, 120), (100, 350)]);
    random.within(from, to) as usize
}

fn codes(factors: &[u32]) -> Vec<(u32, u32)> {
    ALL_FACTORS.iter().filter(|q| factors.contains(q)).flat_map(|&q| (0..q).map(move |k| (q, k))).collect()
}

fn related((q1, k1): (u32, u32), (q2, k2): (u32, u32)) -> bool {
    reference::related(q1, k1, q2, k2) == Ok(true)
}

impl Maker<'_> {
    /// Mostly a set cell, so that what follows is not always of the fresh bench's cell and type.
    pub fn first_call(&mut self) -> Call {
        if self.random.chance(80) { self.set_cell() } else { self.call() }
    }

    pub fn call(&mut self) -> Call {
        match self.random.weighted(&self.mood.weights) {
            // Of start and draw mostly the one that will be accepted.
            8 | 9 if self.random.chance(70) => self.call_at(if self.tracker.slot.is_none() { 8 } else { 9 }),
            place => self.call_at(place),
        }
    }

    /// A call by its place in `CALLS`.
    pub fn call_at(&mut self, place: usize) -> Call {
        match place {
            0 => self.set_cell(),
            1 => Call::Open(self.channel_to_open()),
            2 => Call::LoadPlan(self.plan()),
            3 => {
                let (q, k) = self.open_code();
                Call::Close { q, k }
            }
            4 => {
                let (q, k) = self.open_code();
                Call::SetGain(Channel { q, k, gain: self.gain() })
            }
            5 => self.load_bits(),
            6 => self.set_sync(),
            7 => Call::ClearSync,
            8 => Call::Start,
            _ => self.draw(),
        }
    }

    fn damaged(&mut self) -> bool {
        self.random.chance(self.mood.damaged)
    }

    /// A number from `from` to below `limit`, or a damaged one.
    fn number(&mut self, from: u32, limit: u32) -> u32 {
        if self.damaged() { self.random.past(limit) } else { from + self.random.below((limit - from) as usize) as u32 }
    }

    fn set_cell(&mut self) -> Call {
        // Type 1 more often: it alone takes a sync burst.
        let kind = if self.random.chance(30) { 1 } else { self.number(1, 4) };
        Call::SetCell { cell: self.number(0, 128), kind }
    }

    fn gain(&mut self) -> u32 {
        match self.random.below(4) {
            0 if !self.damaged() => self.random.one_of(&[1, 2, 4094, 4095]),
            _ => self.number(1, 4096),
        }
    }

    /// A code with its q, its k or both damaged at times.
    fn maybe_damaged(&mut self, (q, k): (u32, u32)) -> (u32, u32) {
        let odd = self.random.one_of(&[3, 5, 6, 7, 9, 12, 15, 17, 32]);
        let past = self.random.past(17);
        let k = if self.damaged() { self.random.past(q) } else { k };
        let q = if self.damaged() { self.random.one_of(&[odd, past]) } else { q };
        (q, k)
    }

    fn any_code(&mut self) -> (u32, u32) {
        let code = self.random.one_of(&codes(ALL_FACTORS));
        self.maybe_damaged(code)
    }

    /// Mostly a code that is open.
    fn open_code(&mut self) -> (u32, u32) {
        if self.tracker.open.is_empty() || self.random.chance(10) {
            return self.any_code();
        }
        let code = self.random.one_of(&self.tracker.open);
        self.maybe_damaged(code)
    }

    /// Mostly a code that can be opened.
    fn channel_to_open(&mut self) -> Channel {
        let mut free = codes(self.mood.factors);
        free.retain(|&code| self.tracker.open.iter().all(|&open| !related(code, open)));
        let (q, k) = if free.is_empty() || self.random.chance(10) {
            self.any_code()
        } else {
            let code = self.random.one_of(&free);
            self.maybe_damaged(code)
        };
        Channel { q, k, gain: self.gain() }
    }

    /// A plan that is valid up to some place, and perhaps fails there and goes on in any way.
    pub fn plan(&mut self) -> Vec<Channel> {
        let factors = self.random.one_of(&[&[16][..], &[16], self.mood.factors, ALL_FACTORS]);
        let mut free = codes(factors);
        self.random.shuffle(&mut free);
        let mut plan: Vec<Channel> = Vec::new();
        for code in free.into_iter().take(self.random.one_of(&[1, 4, 16, 17, 31])) {
            if plan.iter().all(|earlier| !related(code, (earlier.q, earlier.k))) {
                plan.push(Channel { q: code.0, k: code.1, gain: self.random.within(1, 4095) as u32 });
            }
        }
        if self.random.chance(35) {
            plan.truncate(self.random.below(17));
        }
        if self.random.chance(45) {
            plan.push(self.failing_record(&plan));
            let more = self.random.one_of(&[1, 6, 40]);
            for _ in 0..self.random.below(more) {
                let (q, k) = self.any_code();
                plan.push(Channel { q, k, gain: self.gain() });
            }
            plan.truncate(40);
        }
        plan
    }

    /// A record that fails after those of `plan`: by its factor, its index, its gain, or a relation to an earlier one.
    fn failing_record(&mut self, plan: &[Channel]) -> Channel {
        let (q, k) = self.random.one_of(&codes(ALL_FACTORS));
        let gain = self.gain();
        let bad_gain = self.random.one_of(&[0, 4096, 4097, 0x1_0001, u32::MAX]);
        let near: Vec<(u32, u32)> = codes(ALL_FACTORS)
            .into_iter()
            .filter(|&code| plan.iter().any(|earlier| related(code, (earlier.q, earlier.k))))
            .collect();
        match self.random.below(5) {
            0 => Channel { q: self.random.one_of(&[0, 3, 17, 32, 0x1_0004, u32::MAX]), k, gain },
            1 => Channel { q, k: q + self.random.one_of(&[0, 0, 1, 0x100]), gain },
            3.. if !near.is_empty() => {
                let (q, k) = self.random.one_of(&near);
                Channel { q, k, gain: self.random.within(1, 4095) as u32 }
            }
            _ => Channel { q, k, gain: bad_gain },
        }
    }

    fn load_bits(&mut self) -> Call {
        let (q, k) = self.open_code();
        let chips = [2 * 976, 2 * 1104, 976 + 880];
        let due = 2 * chips[self.tracker.kind as usize - 1] / q.max(1) as usize;
        let another = self.random.one_of(&chips) * 2 / self.random.one_of(&[1, 2, 4, 8, 16]);
        let count = if self.damaged() {
            self.random.one_of(&[0, 1, due.saturating_sub(1), due + 1, due + 2, due / 2, 2 * due, another])
        } else {
            due
        };
        let row = (0..1 + self.random.below(97)).map(|_| self.random.below(2) as u8).collect();
        let odd_byte = (count > 0 && self.damaged()).then(|| {
            let place = self.random.below(count);
            (self.random.one_of(&[0, count - 1, place]), self.random.one_of(&[2, 3, 16, 128, 255]))
        });
        Call::LoadBits { q, k, bits: Bits { count, row, odd_byte } }
    }

    fn set_sync(&mut self) -> Call {
        let case = self.number(1, 3);
        let frame = self.number(1, 3);
        let half = if case == 1 && !self.damaged() { 0 } else { self.number(0, 2) };
        Call::SetSync { case, frame, half, gp: self.gain(), gs: self.gain() }
    }

    /// Awkward pieces, and what is left, one more or one less.
    fn draw(&mut self) -> Call {
        let left = self.tracker.left();
        let re = match self.random.below(10) {
            0..4 => self.random.one_of(&[0, 1, 7, 15, 16, 17, 64, 975, 976, 977]),
            4 => self.random.one_of(&[left, left + 1, left.saturating_sub(1), SLOT]),
            5..8 => self.random.below(600),
            _ => self.random.below(SLOT + 500),
        };
        let im = if self.damaged() {
            self.random.one_of(&[0, re + 1, re.saturating_sub(1), 2 * re, re + 16, left])
        } else {
            re
        };
        Call::Draw { re, im }
    }
}
