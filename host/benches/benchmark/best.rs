//! The best forms: the fastest safe Rust found that gives the same answers. The bench is changed in place, sums share their parts, and loops have no early
//! exit and no branch in them, so that they become vector code of 4 to 16 numbers a step.
mod analyser;
mod codes;
mod draw;
mod sync;

pub use analyser::{harden, read};
pub use codes::{allocation, element, related};
pub use sync::{find, read_sync};

// One look-up or one sum after the tests: the direct form is the best one.
pub use crate::direct::{burst_start, code_group, primary_chip, scrambling_chip, secondary_chip};

use crate::Answer;
use crate::tables::{LEAVES, NO_SYNC};
use smugolec::{Channel, ffi};

/// The library's struct.
pub struct Bench(pub ffi::Bench);

/// All bits set where two codes are related, so that one `and` with the gains tells whether a related code is open.
static RELATED: [[u16; 31]; 31] = related_codes();

const fn related_codes() -> [[u16; 31]; 31] {
    let mut rows = [[0; 31]; 31];
    let mut at = 0;
    while at < 31 * 31 {
        let (m, n) = (at / 31, at % 31);
        rows[m][n] = if LEAVES[m] & LEAVES[n] != 0 { u16::MAX } else { 0 };
        at += 1;
    }
    rows
}

/// The place of a code's gain.
fn check_code(q: u32, k: u32) -> Answer<usize> {
    if q > 16 || !q.is_power_of_two() {
        return Err(3);
    }
    if k >= q { Err(4) } else { Ok((q - 1 + k) as usize) }
}

fn check_gain(gain: u32) -> Answer<u16> {
    if gain.wrapping_sub(1) < 4095 { Ok(gain as u16) } else { Err(5) }
}

fn check_timing(case: u32, frame: u32, half: u32) -> Answer {
    if case.wrapping_sub(1) > 1 {
        return Err(14);
    }
    if frame.wrapping_sub(1) > 1 || half >= case { Err(15) } else { Ok(()) }
}

/// All bytes of a stretch together: without an early exit in it this is one vector `or` for 16 bytes. A byte above 1 ends it after its stretch.
#[inline(never)]
pub fn has_byte_above_1(bits: &[u8]) -> bool {
    bits.chunks(1024).any(|stretch| stretch.iter().fold(0, |all, b| all | b) > 1)
}

/// The first bit of a pair is in the low byte, so the pair's number is the low byte of 2 × pair + pair / 256: shifts that work on eight pairs at a time.
fn pair(bits: [u8; 2]) -> u8 {
    let both = u16::from_le_bytes(bits);
    (both << 1 | both >> 8) as u8
}

/// Sets the pairs of a code that owns W entries of each block; its entries past the bits become 0.
fn set_pairs<const W: usize>(pairs: &mut [u8; 2208], k: u32, bits: &[u8]) {
    let k = k as usize % (16 / W);
    let (bits, _) = bits.as_chunks::<2>();
    let (bits, _) = bits.as_chunks::<W>();
    let (blocks, _) = pairs.as_chunks_mut::<16>();
    let (used, rest) = blocks.split_at_mut(bits.len());
    for (block, bits) in used.iter_mut().zip(bits) {
        block.as_chunks_mut::<W>().0[k] = bits.map(pair);
    }
    for block in rest {
        block.as_chunks_mut::<W>().0[k] = [0; W];
    }
}

fn set_bits(pairs: &mut [u8; 2208], q: u32, k: u32, bits: &[u8]) {
    match q {
        1 => {
            let (bits, _) = bits.as_chunks::<2>();
            let (used, rest) = pairs.split_at_mut(bits.len());
            used.iter_mut().zip(bits).for_each(|(to, &bits)| *to = pair(bits));
            rest.fill(0);
        }
        2 => set_pairs::<8>(pairs, k, bits),
        4 => set_pairs::<4>(pairs, k, bits),
        8 => set_pairs::<2>(pairs, k, bits),
        _ => set_pairs::<1>(pairs, k, bits),
    }
}

/// Clears the entries of these leaves in every block.
fn clear_leaves(pairs: &mut [u8; 2208], leaves: u16) {
    if leaves == u16::MAX {
        return pairs.fill(0);
    }
    let keep: [u8; 16] = std::array::from_fn(|i| if leaves >> i & 1 == 1 { 0 } else { u8::MAX });
    for block in pairs.as_chunks_mut::<16>().0 {
        for (entry, keep) in block.iter_mut().zip(keep) {
            *entry &= keep;
        }
    }
}

fn bit_count(kind: u32, q: u32) -> usize {
    let (field1, _, field2) = draw::PARTS[(kind - 1) as usize];
    (2 * (field1 + field2)) >> q.trailing_zeros()
}

impl Bench {
    #[inline(never)]
    pub fn make_fresh(&mut self) {
        const FRESH: ffi::Settings =
            ffi::Settings { cell: 0, kind: 1, gains: [0; 31], pairs: [0; 2208], sync: NO_SYNC };
        self.0 = ffi::Bench { settings: FRESH, running: 0, sending: FRESH, position: 0 };
    }

    #[inline(never)]
    pub fn set_cell(&mut self, cell: u32, kind: u32) -> Answer {
        if cell > 127 {
            return Err(1);
        }
        if kind.wrapping_sub(1) > 2 {
            return Err(2);
        }
        let s = &mut self.0.settings;
        (s.cell, s.kind, s.gains, s.sync) = (cell, kind, [0; 31], NO_SYNC);
        Ok(())
    }

    #[inline(never)]
    pub fn open(&mut self, q: u32, k: u32, gain: u32) -> Answer {
        let node = check_code(q, k)?;
        let gain = check_gain(gain)?;
        let s = &mut self.0.settings;
        if s.gains.iter().zip(&RELATED[node]).fold(0, |open, (g, related)| open | g & related) != 0 {
            return Err(6);
        }
        s.gains[node] = gain;
        set_bits(&mut s.pairs, q, k, &[]);
        Ok(())
    }

    /// Sixteen bits say which leaves of the tree are taken, so the plan is tested without a copy of the bench.
    #[inline(never)]
    pub fn load_plan(&mut self, plan: &[Channel]) -> Result<(), (u32, usize)> {
        let (mut gains, mut taken) = ([0; 31], 0);
        for (place, c) in plan.iter().enumerate() {
            let at = |number| (number, place);
            let node = check_code(c.q, c.k).map_err(at)?;
            gains[node] = check_gain(c.gain).map_err(at)?;
            if taken & LEAVES[node] != 0 {
                return Err(at(6));
            }
            taken |= LEAVES[node];
        }
        self.0.settings.gains = gains;
        clear_leaves(&mut self.0.settings.pairs, taken);
        Ok(())
    }

    fn check_open(&self, node: usize) -> Answer {
        if self.0.settings.gains[node] == 0 { Err(7) } else { Ok(()) }
    }

    #[inline(never)]
    pub fn close(&mut self, q: u32, k: u32) -> Answer {
        let node = check_code(q, k)?;
        self.check_open(node)?;
        self.0.settings.gains[node] = 0;
        Ok(())
    }

    #[inline(never)]
    pub fn set_gain(&mut self, q: u32, k: u32, gain: u32) -> Answer {
        let node = check_code(q, k)?;
        let gain = check_gain(gain)?;
        self.check_open(node)?;
        self.0.settings.gains[node] = gain;
        Ok(())
    }

    #[inline(never)]
    pub fn load_bits(&mut self, q: u32, k: u32, bits: &[u8]) -> Answer {
        let node = check_code(q, k)?;
        self.check_open(node)?;
        if bits.len() != bit_count(self.0.settings.kind, q) {
            return Err(8);
        }
        if has_byte_above_1(bits) {
            return Err(9);
        }
        set_bits(&mut self.0.settings.pairs, q, k, bits);
        Ok(())
    }

    #[inline(never)]
    pub fn set_sync(&mut self, case: u32, frame: u32, half: u32, gp: u32, gs: u32) -> Answer {
        if self.0.settings.kind != 1 {
            return Err(13);
        }
        check_timing(case, frame, half)?;
        let (gp, gs) = (check_gain(gp)?, check_gain(gs)?);
        self.0.settings.sync = ffi::Sync { on: 1, case, frame, half, gp, gs };
        Ok(())
    }

    #[inline(never)]
    pub fn clear_sync(&mut self) -> Answer {
        self.0.settings.sync = NO_SYNC;
        Ok(())
    }

    #[inline(never)]
    pub fn start(&mut self) -> Answer {
        if self.0.running != 0 {
            return Err(10);
        }
        (self.0.sending, self.0.running, self.0.position) = (self.0.settings, 1, 0);
        Ok(())
    }

    #[inline(never)]
    pub fn draw(&mut self, re: &mut [i32], im: &mut [i32]) -> Answer<usize> {
        if self.0.running == 0 {
            return Err(11);
        }
        if re.len() != im.len() {
            return Err(12);
        }
        let from = self.0.position;
        let count = re.len().min(2560 - from);
        draw::chips(&self.0.sending, from, &mut re[..count], &mut im[..count]);
        self.0.position += count;
        self.0.running = u8::from(self.0.position < 2560);
        Ok(count)
    }
}
