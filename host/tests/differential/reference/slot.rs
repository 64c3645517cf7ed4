//! Document 01, "The slot" and the burst of "The sync burst": the chips that settings make.

use std::collections::BTreeMap;

use super::codes::{code, code_group, scrambling_code};
use super::complex::{Complex, J, ONE, Wide, ZERO};
use super::sync_codes::{BURST, allocation, burst_start, primary_code, secondary_code};

/// "A slot has 2,560 chips"
pub(super) const SLOT: usize = 2560;

/// "open codes each with gain and bits"
#[derive(Clone, PartialEq, Debug)]
pub(super) struct OpenCode {
    pub(super) gain: u32,
    pub(super) bits: Vec<u8>,
}

/// What set sync gives.
#[derive(Clone, PartialEq, Debug)]
pub(super) struct Sync {
    pub(super) case: u32,
    pub(super) frame: u32,
    pub(super) half: u32,
    pub(super) gp: u32,
    pub(super) gs: u32,
}

/// "settings (cell parameter, type, open codes each with gain and bits, sync or none)"
#[derive(Clone, PartialEq, Debug)]
pub(super) struct Settings {
    pub(super) cell: u32,
    pub(super) kind: u32,
    pub(super) open: BTreeMap<(u32, u32), OpenCode>,
    pub(super) sync: Option<Sync>,
}

/// The table of burst types: field 1, midamble, field 2, guard.
pub(super) fn lengths(kind: u32) -> [usize; 4] {
    match kind {
        1 => [976, 512, 976, 96],
        2 => [1104, 256, 1104, 96],
        3 => [976, 512, 880, 192],
        _ => panic!("no burst type"),
    }
}

/// "A channel has 2(F1+F2)/Q bits, F1 and F2 being its field lengths."
pub(super) fn bit_count(kind: u32, q: u32) -> usize {
    let [field_1, _, field_2, _] = lengths(kind);
    2 * (field_1 + field_2) / q as usize
}

/// "Bits go in pairs to symbols, first bit written first: 00 is +j, 01 is +1, 10 is -1, 11 is -j."
fn symbol(first: u8, second: u8) -> Complex {
    match (first, second) {
        (0, 0) => J,
        (0, 1) => ONE,
        (1, 0) => -ONE,
        (1, 1) => -J,
        _ => panic!("no bits"),
    }
}

/// "Chip q of a field (from 0) is, for one channel, gain × symbol (q div Q) × code element (q mod
/// Q) × complex scrambling element 1 + (q mod 16)." `bits` are the field's.
fn channel_chip(cell: u32, q: u32, k: u32, gain: u32, bits: &[u8], chip: usize) -> Wide {
    let factor = q as usize;
    let n = chip / factor;
    let symbol = symbol(bits[2 * n], bits[2 * n + 1]).wide();
    let element: i64 = code(q, k)[chip % factor].into();
    let scrambling = scrambling_code(cell)[chip % 16].wide();
    i64::from(gain) * (symbol * (element * scrambling))
}

/// The sum over open channels. "Midamble and guard chips are 0." "Field 1's bits come first, then
/// field 2's." "The index restarts in each field."
fn data_chip(settings: &Settings, position: usize) -> Wide {
    let [field_1, midamble, field_2, _] = lengths(settings.kind);
    let start_2 = field_1 + midamble;
    let mut sum = ZERO;
    for (&(q, k), channel) in &settings.open {
        let (bits_1, bits_2) = channel.bits.split_at(2 * field_1 / q as usize);
        let chip = if position < field_1 {
            channel_chip(settings.cell, q, k, channel.gain, bits_1, position)
        } else if position >= start_2 && position < start_2 + field_2 {
            let restarted = position - start_2;
            channel_chip(settings.cell, q, k, channel.gain, bits_2, restarted)
        } else {
            ZERO
        };
        sum = sum + chip;
    }
    sum
}

/// "The burst is gP × Cp + gS × (sum of u × Ci over its three codes), 256 chips, unscrambled". "the
/// group is the cell's".
fn burst_chip(cell: u32, sync: &Sync, chip: usize) -> Wide {
    let group = code_group(cell).expect("a cell parameter");
    let units = allocation(sync.case, group, sync.frame, sync.half).expect("an allocation");
    let mut sum = ZERO;
    for modulated in units {
        let secondary = secondary_code(modulated.code)[chip].wide();
        sum = sum + modulated.unit.wide() * secondary;
    }
    let primary = primary_code()[chip].wide();
    i64::from(sync.gp) * primary + i64::from(sync.gs) * sum
}

/// The sync burst's part of the chip, 0 where it does not fall.
fn sync_chip(settings: &Settings, position: usize) -> Wide {
    let Some(sync) = &settings.sync else {
        return ZERO;
    };
    let group = code_group(settings.cell).expect("a cell parameter");
    let start = burst_start(group).expect("a code group") as usize;
    if position >= start && position < start + BURST { burst_chip(settings.cell, sync, position - start) } else { ZERO }
}

/// "The slot's chip is the sum over open channels, plus the sync burst where it falls."
pub(super) fn slot_chip(settings: &Settings, position: usize) -> Complex {
    (data_chip(settings, position) + sync_chip(settings, position)).narrow()
}
