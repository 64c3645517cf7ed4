//! Document 01, "Bench calls".

use std::collections::BTreeMap;

use super::codes::{check_cell, check_code, related};
use super::slot::{OpenCode, SLOT, Settings, Sync, bit_count, slot_chip};
use super::sync_codes::{check_case, check_timing};

/// "channel records (Q, k, gain)"
#[derive(Clone, Copy, PartialEq, Debug)]
pub struct Channel {
    pub q: u32,
    pub k: u32,
    pub gain: u32,
}

/// A slot under way: "a copy of the settings with a position from 0 to 2,559".
#[derive(Clone, PartialEq, Debug)]
struct Air {
    settings: Settings,
    position: usize,
}

/// "The bench holds settings [...] and the air: no slot, or a copy of the settings with a
/// position".
#[derive(Clone, PartialEq, Debug)]
pub struct Bench {
    settings: Settings,
    air: Option<Air>,
}

/// "5 gain not 1 to 4095"
fn check_gain(gain: u32) -> Result<(), u32> {
    if !(1..=4095).contains(&gain) {
        return Err(5);
    }
    Ok(())
}

/// Opens one code among `open`: bits all 0. "Refuses 3 bad Q; 4 k not below Q; 5 gain not 1 to
/// 4095; 6 related to an open code."
fn open_among(open: &mut BTreeMap<(u32, u32), OpenCode>, kind: u32, channel: Channel) -> Result<(), u32> {
    let Channel { q, k, gain } = channel;
    check_code(q, k)?;
    check_gain(gain)?;
    for &(open_q, open_k) in open.keys() {
        if related(q, k, open_q, open_k).expect("two codes") {
            return Err(6);
        }
    }
    let bits = vec![0; bit_count(kind, q)];
    open.insert((q, k), OpenCode { gain, bits });
    Ok(())
}

impl Bench {
    /// "Fresh: parameter 0, type 1, nothing open, no sync, no slot."
    pub fn fresh() -> Bench {
        Bench { settings: Settings { cell: 0, kind: 1, open: BTreeMap::new(), sync: None }, air: None }
    }

    /// The open code (Q, k). "7 code not open"
    fn open_code(&mut self, q: u32, k: u32) -> Result<&mut OpenCode, u32> {
        self.settings.open.get_mut(&(q, k)).ok_or(7)
    }

    /// "Set cell (parameter, type) closes every code and clears sync. Refuses 1 parameter above
    /// 127; 2 type not 1, 2, 3."
    pub fn set_cell(&mut self, cell: u32, kind: u32) -> Result<(), u32> {
        check_cell(cell)?;
        if ![1, 2, 3].contains(&kind) {
            return Err(2);
        }
        self.settings = Settings { cell, kind, open: BTreeMap::new(), sync: None };
        Ok(())
    }

    /// "Open (Q, k, gain) gives bits all 0." Refuses 3; 4; 5; 6.
    pub fn open(&mut self, q: u32, k: u32, gain: u32) -> Result<(), u32> {
        let kind = self.settings.kind;
        open_among(&mut self.settings.open, kind, Channel { q, k, gain })
    }

    /// "it replaces all open codes, or changes nothing. Refuses with 3, 4, 5, 6 as open would for
    /// the first record that fails, taken in order against earlier records only, and that record's
    /// place. Places count from 0, bits start as all 0, and an empty list closes everything."
    pub fn load_plan(&mut self, plan: &[Channel]) -> Result<(), (u32, usize)> {
        let mut open = BTreeMap::new();
        for (place, &channel) in plan.iter().enumerate() {
            open_among(&mut open, self.settings.kind, channel).map_err(|number| (number, place))?;
        }
        self.settings.open = open;
        Ok(())
    }

    /// "Close (Q, k). Refuses 3; 4; 7 code not open."
    pub fn close(&mut self, q: u32, k: u32) -> Result<(), u32> {
        check_code(q, k)?;
        self.open_code(q, k)?;
        self.settings.open.remove(&(q, k));
        Ok(())
    }

    /// "Set gain (Q, k, gain) keeps the bits. Refuses 3; 4; 5; 7."
    pub fn set_gain(&mut self, q: u32, k: u32, gain: u32) -> Result<(), u32> {
        check_code(q, k)?;
        check_gain(gain)?;
        self.open_code(q, k)?.gain = gain;
        Ok(())
    }

    /// "Load bits (Q, k, one byte a bit). Refuses 3; 4; 7; 8 count not as above; 9 a byte above
    /// 1."
    pub fn load_bits(&mut self, q: u32, k: u32, bits: &[u8]) -> Result<(), u32> {
        check_code(q, k)?;
        let count = bit_count(self.settings.kind, q);
        let channel = self.open_code(q, k)?;
        if bits.len() != count {
            return Err(8);
        }
        if bits.iter().any(|&bit| bit > 1) {
            return Err(9);
        }
        channel.bits = bits.to_vec();
        Ok(())
    }

    /// "Set sync (case, frame, half, gP, gS); the group is the cell's. Refuses 13 type not 1; 14
    /// case not 1 or 2; 15 frame not 1 or 2, half above 1, or half 1 in case 1; 5 either gain."
    pub fn set_sync(&mut self, case: u32, frame: u32, half: u32, gp: u32, gs: u32) -> Result<(), u32> {
        if self.settings.kind != 1 {
            return Err(13);
        }
        check_case(case)?;
        check_timing(case, frame, half)?;
        check_gain(gp)?;
        check_gain(gs)?;
        self.settings.sync = Some(Sync { case, frame, half, gp, gs });
        Ok(())
    }

    /// "Clear sync refuses nothing."
    pub fn clear_sync(&mut self) -> Result<(), u32> {
        self.settings.sync = None;
        Ok(())
    }

    /// "Start copies settings to the air, position 0. Refuses 10 slot under way."
    pub fn start(&mut self) -> Result<(), u32> {
        if self.air.is_some() {
            return Err(10);
        }
        self.air = Some(Air { settings: self.settings.clone(), position: 0 });
        Ok(())
    }

    /// "Draw (re buffer, im buffer) writes the next chips, as many as the smaller of buffer length
    /// and chips left [...]. Later entries stay. It returns that count; after the last chip there
    /// is no slot. Length 0 returns 0. Refuses 11 no slot under way; 12 buffer lengths differ."
    pub fn draw(&mut self, re: &mut [i32], im: &mut [i32]) -> Result<usize, u32> {
        let Some(air) = &mut self.air else {
            return Err(11);
        };
        if re.len() != im.len() {
            return Err(12);
        }
        let count = re.len().min(SLOT - air.position);
        for n in 0..count {
            let chip = slot_chip(&air.settings, air.position + n);
            re[n] = chip.re;
            im[n] = chip.im;
        }
        air.position += count;
        if air.position == SLOT {
            self.air = None;
        }
        Ok(count)
    }
}
