//! The code rules: channelisation codes, scrambling codes, code groups, sync codes. Chips count from 0.
use crate::{CellParameter, CodeGroup, Complex, Refusal, ffi};

pub use crate::ffi::{Allocated, ModulatedCode};

/// Element `chip` of channelisation code (q, k): 1 or -1. Refuses 3 bad q; 4 k not below q; 16 chip past the end.
#[inline]
pub fn element(q: u32, k: u32, chip: u32) -> Result<i32, Refusal> {
    let r = ffi::tdd_element(q, k, chip);
    Refusal::check(r.refusal).map(|()| r.element)
}

/// Whether codes (q1, k1) and (q2, k2) are related. Refuses 3 and 4 of the first, then 3 and 4 of the second.
#[inline]
pub fn related(q1: u32, k1: u32, q2: u32, k2: u32) -> Result<bool, Refusal> {
    let r = ffi::tdd_related(q1, k1, q2, k2);
    Refusal::check(r.refusal).map(|()| r.related != 0)
}

/// The code group of a cell parameter. Refuses 1 parameter above 127.
#[inline]
pub fn code_group(cell: CellParameter) -> Result<CodeGroup, Refusal> {
    let r = ffi::tdd_code_group(cell.0);
    Refusal::check(r.refusal).map(|()| CodeGroup(r.group))
}

/// Chip `chip` of a cell parameter's scrambling code. Refuses 1 parameter above 127; 16 chip past the end.
#[inline]
pub fn scrambling_chip(cell: CellParameter, chip: u32) -> Result<Complex, Refusal> {
    chip_of(ffi::tdd_scrambling_chip(cell.0, chip))
}

/// Chip `chip` of the primary sync code. Refuses 16 chip past the end.
#[inline]
pub fn primary_chip(chip: u32) -> Result<Complex, Refusal> {
    chip_of(ffi::tdd_primary_chip(chip))
}

/// Chip `chip` of secondary sync code `number`. Refuses 16 for a number not listed or a chip past the end.
#[inline]
pub fn secondary_chip(number: u32, chip: u32) -> Result<Complex, Refusal> {
    chip_of(ffi::tdd_secondary_chip(number, chip))
}

fn chip_of(r: ffi::ChipResult) -> Result<Complex, Refusal> {
    Refusal::check(r.refusal).map(|()| r.chip)
}

/// The three codes that a group sends in a frame, 1 or 2, and a half, 0 for slot k and 1 for slot k+8. Refuses 1 group above 31; 14 case not 1 or 2; 15
/// frame not 1 or 2, half above 1, or half 1 in case 1.
#[inline]
pub fn allocation(case: u32, group: CodeGroup, frame: u32, half: u32) -> Result<Allocated, Refusal> {
    let r = ffi::tdd_allocation(case, group.0, frame, half);
    Refusal::check(r.refusal).map(|()| r.codes)
}

/// The chip of the slot at which a group's burst starts. Refuses 1 group above 31.
#[inline]
pub fn burst_start(group: CodeGroup) -> Result<u32, Refusal> {
    let r = ffi::tdd_burst_start(group.0);
    Refusal::check(r.refusal).map(|()| r.start)
}
