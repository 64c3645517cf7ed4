//! The analyser: read, harden, read sync, find. Complex values come as a re and an im buffer.
use crate::{CellParameter, CodeGroup, Refusal, ffi};

/// Reads code (q, k) from a field of 16 to 1104 chips; the readings, one for q chips, go to the first entries of the two answer buffers.
/// Refuses 1 parameter above 127; 3 bad q; 4 k not below q; 12 re and im differ in length; 16 length 0, above 1104 or no multiple of 16; 17 a component
/// outside -100000 to 100000; 18 an answer buffer shorter than length/q.
#[inline]
pub fn read(
    cell: CellParameter,
    q: u32,
    k: u32,
    re: &[i32],
    im: &[i32],
    out_re: &mut [i32],
    out_im: &mut [i32],
) -> Result<(), Refusal> {
    // SAFETY: the slices have as many entries as they say, and those lent to be written overlap nothing.
    Refusal::check(unsafe {
        ffi::tdd_read(
            cell.0,
            q,
            k,
            re.as_ptr(),
            re.len(),
            im.as_ptr(),
            im.len(),
            out_re.as_mut_ptr(),
            out_re.len(),
            out_im.as_mut_ptr(),
            out_im.len(),
        )
    })
}

/// Hard bits of readings, one byte a bit, two bits a reading: 00, 01, 10, 11 score im, re, -re, -im, and the earliest of the largest wins.
/// Refuses 12 re and im differ in length; 18 fewer than two bytes a reading.
#[inline]
pub fn harden(re: &[i32], im: &[i32], bits: &mut [u8]) -> Result<(), Refusal> {
    // SAFETY: as for `read`.
    Refusal::check(unsafe {
        ffi::tdd_harden(re.as_ptr(), re.len(), im.as_ptr(), im.len(), bits.as_mut_ptr(), bits.len())
    })
}

/// What a sync burst was sent for: the code group, the frame, 1 or 2, and the half, 0 for slot k and 1 for slot k+8.
#[derive(Clone, Copy, Debug, PartialEq, Eq)]
pub struct Candidate {
    pub group: CodeGroup,
    pub frame: u32,
    pub half: u32,
}

/// What the sync burst in 256 chips was sent for in a case, 1 or 2.
/// Refuses 14 case not 1 or 2; 12 re and im differ in length; 16 length not 256; 17 a component outside -100000 to 100000; 19 where no candidate beats all
/// others.
#[inline]
pub fn read_sync(case: u32, re: &[i32], im: &[i32]) -> Result<Candidate, Refusal> {
    // SAFETY: the slices have as many entries as they say, and nothing is written.
    let r = unsafe { ffi::tdd_read_sync(case, re.as_ptr(), re.len(), im.as_ptr(), im.len()) };
    Refusal::check(r.refusal).map(|()| Candidate { group: CodeGroup(r.group), frame: r.frame, half: r.half })
}

/// The smallest start of 256 chips whose correlation with the primary sync code has the largest squared size, and that size.
#[derive(Clone, Copy, Debug, PartialEq, Eq)]
pub struct Peak {
    pub start: usize,
    pub size: i64,
}

/// Where the primary sync code is strongest in a recording of 256 to 5120 chips, and how strong. The last two buffers are scratch: 15 entries fewer than
/// the recording has chips are enough, and an accepted find may write any of them.
/// Refuses 12 re and im differ in length; 16 a recording shorter than 256 chips or longer than 5120; 17 a component outside -100000 to 100000; 18 a scratch
/// buffer too short.
#[inline]
pub fn find(re: &[i32], im: &[i32], scratch_re: &mut [i32], scratch_im: &mut [i32]) -> Result<Peak, Refusal> {
    // SAFETY: as for `read`.
    let r = unsafe {
        ffi::tdd_find(
            re.as_ptr(),
            re.len(),
            im.as_ptr(),
            im.len(),
            scratch_re.as_mut_ptr(),
            scratch_re.len(),
            scratch_im.as_mut_ptr(),
            scratch_im.len(),
        )
    };
    Refusal::check(r.refusal).map(|()| Peak { start: r.start, size: r.size })
}
