//! The libraries' own functions and structs, as include/tdd_bench.h and include/tdd_codes.h declare them; the headers say what a caller owes. Nothing but
//! numbers is in a struct, so every pattern of bytes is a value of it.

#[repr(C)]
#[derive(Clone, Copy, Debug, PartialEq, Eq)]
pub struct Sync {
    pub on: u8,
    pub case: u32,
    pub frame: u32,
    pub half: u32,
    pub gp: u16,
    pub gs: u16,
}

#[repr(C)]
#[derive(Clone, Copy, Debug, PartialEq, Eq)]
pub struct Settings {
    pub cell: u32,
    pub kind: u32,
    pub gains: [u16; 31],
    pub pairs: [u8; 2208],
    pub sync: Sync,
}

#[repr(C)]
#[derive(Clone, Copy, Debug, PartialEq, Eq)]
pub struct Bench {
    pub settings: Settings,
    pub running: u8,
    pub sending: Settings,
    pub position: usize,
}

/// A record of a plan: code (q, k) with its gain.
#[repr(C)]
#[derive(Clone, Copy, Debug, PartialEq, Eq)]
pub struct Channel {
    pub q: u32,
    pub k: u32,
    pub gain: u32,
}

#[repr(C)]
#[derive(Clone, Copy, Debug, PartialEq, Eq)]
pub struct PlanRecords {
    pub records: [Channel; 17],
}

#[repr(C)]
#[derive(Clone, Copy, Debug, PartialEq, Eq)]
pub struct CallResult {
    pub refusal: u32,
    pub bench: Bench,
}

#[repr(C)]
#[derive(Clone, Copy, Debug, PartialEq, Eq)]
pub struct PlanResult {
    pub refusal: u32,
    pub place: usize,
    pub bench: Bench,
}

#[repr(C)]
#[derive(Clone, Copy, Debug, PartialEq, Eq)]
pub struct DrawResult {
    pub refusal: u32,
    pub count: usize,
    pub bench: Bench,
}

#[repr(C)]
#[derive(Clone, Copy, Debug, PartialEq, Eq)]
pub struct SyncResult {
    pub refusal: u32,
    pub group: u32,
    pub frame: u32,
    pub half: u32,
}

#[repr(C)]
#[derive(Clone, Copy, Debug, PartialEq, Eq)]
pub struct FindResult {
    pub refusal: u32,
    pub start: usize,
    pub size: i64,
}

/// A whole-number complex value.
#[repr(C)]
#[derive(Clone, Copy, Debug, PartialEq, Eq)]
pub struct Complex {
    pub re: i32,
    pub im: i32,
}

#[repr(C)]
#[derive(Clone, Copy, Debug, PartialEq, Eq)]
pub struct ElementResult {
    pub refusal: u32,
    pub element: i32,
}

#[repr(C)]
#[derive(Clone, Copy, Debug, PartialEq, Eq)]
pub struct RelatedResult {
    pub refusal: u32,
    pub related: u32,
}

#[repr(C)]
#[derive(Clone, Copy, Debug, PartialEq, Eq)]
pub struct GroupResult {
    pub refusal: u32,
    pub group: u32,
}

#[repr(C)]
#[derive(Clone, Copy, Debug, PartialEq, Eq)]
pub struct ChipResult {
    pub refusal: u32,
    pub chip: Complex,
}

/// A secondary sync code's number with the unit that modulates it.
#[repr(C)]
#[derive(Clone, Copy, Debug, PartialEq, Eq)]
pub struct ModulatedCode {
    pub code: u32,
    pub unit: Complex,
}

/// The three codes that a code group sends beside the primary code: the pair, then the marker.
#[repr(C)]
#[derive(Clone, Copy, Debug, PartialEq, Eq)]
pub struct Allocated {
    pub first: ModulatedCode,
    pub second: ModulatedCode,
    pub marker: ModulatedCode,
}

#[repr(C)]
#[derive(Clone, Copy, Debug, PartialEq, Eq)]
pub struct AllocationResult {
    pub refusal: u32,
    pub codes: Allocated,
}

#[repr(C)]
#[derive(Clone, Copy, Debug, PartialEq, Eq)]
pub struct StartResult {
    pub refusal: u32,
    pub start: u32,
}

// Calls without a pointer are safe: they take any numbers. Of a pointer the caller owes that it is aligned, that as many entries are there as the length
// beside it says, and that what is written overlaps nothing else that the call was given.
unsafe extern "C" {
    pub safe fn tdd_bench_fresh() -> Bench;
    pub safe fn tdd_bench_set_cell(bench: Bench, cell: u32, kind: u32) -> CallResult;
    pub safe fn tdd_bench_open(bench: Bench, q: u32, k: u32, gain: u32) -> CallResult;
    pub safe fn tdd_bench_load_records(bench: Bench, plan: PlanRecords, count: usize) -> PlanResult;
    pub safe fn tdd_bench_close(bench: Bench, q: u32, k: u32) -> CallResult;
    pub safe fn tdd_bench_set_gain(bench: Bench, q: u32, k: u32, gain: u32) -> CallResult;
    pub fn tdd_bench_load_bits(bench: Bench, q: u32, k: u32, bits: *const u8, count: usize) -> CallResult;
    pub safe fn tdd_bench_set_sync(bench: Bench, case: u32, frame: u32, half: u32, gp: u32, gs: u32) -> CallResult;
    pub safe fn tdd_bench_clear_sync(bench: Bench) -> CallResult;
    pub safe fn tdd_bench_start(bench: Bench) -> CallResult;
    pub fn tdd_bench_draw(bench: Bench, re: *mut i32, re_length: usize, im: *mut i32, im_length: usize) -> DrawResult;

    pub fn tdd_read(
        cell: u32,
        q: u32,
        k: u32,
        re: *const i32,
        re_length: usize,
        im: *const i32,
        im_length: usize,
        out_re: *mut i32,
        out_re_length: usize,
        out_im: *mut i32,
        out_im_length: usize,
    ) -> u32;
    pub fn tdd_harden(
        re: *const i32,
        re_length: usize,
        im: *const i32,
        im_length: usize,
        bits: *mut u8,
        bits_length: usize,
    ) -> u32;
    pub fn tdd_read_sync(case: u32, re: *const i32, re_length: usize, im: *const i32, im_length: usize) -> SyncResult;
    pub fn tdd_find(
        re: *const i32,
        re_length: usize,
        im: *const i32,
        im_length: usize,
        scratch_re: *mut i32,
        scratch_re_length: usize,
        scratch_im: *mut i32,
        scratch_im_length: usize,
    ) -> FindResult;

    pub safe fn tdd_element(q: u32, k: u32, chip: u32) -> ElementResult;
    pub safe fn tdd_related(q1: u32, k1: u32, q2: u32, k2: u32) -> RelatedResult;
    pub safe fn tdd_code_group(cell: u32) -> GroupResult;
    pub safe fn tdd_scrambling_chip(cell: u32, chip: u32) -> ChipResult;
    pub safe fn tdd_primary_chip(chip: u32) -> ChipResult;
    pub safe fn tdd_secondary_chip(number: u32, chip: u32) -> ChipResult;
    pub safe fn tdd_allocation(case: u32, group: u32, frame: u32, half: u32) -> AllocationResult;
    pub safe fn tdd_burst_start(group: u32) -> StartResult;
}
