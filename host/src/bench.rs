//! The bench: settings, and the slot under way.
use crate::ffi::{self, CallResult, PlanRecords};
use crate::{CellParameter, PlanRefusal, Refusal};

pub use crate::ffi::Channel;

/// The timeslot bench. While a slot is under way the calls change the settings of the next one: a slot keeps those of its start.
/// Equal benches answer alike; so may benches that are not equal, since what a closed code or a slot that has ended left behind is not seen.
#[derive(Clone, Debug, PartialEq, Eq)]
pub struct Bench(ffi::Bench);

impl Bench {
    /// Parameter 0, type 1, nothing open, no sync, no slot.
    #[inline]
    pub fn fresh() -> Bench {
        Bench(ffi::tdd_bench_fresh())
    }

    /// A bench that a host kept as the library's struct. Every pattern of bytes is one.
    #[inline]
    pub fn from_ffi(bench: ffi::Bench) -> Bench {
        Bench(bench)
    }

    /// The library's struct.
    #[inline]
    pub fn as_ffi(&self) -> &ffi::Bench {
        &self.0
    }

    fn take(&mut self, result: CallResult) -> Result<(), Refusal> {
        self.0 = result.bench;
        Refusal::check(result.refusal)
    }

    /// Closes every code and clears sync. Refuses 1 parameter above 127; 2 type not 1, 2, 3.
    #[inline]
    pub fn set_cell(&mut self, cell: CellParameter, kind: u32) -> Result<(), Refusal> {
        self.take(ffi::tdd_bench_set_cell(self.0, cell.0, kind))
    }

    /// Opens code (q, k) with bits all 0. Refuses 3 bad q; 4 k not below q; 5 gain not 1 to 4095; 6 related to an open code.
    #[inline]
    pub fn open(&mut self, q: u32, k: u32, gain: u32) -> Result<(), Refusal> {
        self.take(ffi::tdd_bench_open(self.0, q, k, gain))
    }

    /// Replaces all open codes by those of the plan, with bits all 0, or changes nothing. Refuses 3, 4, 5, 6 as open would for the first record that
    /// fails, taken in order against earlier records only. An empty plan closes every code.
    #[inline]
    pub fn load_plan(&mut self, plan: &[Channel]) -> Result<(), PlanRefusal> {
        let mut first = PlanRecords { records: [Channel { q: 0, k: 0, gain: 0 }; 17] };
        for (to, from) in first.records.iter_mut().zip(plan) {
            *to = *from;
        }
        let result = ffi::tdd_bench_load_records(self.0, first, plan.len());
        self.0 = result.bench;
        Refusal::check(result.refusal).map_err(|refusal| PlanRefusal { refusal, place: result.place })
    }

    /// Closes code (q, k). Refuses 3; 4; 7 code not open.
    #[inline]
    pub fn close(&mut self, q: u32, k: u32) -> Result<(), Refusal> {
        self.take(ffi::tdd_bench_close(self.0, q, k))
    }

    /// A new gain for an open code, which keeps its bits. Refuses 3; 4; 5; 7.
    #[inline]
    pub fn set_gain(&mut self, q: u32, k: u32, gain: u32) -> Result<(), Refusal> {
        self.take(ffi::tdd_bench_set_gain(self.0, q, k, gain))
    }

    /// One byte a bit, field 1's first. Refuses 3; 4; 7; 8 count not 2(F1+F2)/q, F1 and F2 being the field lengths; 9 a byte above 1.
    #[inline]
    pub fn load_bits(&mut self, q: u32, k: u32, bits: &[u8]) -> Result<(), Refusal> {
        // SAFETY: the slice has as many entries as it says, and nothing is written.
        self.take(unsafe { ffi::tdd_bench_load_bits(self.0, q, k, bits.as_ptr(), bits.len()) })
    }

    /// The burst of the cell's code group. Refuses 13 type not 1; 14 case not 1 or 2; 15 frame not 1 or 2, half above 1, or half 1 in case 1; 5 either
    /// gain.
    #[inline]
    pub fn set_sync(&mut self, case: u32, frame: u32, half: u32, gp: u32, gs: u32) -> Result<(), Refusal> {
        self.take(ffi::tdd_bench_set_sync(self.0, case, frame, half, gp, gs))
    }

    /// Sends no sync burst. Refuses nothing.
    #[inline]
    pub fn clear_sync(&mut self) -> Result<(), Refusal> {
        self.take(ffi::tdd_bench_clear_sync(self.0))
    }

    /// Starts a slot of 2,560 chips, which keeps the settings of now. Refuses 10 slot under way.
    #[inline]
    pub fn start(&mut self) -> Result<(), Refusal> {
        self.take(ffi::tdd_bench_start(self.0))
    }

    /// Writes the next chips of the slot under way, as many as the smaller of buffer length and chips left, and answers that count; later entries stay,
    /// and after the last chip there is no slot. Refuses 11 no slot under way; 12 buffer lengths differ.
    #[inline]
    pub fn draw(&mut self, re: &mut [i32], im: &mut [i32]) -> Result<usize, Refusal> {
        // SAFETY: the slices have as many entries as they say, and, lent to be written, overlap nothing.
        let result = unsafe { ffi::tdd_bench_draw(self.0, re.as_mut_ptr(), re.len(), im.as_mut_ptr(), im.len()) };
        // Of the bench a draw changes these two alone (law `draw_keeps`), so the rest, some 4.6 KB, is not copied back for every piece.
        self.0.running = result.bench.running;
        self.0.position = result.bench.position;
        Refusal::check(result.refusal).map(|()| result.count)
    }
}
