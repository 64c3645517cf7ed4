//! What a list of calls has come to, as far as the next calls are chosen by it and the coverage counts it. Nothing is compared with it.

use std::collections::BTreeSet;

use crate::calls::{Answer, Call};

pub const SLOT: usize = 2560;

/// Case, frame and half of a sync burst.
pub type Timing = (u32, u32, u32);

/// A slot under way, with what it was started with.
#[derive(Clone)]
pub struct Slot {
    pub cell: u32,
    pub kind: u32,
    pub codes: usize,
    /// How many of its codes had bits loaded.
    pub loaded: usize,
    pub sync: Option<Timing>,
    pub drawn: usize,
}

#[derive(Clone)]
pub struct Tracker {
    pub cell: u32,
    pub kind: u32,
    pub open: Vec<(u32, u32)>,
    pub loaded: BTreeSet<(u32, u32)>,
    pub sync: Option<Timing>,
    pub slot: Option<Slot>,
}

impl Tracker {
    pub fn fresh() -> Tracker {
        Tracker { cell: 0, kind: 1, open: Vec::new(), loaded: BTreeSet::new(), sync: None, slot: None }
    }

    /// The chips left of the slot under way.
    pub fn left(&self) -> usize {
        self.slot.as_ref().map_or(0, |slot| SLOT - slot.drawn)
    }

    /// Follows a call with its answer. Gives back the slot if this call drew its last chip.
    pub fn follow(&mut self, call: &Call, answer: &Answer) -> Option<Slot> {
        if answer.refusal != 0 {
            return None;
        }
        match call {
            Call::SetCell { cell, kind } => {
                *self = Tracker { cell: *cell, kind: *kind, slot: self.slot.take(), ..Tracker::fresh() };
            }
            Call::Open(channel) => self.open.push((channel.q, channel.k)),
            Call::LoadPlan(plan) => {
                self.open = plan.iter().map(|channel| (channel.q, channel.k)).collect();
                self.loaded.clear();
            }
            Call::Close { q, k } => {
                self.open.retain(|code| *code != (*q, *k));
                self.loaded.remove(&(*q, *k));
            }
            Call::SetGain(_) => {}
            Call::LoadBits { q, k, .. } => _ = self.loaded.insert((*q, *k)),
            Call::SetSync { case, frame, half, .. } => self.sync = Some((*case, *frame, *half)),
            Call::ClearSync => self.sync = None,
            Call::Start => self.slot = Some(self.started()),
            Call::Draw { .. } => return self.drew(answer.count),
        }
        None
    }

    fn started(&self) -> Slot {
        let Tracker { cell, kind, sync, .. } = *self;
        Slot { cell, kind, codes: self.open.len(), loaded: self.loaded.len(), sync, drawn: 0 }
    }

    fn drew(&mut self, count: usize) -> Option<Slot> {
        self.slot.as_mut()?.drawn += count;
        if self.left() == 0 { self.slot.take() } else { None }
    }
}
