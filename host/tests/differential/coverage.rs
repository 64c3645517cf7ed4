//! What the lists came upon: a comparison that never sees a case proves nothing about it.

use std::collections::{BTreeMap, BTreeSet};
use std::fmt;

use crate::calls::{CALLS, Call, Outcome};
use crate::tracker::{Slot, Timing, Tracker};

#[derive(Default)]
pub struct Coverage {
    /// By call and refusal, 0 where it was accepted.
    answers: BTreeMap<(&'static str, u32), usize>,
    /// Refused plans by refusal and place.
    refused_plans: BTreeSet<(u32, usize)>,
    /// Plans by length and whether they were accepted.
    plan_lengths: BTreeSet<(bool, usize)>,
    /// Slots drawn to their end: by open codes, by codes with bits loaded, by type, by cell parameter where a code was open, by sync burst.
    slots_by_codes: BTreeMap<usize, usize>,
    slots_by_loaded: BTreeMap<usize, usize>,
    slots_by_kind: BTreeMap<u32, usize>,
    slots_by_cell: BTreeMap<u32, usize>,
    slots_by_burst: BTreeMap<(u32, Timing), usize>,
    /// Accepted calls but start and draw inside a slot.
    changes_in_slots: usize,
    chips: usize,
    chips_not_0: usize,
}

impl Coverage {
    pub fn count(&mut self, call: &Call, due: &Outcome, tracker: &mut Tracker) {
        let answer = &due.answer;
        *self.answers.entry((call.name(), answer.refusal)).or_default() += 1;
        let inside = tracker.slot.as_ref().is_some_and(|slot| slot.drawn > 0);
        if let Call::LoadPlan(plan) = call {
            self.plan_lengths.insert((answer.refusal == 0, plan.len()));
            if answer.refusal != 0 {
                self.refused_plans.insert((answer.refusal, answer.place));
            }
        }
        if inside && answer.refusal == 0 && !matches!(call, Call::Start | Call::Draw { .. }) {
            self.changes_in_slots += 1;
        }
        if let Some([re, im]) = &due.buffers {
            let chips = re.part()[..answer.count].iter().zip(im.part());
            self.chips += answer.count;
            self.chips_not_0 += chips.filter(|&(&re, &im)| (re, im) != (0, 0)).count();
        }
        if let Some(slot) = tracker.follow(call, answer) {
            self.count_slot(&slot);
        }
    }

    fn count_slot(&mut self, slot: &Slot) {
        *self.slots_by_codes.entry(slot.codes).or_default() += 1;
        *self.slots_by_loaded.entry(slot.loaded).or_default() += 1;
        *self.slots_by_kind.entry(slot.kind).or_default() += 1;
        if slot.codes > 0 {
            *self.slots_by_cell.entry(slot.cell).or_default() += 1;
        }
        if let Some(timing) = slot.sync {
            *self.slots_by_burst.entry((slot.cell / 4, timing)).or_default() += 1;
        }
    }

    /// Each call was accepted and gave every refusal of its list, so often, and gave no other.
    pub fn check_refusals(&self, often: usize) {
        for (name, refusals) in CALLS {
            for &number in [0].iter().chain(refusals) {
                let times = self.answers.get(&(name, number)).copied().unwrap_or(0);
                assert!(times >= often, "{name} answered {number} {times} times");
            }
        }
        let listed: usize = CALLS.iter().map(|(_, refusals)| 1 + refusals.len()).sum();
        assert_eq!(self.answers.len(), listed, "{:?}", self.answers);
    }

    pub fn check(&self) {
        self.check_refusals(100);
        for (name, _) in CALLS {
            assert!(self.answers[&(name, 0)] >= 1000, "{name} was seldom accepted");
        }
        self.check_plans();
        for codes in 0..=16 {
            assert!(self.slots_by_codes.get(&codes).is_some_and(|&slots| slots >= 50), "slots of {codes} codes");
            assert!(self.slots_by_loaded.contains_key(&codes), "slots of {codes} codes with bits");
        }
        assert_eq!(self.slots_by_kind.keys().copied().collect::<Vec<_>>(), [1, 2, 3], "slots by type");
        assert_eq!(self.slots_by_cell.len(), 128, "slots by cell parameter");
        // Of 32 groups with 2 timings of case 1 and 4 of case 2.
        assert!(self.slots_by_burst.len() >= 150, "slots by sync burst");
        assert!(self.changes_in_slots >= 10_000, "settings changed inside slots");
        assert!(self.chips_not_0 >= 5_000_000, "chips that are not 0");
    }

    /// Plans of every length, and of 3, 4, 5, 6 each at every place: only the first record cannot be related to an earlier one.
    fn check_plans(&self) {
        for place in 0..=16 {
            for number in 3..=6 {
                let can_be = number != 6 || place > 0;
                assert_eq!(self.refused_plans.contains(&(number, place)), can_be, "refusal {number} at place {place}");
            }
        }
        let accepted = (0..=16).map(|length| (true, length));
        let refused = (1..=40).map(|length| (false, length));
        assert_eq!(self.plan_lengths, accepted.chain(refused).collect(), "plans by acceptance and length");
    }
}

impl fmt::Display for Coverage {
    fn fmt(&self, f: &mut fmt::Formatter) -> fmt::Result {
        let calls: usize = self.answers.values().sum();
        writeln!(f, "{calls} calls, {} inside slots changed the settings", self.changes_in_slots)?;
        for (name, _) in CALLS {
            let answers = self.answers.iter().filter(|((call, _), _)| *call == name);
            let times: Vec<String> = answers.map(|((_, number), times)| format!("{number}: {times}")).collect();
            writeln!(f, "  {name}: {}", times.join(", "))?;
        }
        writeln!(f, "whole slots by open codes: {:?}", self.slots_by_codes)?;
        writeln!(f, "whole slots by codes with bits loaded: {:?}", self.slots_by_loaded)?;
        writeln!(f, "whole slots by type: {:?}", self.slots_by_kind)?;
        let bursts: usize = self.slots_by_burst.values().sum();
        writeln!(f, "whole slots with a sync burst: {bursts}, of {} sorts", self.slots_by_burst.len())?;
        write!(f, "{} chips, {} of them not 0", self.chips, self.chips_not_0)
    }
}
