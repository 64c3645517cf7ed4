//! Read: a code's readings from a field.

use std::collections::BTreeSet;
use std::fmt;

use smugolec::{CellParameter, analyser};

use crate::analyser::{Input, Outcome, buffer_length, damage, hold};
use crate::chips::{Chips, SLOTS};
use crate::lent::Lent;
use crate::random::Random;
use crate::reference;

struct Read {
    cell: u32,
    q: u32,
    k: u32,
    field: Chips,
    answers: [usize; 2],
}

/// A drawn field or a stretch of it from a multiple of 16 on, and mostly one of its own codes.
fn drawn_field(random: &mut Random) -> Read {
    let slot = &SLOTS[random.below(SLOTS.len())];
    let (start, length) = random.one_of(&slot.fields);
    let from = if random.chance(70) { 0 } else { 16 * random.below(length / 16) };
    let to = if random.chance(50) { length } else { from + 16 * (1 + random.below((length - from) / 16)) };
    let any = any_code(random);
    let (q, k) = if slot.codes.is_empty() { any } else { random.one_of(&slot.codes) };
    let (q, k) = random.one_of(&[(q, k), (q, k), any]);
    Read { cell: slot.cell, q, k, field: slot.chips.part(start + from, start + to), answers: [0; 2] }
}

fn any_code(random: &mut Random) -> (u32, u32) {
    let q = random.one_of(&[1, 2, 4, 8, 16]);
    (q, random.below(q as usize) as u32)
}

/// Any chips of any valid length, for any code.
fn any_field(random: &mut Random) -> Read {
    let any = 1 + random.below(69);
    let length = 16 * random.one_of(&[1, 2, 55, 61, 69, any, any, any]);
    let (q, k) = any_code(random);
    Read { cell: random.below(128) as u32, q, k, field: Chips::any(random, length), answers: [0; 2] }
}

impl Input for Read {
    type Answer = ();
    type Entry = i32;

    fn random(random: &mut Random) -> Read {
        let mut input = if random.chance(30) { drawn_field(random) } else { any_field(random) };
        let damage = damage(random);
        if random.chance(damage) {
            input.cell = random.past(128);
        }
        if random.chance(damage) {
            input.k = random.past(input.q);
        }
        if random.chance(damage) {
            input.q = random.past(17);
        }
        if random.chance(damage) {
            let any = random.below(1300);
            input.field.resize(random.one_of(&[0, 1, 8, 15, 17, 31, 1103, 1105, 1112, 1120, 1136, 4096, any]));
        }
        if random.chance(damage) {
            input.field.unequal(random);
        }
        if random.chance(damage) {
            input.field.spoil(random);
        }
        let enough = input.field.re.len() / input.q.max(1) as usize;
        input.answers = [(); 2].map(|()| {
            let too_few = random.chance(damage);
            buffer_length(random, enough, too_few)
        });
        input
    }

    fn chips(&mut self) -> &mut Chips {
        &mut self.field
    }

    fn library(&self) -> Outcome<(), i32> {
        let mut buffers = self.answers.map(Lent::new);
        let [out_re, out_im] = &mut buffers;
        let (cell, re, im) = (CellParameter(self.cell), &self.field.re, &self.field.im);
        let answer = analyser::read(cell, self.q, self.k, re, im, out_re.lend(), out_im.lend());
        Outcome { answer: answer.map_err(|refusal| refusal.0), buffers: buffers.into() }
    }

    fn reference(&self) -> Outcome<(), i32> {
        let mut buffers = self.answers.map(Lent::new);
        let [out_re, out_im] = &mut buffers;
        let (re, im) = (&self.field.re, &self.field.im);
        let answer = reference::read(self.cell, self.q, self.k, re, im, out_re.lend(), out_im.lend());
        Outcome { answer, buffers: buffers.into() }
    }
}

impl fmt::Display for Read {
    fn fmt(&self, f: &mut fmt::Formatter) -> fmt::Result {
        let [re, im] = self.answers;
        write!(f, "read cell {}, code ({}, {}), answers for {re} re and {im} im, field", self.cell, self.q, self.k)?;
        self.field.fmt(f)
    }
}

#[test]
fn random_fields() {
    let (mut cells, mut codes, mut lengths) = (BTreeSet::new(), BTreeSet::new(), BTreeSet::new());
    let mut readings_not_0 = 0;
    hold::<Read>("read", &[1, 3, 4, 12, 16, 17, 18], |input, due| {
        if due.answer.is_ok() {
            cells.insert(input.cell);
            codes.insert((input.q, input.k));
            lengths.insert(input.field.re.len());
            let readings = input.field.re.len() / input.q as usize;
            let [re, im] = [0, 1].map(|n| &due.buffers[n].part()[..readings]);
            readings_not_0 += re.iter().zip(im).filter(|&(&re, &im)| (re, im) != (0, 0)).count();
        }
    });
    assert_eq!(cells.len(), 128, "cell parameters of accepted reads");
    assert_eq!(codes.len(), 31, "codes of accepted reads");
    assert_eq!(lengths.len(), 69, "field lengths of accepted reads");
    assert!(readings_not_0 >= 500_000, "{readings_not_0} readings that are not 0");
}
