//! Harden: hard bits of readings.

use std::collections::BTreeMap;
use std::fmt;

use smugolec::analyser;

use crate::analyser::{Input, Outcome, buffer_length, damage, hold};
use crate::chips::Chips;
use crate::lent::Lent;
use crate::random::Random;
use crate::reference;

struct Harden {
    readings: Chips,
    bits: usize,
}

/// Readings of any 32 bits, the extremes, and small ones, which tie often.
fn component(random: &mut Random, sort: usize) -> i32 {
    match sort {
        0 => random.word() as i32,
        1 => random.within(-2, 2),
        2 => random.one_of(&[i32::MIN, i32::MIN + 1, -1, 0, 1, i32::MAX - 1, i32::MAX]),
        _ => random.within(-2_000_000, 2_000_000),
    }
}

impl Input for Harden {
    type Answer = ();
    type Entry = u8;

    fn random(random: &mut Random) -> Harden {
        let limit = random.one_of(&[2, 5, 70, 300, 1300]);
        let count = random.below(limit);
        let mut readings = Chips::silence(count);
        let sort = random.below(4);
        for n in 0..count {
            let re = component(random, sort);
            let im = component(random, sort);
            // As large as re, so that two pairs tie.
            let im = if random.chance(20) { random.one_of(&[re, re.wrapping_neg()]) } else { im };
            (readings.re[n], readings.im[n]) = (re, im);
        }
        let damage = damage(random);
        if random.chance(damage) {
            readings.unequal(random);
        }
        let too_few = random.chance(damage);
        let bits = buffer_length(random, 2 * readings.re.len(), too_few);
        Harden { readings, bits }
    }

    fn chips(&mut self) -> &mut Chips {
        &mut self.readings
    }

    fn library(&self) -> Outcome<(), u8> {
        let mut bits = Lent::new(self.bits);
        let answer = analyser::harden(&self.readings.re, &self.readings.im, bits.lend());
        Outcome { answer: answer.map_err(|refusal| refusal.0), buffers: vec![bits] }
    }

    fn reference(&self) -> Outcome<(), u8> {
        let mut bits = Lent::new(self.bits);
        let answer = reference::harden(&self.readings.re, &self.readings.im, bits.lend());
        Outcome { answer, buffers: vec![bits] }
    }
}

impl fmt::Display for Harden {
    fn fmt(&self, f: &mut fmt::Formatter) -> fmt::Result {
        write!(f, "harden into {} bytes, readings", self.bits)?;
        self.readings.fmt(f)
    }
}

#[test]
fn random_readings() {
    let mut pairs = BTreeMap::new();
    let (mut ties, mut empty) = (0, 0);
    hold::<Harden>("harden", &[12, 18], |input, due| {
        if due.answer.is_ok() {
            let Chips { re, im } = &input.readings;
            empty += usize::from(re.is_empty());
            for (n, bits) in due.buffers[0].part().chunks_exact(2).take(re.len()).enumerate() {
                *pairs.entry((bits[0], bits[1])).or_insert(0) += 1;
                ties += usize::from(re[n].unsigned_abs() == im[n].unsigned_abs());
            }
        }
    });
    println!("harden: {pairs:?}, {ties} ties");
    assert!(pairs.len() == 4 && pairs.values().all(|&times| times >= 10_000), "{pairs:?}");
    assert!(ties >= 10_000, "{ties} ties");
    assert!(empty >= 100, "{empty} times no readings");
}
