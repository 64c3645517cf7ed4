//! How the analyser's calls are held to the reference: inputs as data, many of them, and what their answers were.

use std::collections::BTreeMap;
use std::fmt::{Debug, Display};

use crate::chips::Chips;
use crate::lent::{Lent, Unwritten};
use crate::random::{Random, printed_seed};

const INPUTS: usize = 10_000;

/// What a call answers, and its answer or scratch buffers as it left them.
pub struct Outcome<A, T> {
    pub answer: Result<A, u32>,
    pub buffers: Vec<Lent<T>>,
}

/// An input of one of the calls.
pub trait Input: Display {
    type Answer: Debug + PartialEq;
    type Entry: Unwritten;

    fn random(random: &mut Random) -> Self;
    fn chips(&mut self) -> &mut Chips;
    fn library(&self) -> Outcome<Self::Answer, Self::Entry>;
    fn reference(&self) -> Outcome<Self::Answer, Self::Entry>;
}

fn difference<I: Input>(input: &I) -> Option<String> {
    difference_of(&input.library(), &input.reference())
}

fn difference_of<A: Debug + PartialEq, T: Unwritten>(found: &Outcome<A, T>, due: &Outcome<A, T>) -> Option<String> {
    if found.answer != due.answer {
        return Some(format!("found {:?}, due {:?}", found.answer, due.answer));
    }
    let mut buffers = found.buffers.iter().zip(&due.buffers).enumerate();
    buffers.find_map(|(n, (buffer, due))| Some(format!("buffer {n}, {}", buffer.difference(due)?)))
}

/// Silences stretches, long ones first, as long as the input still fails. A long input is left with short stretches, since each try takes its time.
fn quieten<I: Input>(input: &mut I) {
    let length = input.chips().re.len();
    let mut piece = length.max(1);
    while piece > length / 256 {
        for from in (0..length).step_by(piece) {
            let loud = input.chips().clone();
            input.chips().silence_part(from, from + piece);
            if difference(input).is_none() {
                *input.chips() = loud;
            }
        }
        piece /= 2;
    }
}

/// Holds the library to the reference on random inputs, shows each of them with its answer to `see`, and checks that the call was accepted often and gave
/// each refusal of its list and no other.
pub fn hold<I: Input>(test: &str, refusals: &[u32], mut see: impl FnMut(&I, &Outcome<I::Answer, I::Entry>)) {
    let seed = printed_seed(test);
    let mut answers = BTreeMap::new();
    for n in 0..INPUTS {
        let mut input = I::random(&mut Random::of(seed, n));
        let due = input.reference();
        if difference_of(&input.library(), &due).is_some() {
            quieten(&mut input);
            panic!("{test}: input {n} of TDD_SEED={seed}: {input}\n{}", difference(&input).unwrap());
        }
        *answers.entry(due.answer.as_ref().err().copied().unwrap_or(0)).or_insert(0) += 1;
        see(&input, &due);
    }
    println!("{test}: answers by refusal, 0 where accepted: {answers:?}");
    assert!(answers[&0] >= INPUTS / 4, "{test} was seldom accepted");
    for number in refusals {
        assert!(answers.get(number).is_some_and(|&times| times >= 50), "{test} seldom refused {number}");
    }
    assert_eq!(answers.len(), 1 + refusals.len(), "{test} gave {answers:?}");
}

/// How many arguments of a hundred an input has damaged: none, a few, or many, so that several conditions hold at once.
pub fn damage(random: &mut Random) -> usize {
    random.one_of(&[0, 0, 0, 10, 10, 40])
}

/// A buffer's length where `enough` entries are: enough or more, or too few.
pub fn buffer_length(random: &mut Random, enough: usize, too_few: bool) -> usize {
    let more = enough + random.below(50);
    if too_few {
        random.one_of(&[0, enough.saturating_sub(1), enough.saturating_sub(1), enough / 2])
    } else {
        random.one_of(&[enough, enough, enough + 1, more])
    }
}
