//! A row of the table, taken part by part from the left. What cannot be taken is not understood.

use std::str::{FromStr, Split};

use smugolec::Channel;

use crate::calls::Call;
use crate::lent::{Lent, Unwritten};

/// The parts of one side of a row that are still to be taken.
pub struct Parts<'a>(Split<'a, &'static str>);

pub struct Row<'a> {
    pub call: Parts<'a>,
    pub refusal: u32,
    pub due: Parts<'a>,
}

fn number<T: FromStr>(word: &str) -> Result<T, String> {
    word.parse().map_err(|_| format!("not understood: '{word}' is no number that fits here"))
}

fn numbers<T: FromStr>(words: &[&str]) -> Result<Vec<T>, String> {
    words.iter().map(|word| number(word)).collect()
}

/// The entries that the words stand for: `x` for one, `N*x,y` for x and y, N times over. None is an entry that the call keeps.
fn entries<T: FromStr + Copy>(words: &[&str]) -> Result<Vec<Option<T>>, String> {
    let entry = |word| if word == "kept" { Ok(None) } else { number(word).map(Some) };
    let mut entries = Vec::new();
    for word in words {
        let (times, several) = word.split_once('*').unwrap_or(("1", word));
        let several: Vec<Option<T>> = several.split(',').map(entry).collect::<Result<_, _>>()?;
        entries.extend(several.repeat(number(times)?));
    }
    Ok(entries)
}

impl<'a> Parts<'a> {
    /// The words after the name with which the next part begins.
    pub fn words(&mut self, name: &str) -> Result<Vec<&'a str>, String> {
        let part = self.0.next().unwrap_or("nothing");
        let mut words = part.split(' ');
        match words.next() {
            Some(first) if first == name => Ok(words.collect()),
            _ => Err(format!("not understood: {part}, where {name} is due")),
        }
    }

    pub fn numbers<T: FromStr, const N: usize>(&mut self, name: &str) -> Result<[T; N], String> {
        let numbers: Vec<T> = numbers(&self.words(name)?)?;
        numbers.try_into().map_err(|_| format!("not understood: {name} without its {N} numbers"))
    }

    /// The numbers of the next part, each with its name before it.
    pub fn named<T: FromStr, const N: usize>(&mut self, names: [&str; N]) -> Result<[T; N], String> {
        let part = self.0.next().unwrap_or("nothing");
        let words: Vec<&str> = part.split(' ').collect();
        let (found, values): (Vec<&str>, Vec<&str>) = words.chunks(2).map(|two| (two[0], two[two.len() - 1])).unzip();
        let unclear = format!("not understood: {part}, where {} are due", names.join(" and "));
        if found == names { numbers(&values)?.try_into().map_err(|_| unclear) } else { Err(unclear) }
    }

    /// A buffer that the call reads: its length, then its first entries; the others are 0.
    fn input(&mut self, name: &str) -> Result<Lent<i32>, String> {
        let words = self.words(name)?;
        let (length, first) = match &words[..] {
            [length] => (*length, &[][..]),
            [length, first @ ..] => (length.strip_suffix(':').unwrap_or("nothing"), first),
            [] => ("nothing", &[][..]),
        };
        let first: Vec<Option<i32>> = entries(first)?;
        let mut buffer = Lent::new(number(length)?);
        buffer.lend().fill(0);
        if first.len() > buffer.part().len() || first.contains(&None) {
            return Err(format!("not understood: {name} with more entries than its length, or with one that is kept"));
        }
        buffer.lend().iter_mut().zip(first.into_iter().flatten()).for_each(|(to, entry)| *to = entry);
        Ok(buffer)
    }

    /// What a buffer of this length holds after the call.
    pub fn output<T: FromStr + Unwritten>(&mut self, name: &str, length: usize) -> Result<Lent<T>, String> {
        let entries = entries(&self.words(name)?)?;
        if entries.len() != length {
            return Err(format!("not understood: {} entries of {name}, which has {length}", entries.len()));
        }
        let mut buffer = Lent::new(length);
        for (to, entry) in buffer.lend().iter_mut().zip(entries) {
            *to = entry.unwrap_or(*to);
        }
        Ok(buffer)
    }
}

impl<'a> Row<'a> {
    pub fn of(line: &'a str) -> Result<Row<'a>, String> {
        let (call, due) = line.split_once(" -> ").ok_or("not understood: a row without an arrow")?;
        let mut due = Parts(due.split("; "));
        let refusal = number(due.0.next().unwrap_or_default())?;
        Ok(Row { call: Parts(call.split("; ")), refusal, due })
    }

    /// The re and the im buffer that the call reads.
    pub fn inputs(&mut self) -> Result<[Lent<i32>; 2], String> {
        Ok([self.call.input("re")?, self.call.input("im")?])
    }

    /// What the re and the im buffer of these lengths hold after the call; a refused one keeps them.
    pub fn outputs(&mut self, lengths: [usize; 2]) -> Result<[Lent<i32>; 2], String> {
        match self.refusal {
            0 => Ok([self.due.output("re", lengths[0])?, self.due.output("im", lengths[1])?]),
            _ => self.kept(lengths),
        }
    }

    pub fn kept<T: Unwritten, const N: usize>(&mut self, lengths: [usize; N]) -> Result<[Lent<T>; N], String> {
        let [] = self.due.numbers::<u32, 0>("kept")?;
        Ok(lengths.map(Lent::new))
    }

    /// Every part is taken.
    pub fn end(&mut self) -> Result<(), String> {
        match self.call.0.next().or(self.due.0.next()) {
            Some(part) => Err(format!("not understood: {part}, where nothing more is due")),
            None => Ok(()),
        }
    }
}

/// A call in the form of the program's scripts.
pub fn bench_call(text: &str) -> Result<Call, String> {
    let words: Vec<&str> = text.split(' ').collect();
    let numbers: Vec<u32> = numbers(&words[1..])?;
    match (words[0], &numbers[..]) {
        ("set-cell", &[cell, kind]) => Ok(Call::SetCell { cell, kind }),
        ("open", &[q, k, gain]) => Ok(Call::Open(Channel { q, k, gain })),
        ("close", &[q, k]) => Ok(Call::Close { q, k }),
        ("set-sync", &[case, frame, half, gp, gs]) => Ok(Call::SetSync { case, frame, half, gp, gs }),
        ("start", []) => Ok(Call::Start),
        ("draw", &[length]) => Ok(Call::Draw { re: length as usize, im: length as usize }),
        _ => Err(format!("not understood: {text}, where a bench call is due")),
    }
}
