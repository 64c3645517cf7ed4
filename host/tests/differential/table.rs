//! A fixed table of calls, each with what is due: the answer, and every entry of every lent buffer. It has what no script of the program can ask for:
//! unequal lengths, buffers too short or too long, readings of any 32 bits. tools/library_table.py makes it and knows nothing of the libraries or of the
//! reference here. The head of the table says how a row reads. The calls go to the raw exports.

use std::collections::BTreeMap;
use std::fmt::Debug;

use smugolec::ffi;

use crate::calls::Runs;
use crate::lent::{Lent, Unwritten};
use crate::tracker::SLOT;

use row::{Row, bench_call};

mod row;

const TABLE: &str = include_str!("table.txt");

type Check = fn(&mut Row) -> Result<(), String>;

/// The calls of the table, each with what it answers there: 0 where accepted, and the refusals of its list.
const CALLS: [(&str, Check, &[u32]); 5] = [
    ("read", read, &[0, 1, 3, 4, 12, 16, 17, 18]),
    ("harden", harden, &[0, 12, 18]),
    ("read-sync", read_sync, &[0, 12, 14, 16, 17, 19]),
    ("find", find, &[0, 12, 16, 17, 18]),
    ("draw", draw, &[0, 11, 12]),
];

fn same<T: Debug + PartialEq>(what: &str, found: T, due: T) -> Result<(), String> {
    if found == due { Ok(()) } else { Err(format!("{what}: found {found:?}, due {due:?}")) }
}

fn same_buffers<T: Unwritten>(what: &str, found: &[Lent<T>], due: &[Lent<T>]) -> Result<(), String> {
    for ((found, due), name) in found.iter().zip(due).zip(["re", "im"]) {
        found.difference(due).map_or(Ok(()), |text| Err(format!("{what} {name}, {text}")))?;
    }
    Ok(())
}

/// Where a lent buffer begins and how long it is, as the exports take it.
fn raw<T: Unwritten>(buffer: &mut Lent<T>) -> (*mut T, usize) {
    let part = buffer.lend();
    (part.as_mut_ptr(), part.len())
}

fn read(row: &mut Row) -> Result<(), String> {
    let [cell, q, k] = row.call.numbers("read")?;
    let mut field = row.inputs()?;
    let lengths = row.call.numbers("answers")?;
    let due = row.outputs(lengths)?;
    row.end()?;

    let (before, mut found) = (field.clone(), lengths.map(Lent::new));
    let [(re, re_length), (im, im_length)] = field.each_mut().map(raw);
    let [(to_re, to_re_length), (to_im, to_im_length)] = found.each_mut().map(raw);
    // SAFETY: the buffers have as many entries as is said, and overlap nothing.
    let refusal =
        unsafe { ffi::tdd_read(cell, q, k, re, re_length, im, im_length, to_re, to_re_length, to_im, to_im_length) };
    same("the refusal", refusal, row.refusal)?;
    same_buffers("the answer's", &found, &due)?;
    same_buffers("the field's", &field, &before)
}

fn harden(row: &mut Row) -> Result<(), String> {
    let [] = row.call.numbers::<u32, 0>("harden")?;
    let mut readings = row.inputs()?;
    let [length] = row.call.numbers("bytes")?;
    let [due] = if row.refusal == 0 { [row.due.output("bits", length)?] } else { row.kept([length])? };
    row.end()?;

    let (before, mut found) = (readings.clone(), Lent::<u8>::new(length));
    let [(re, re_length), (im, im_length)] = readings.each_mut().map(raw);
    let (to, to_length) = raw(&mut found);
    // SAFETY: the buffers have as many entries as is said, and overlap nothing.
    let refusal = unsafe { ffi::tdd_harden(re, re_length, im, im_length, to, to_length) };
    same("the refusal", refusal, row.refusal)?;
    found.difference(&due).map_or(Ok(()), |text| Err(format!("the bits, {text}")))?;
    same_buffers("the readings'", &readings, &before)
}

fn read_sync(row: &mut Row) -> Result<(), String> {
    let [case] = row.call.numbers("read-sync")?;
    let mut chips = row.inputs()?;
    let mut due = ffi::SyncResult { refusal: row.refusal, group: 0, frame: 0, half: 0 };
    if row.refusal == 0 {
        [due.group, due.frame, due.half] = row.due.named(["group", "frame", "half"])?;
    }
    row.end()?;

    let before = chips.clone();
    let [(re, re_length), (im, im_length)] = chips.each_mut().map(raw);
    // SAFETY: the buffers have as many entries as is said, and nothing is written.
    let found = unsafe { ffi::tdd_read_sync(case, re, re_length, im, im_length) };
    same("the answer", found, due)?;
    same_buffers("the chips'", &chips, &before)
}

fn find(row: &mut Row) -> Result<(), String> {
    let [] = row.call.numbers::<u32, 0>("find")?;
    let mut recording = row.inputs()?;
    let lengths = row.call.numbers("scratch")?;
    let mut due = ffi::FindResult { refusal: row.refusal, start: 0, size: 0 };
    if row.refusal == 0 {
        let [start, size] = row.due.named(["at", "size"])?;
        (due.start, due.size) = (start, size as i64);
    } else {
        row.kept::<i32, 2>(lengths)?;
    }
    row.end()?;

    let (before, mut scratch) = (recording.clone(), lengths.map(Lent::new));
    let [(re, re_length), (im, im_length)] = recording.each_mut().map(raw);
    let [(to_re, to_re_length), (to_im, to_im_length)] = scratch.each_mut().map(raw);
    // SAFETY: the buffers have as many entries as is said, and overlap nothing.
    let found = unsafe { ffi::tdd_find(re, re_length, im, im_length, to_re, to_re_length, to_im, to_im_length) };
    same("the answer", found, due)?;
    if due.refusal == 0 {
        scratch.iter_mut().for_each(Lent::forget); // an accepted find may write any of it, but nothing around it
    }
    same_buffers("the scratch's", &scratch, &lengths.map(Lent::new))?;
    same_buffers("the recording's", &recording, &before)
}

/// A fresh bench after the calls of a part.
fn bench_after(words: &[&str]) -> Result<ffi::Bench, String> {
    let (calls, mut bench) = (words.join(" "), ffi::tdd_bench_fresh());
    for text in calls.split(", ").filter(|&text| text != "fresh") {
        let outcome = bench.run(&bench_call(text)?);
        same(&format!("the refusal of {text}"), outcome.answer.refusal, 0)?;
    }
    Ok(bench)
}

/// How many chips of its slot a bench still has to send; none where no slot is under way.
fn chips_left(bench: &ffi::Bench) -> usize {
    if bench.running == 0 { 0 } else { SLOT.saturating_sub(bench.position) }
}

fn draw(row: &mut Row) -> Result<(), String> {
    let lengths = row.call.numbers("draw")?;
    let bench = bench_after(&row.call.words("after")?)?;
    let (mut count, mut left) = (0, chips_left(&bench));
    if row.refusal == 0 {
        [count, left] = row.due.named(["count", "left"])?;
    }
    let due = row.outputs(lengths)?;
    row.end()?;

    let mut found = lengths.map(Lent::new);
    let [(re, re_length), (im, im_length)] = found.each_mut().map(raw);
    // SAFETY: the buffers have as many entries as is said, and overlap nothing.
    let result = unsafe { ffi::tdd_bench_draw(bench, re, re_length, im, im_length) };
    same("the refusal and the count", (result.refusal, result.count), (row.refusal, count))?;
    same("the chips left", chips_left(&result.bench), left)?;
    same_buffers("the chips'", &found, &due)?;
    // Of the bench an accepted draw changes two fields, a refused one none.
    let kept = match row.refusal {
        0 => ffi::Bench { running: bench.running, position: bench.position, ..result.bench },
        _ => result.bench,
    };
    if kept == bench { Ok(()) } else { Err("found another bench, due the one that was given".into()) }
}

/// By call and refusal, 0 where it was accepted: how many rows there are.
type Answers = BTreeMap<&'static str, BTreeMap<u32, usize>>;

/// Makes the call of a row, compares, and counts the row.
fn check(line: &str, answers: &mut Answers) -> Result<(), String> {
    let mut row = Row::of(line)?;
    let call = line.split([' ', ';']).next().unwrap_or_default();
    let (name, check, _) = CALLS.iter().find(|(name, ..)| *name == call).ok_or("not understood: no such call")?;
    *answers.entry(name).or_default().entry(row.refusal).or_default() += 1;
    check(&mut row)
}

#[test]
fn every_row_is_as_due() {
    let (mut answers, mut faults) = (Answers::new(), Vec::new());
    for (n, line) in TABLE.lines().enumerate().filter(|(_, line)| !line.starts_with('#')) {
        let checked = check(line, &mut answers);
        faults.extend(checked.err().map(|fault| format!("line {}: {line}\n    {fault}", n + 1)));
    }
    for (name, answers) in &answers {
        let rows: usize = answers.values().sum();
        println!("table: {rows} rows of {name}, by refusal, 0 where accepted: {answers:?}");
    }
    assert!(faults.is_empty(), "{} of the rows of table.txt are not as due:\n{}", faults.len(), faults.join("\n"));
    for (name, _, due) in CALLS {
        let found: Vec<u32> = answers.remove(name).unwrap_or_default().into_keys().collect();
        assert_eq!(found, due, "the answers of {name} in table.txt: left is found, right is due");
    }
}
