//! Buffers of which a middle part is lent to a call.

/// Entries on each side of the lent part. No call may touch them. An odd number, so that the lent part starts at no round address.
const MARGIN: usize = 67;

/// A buffer that holds values which no call writes, so that every written entry shows, in the lent part and around it.
#[derive(Clone, PartialEq)]
pub struct Lent<T> {
    entries: Vec<T>,
    length: usize,
}

/// A value that no call writes, one for each place.
pub trait Unwritten: Copy + PartialEq + std::fmt::Debug {
    fn unwritten(place: usize) -> Self;
}

impl Unwritten for i32 {
    fn unwritten(place: usize) -> i32 {
        0x5A00_0000 + place as i32
    }
}

impl Unwritten for u8 {
    fn unwritten(place: usize) -> u8 {
        2 + (place % 253) as u8
    }
}

impl<T: Unwritten> Lent<T> {
    pub fn new(length: usize) -> Lent<T> {
        Lent { entries: (0..length + 2 * MARGIN).map(T::unwritten).collect(), length }
    }

    pub fn lend(&mut self) -> &mut [T] {
        &mut self.entries[MARGIN..MARGIN + self.length]
    }

    pub fn part(&self) -> &[T] {
        &self.entries[MARGIN..MARGIN + self.length]
    }

    /// Takes back what was written to the lent part, where its contents are free.
    pub fn forget(&mut self) {
        for place in MARGIN..MARGIN + self.length {
            self.entries[place] = T::unwritten(place);
        }
    }

    /// Whether all entries but the first `count` of the lent part are as they were.
    pub fn unwritten_but(&self, count: usize) -> bool {
        let written = MARGIN..MARGIN + count;
        self.entries.iter().enumerate().all(|(place, &entry)| written.contains(&place) || entry == T::unwritten(place))
    }

    /// The first entry that is not as in `due`, by its place in the lent part.
    pub fn difference(&self, due: &Lent<T>) -> Option<String> {
        let place = (0..self.entries.len()).find(|&n| self.entries[n] != due.entries[n])?;
        let written = |entry: T| if entry == T::unwritten(place) { "as lent".into() } else { format!("{entry:?}") };
        let (found, due) = (written(self.entries[place]), written(due.entries[place]));
        let entry = place as isize - MARGIN as isize;
        Some(format!("entry {entry} of {} lent: found {found}, due {due}", self.length))
    }
}
