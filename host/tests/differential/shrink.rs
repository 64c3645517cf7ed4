//! A failing list cut down to what it takes to fail, and its readable form.

use crate::calls::Call;

/// The call of a list at which it fails, by its place from 0, and what is wrong there.
pub struct Fault {
    pub place: usize,
    pub text: String,
}

/// Drops calls, many at once and then one by one, as long as the list still fails. `run` gives the list's fault; there must be one.
pub fn shrink(calls: &[Call], run: impl Fn(&[Call]) -> Option<Fault>) -> (Vec<Call>, Fault) {
    let mut fault = run(calls).expect("a failing list fails again");
    let mut list = calls[..=fault.place].to_vec();
    let mut piece = list.len();
    loop {
        let length = list.len();
        let mut from = 0;
        while from < list.len() {
            let to = list.len().min(from + piece);
            let shorter = [&list[..from], &list[to..]].concat();
            match run(&shorter) {
                Some(next) => (list, fault) = (shorter[..=next.place].to_vec(), next),
                None => from = to,
            }
        }
        if piece > 1 {
            piece /= 2;
        } else if list.len() == length {
            return (list, fault);
        }
    }
}

/// One call a line, and what is wrong with the last one.
pub fn readable(list: &[Call], fault: &Fault) -> String {
    let lines: Vec<String> = list.iter().enumerate().map(|(n, call)| format!("{:4}. {call}\n", n + 1)).collect();
    format!("{}at call {}: {}", lines.concat(), fault.place + 1, fault.text)
}
