//! The ratios that the library is held to, as this run has them.
use crate::table;
use crate::timing::Measured;

/// What a row's library time is divided by: another form of the same row, or the library's time of another row.
enum By {
    Direct,
    Best,
    Row(&'static str),
}

/// A ratio and what it may be at most; of several rows the largest counts.
struct Target {
    what: &'static str,
    rows: &'static [&'static str],
    by: By,
    most: f64,
}

const WHOLE_SLOT: &str = "start + 1 draw of 2,560 chips, 16 codes of Q 16";
const ONE_CODE: [&str; 2] =
    ["start + 1 draw of 2,560 chips, 1 code of Q 16", "start + 1 draw of 2,560 chips, 1 code of Q 1"];
const IN_PIECES: &str = "start + 40 draws of 64 chips, 16 codes of Q 16";
const READ_SYNC: [&str; 2] = ["read sync, case 1", "read sync, case 2"];
const SETTINGS: [&str; 11] = [
    "set cell",
    "open, the last of 16 codes of Q 16",
    "open, refused 6",
    "open, refused 3",
    "close",
    "set gain",
    "set sync",
    "clear sync",
    "load plan, 16 codes of Q 16",
    "load plan, 4 codes of Q 4",
    "load plan, refused 6 at place 15",
];

const TARGETS: [Target; 12] = [
    Target { what: "a slot of 16 codes of Q 16 / direct", rows: &[WHOLE_SLOT], by: By::Direct, most: 0.1 },
    Target { what: "a slot of 16 codes of Q 16 / best", rows: &[WHOLE_SLOT], by: By::Best, most: 1.0 },
    Target { what: "a slot of 1 code / direct", rows: &ONE_CODE, by: By::Direct, most: 1.0 },
    Target { what: "a slot in 40 draws / in one", rows: &[IN_PIECES], by: By::Row(WHOLE_SLOT), most: 2.0 },
    Target { what: "read at Q 16 / direct", rows: &["read, 976 chips, Q 16"], by: By::Direct, most: 0.2 },
    Target { what: "read at Q 1 / direct", rows: &["read, 976 chips, Q 1"], by: By::Direct, most: 1.0 },
    Target { what: "harden / direct", rows: &["harden, 976 readings"], by: By::Direct, most: 1.0 },
    Target { what: "read sync / direct", rows: &READ_SYNC, by: By::Direct, most: 0.1 },
    Target { what: "find / direct", rows: &["find, 5,120 chips"], by: By::Direct, most: 0.05 },
    Target { what: "find / best", rows: &["find, 5,120 chips"], by: By::Best, most: 1.0 },
    Target { what: "load bits / direct", rows: &["load bits, 3,904 bytes for Q 1"], by: By::Direct, most: 2.0 },
    Target { what: "a call that only changes settings / direct", rows: &SETTINGS, by: By::Direct, most: 2.0 },
];

fn times<'a>(measured: &'a [Measured], name: &str) -> &'a [f64; 3] {
    &measured.iter().find(|row| row.0 == name).unwrap_or_else(|| panic!("there is no row \"{name}\"")).1
}

fn ratio(target: &Target, measured: &[Measured]) -> f64 {
    let of = |name: &&str| {
        let [library, direct, best] = times(measured, name);
        match target.by {
            By::Direct => library / direct,
            By::Best => library / best,
            By::Row(other) => library / times(measured, other)[0],
        }
    };
    target.rows.iter().map(of).fold(0.0, f64::max)
}

pub fn print(measured: &[Measured]) {
    let rows = TARGETS.iter().map(|target| {
        let ratio = ratio(target, measured);
        // As the two digits that are printed say.
        let met = if (ratio * 100.0).round() <= target.most * 100.0 { "yes" } else { "no" };
        [target.what.to_string(), format!("{:.2}", target.most), format!("{ratio:.2}"), met.to_string()]
    });
    println!();
    table::print_rows(["ratio", "at most", "here", "met"].map(String::from), rows.collect());
}
