//! Document 01, "Codes and their tree".

use std::sync::LazyLock;

use super::annex_a::ROWS;
use super::complex::{Complex, J, ONE};

/// "spreading factor Q in 1, 2, 4, 8, 16"
const SPREADING_FACTORS: [u32; 5] = [1, 2, 4, 8, 16];

/// "3 bad Q; 4 k not below Q"
pub(super) fn check_code(q: u32, k: u32) -> Result<(), u32> {
    if !SPREADING_FACTORS.contains(&q) {
        return Err(3);
    }
    if k >= q {
        return Err(4);
    }
    Ok(())
}

/// "1 parameter above 127"
pub(super) fn check_cell(cell: u32) -> Result<(), u32> {
    if cell > 127 {
        return Err(1);
    }
    Ok(())
}

/// "Code (1, 0) is 1. Code (2Q, 2k) is code (Q, k) twice; code (2Q, 2k+1) is code (Q, k) followed
/// by its negative"
fn grow(q: u32, k: u32) -> Vec<i32> {
    if q == 1 {
        return vec![1];
    }
    let mut code = grow(q / 2, k / 2);
    let sign = if k.is_multiple_of(2) { 1 } else { -1 };
    let second_half: Vec<i32> = code.iter().map(|element| sign * element).collect();
    code.extend(second_half);
    code
}

/// Every code of the tree: level by level, in each level by index.
static TREE: LazyLock<[Vec<Vec<i32>>; 5]> =
    LazyLock::new(|| SPREADING_FACTORS.map(|q| (0..q).map(|k| grow(q, k)).collect()));

/// Code (Q, k), which must be a code.
pub(super) fn code(q: u32, k: u32) -> &'static [i32] {
    let level = match q {
        1 => 0,
        2 => 1,
        4 => 2,
        8 => 3,
        16 => 4,
        _ => panic!("no spreading factor"),
    };
    &TREE[level][k as usize]
}

/// Element `chip` (from 0) of channelisation code (Q, k). Refuses 3; 4; "16 for a chip index past
/// the code's end".
pub fn element(q: u32, k: u32, chip: u32) -> Result<i32, u32> {
    check_code(q, k)?;
    if chip >= q {
        return Err(16);
    }
    Ok(code(q, k)[chip as usize])
}

/// Code (q1, k1) is code (q2, k2) or lies above it: one of the codes met on the way from (q2, k2)
/// to the top, where the code above (2Q, 2k) and (2Q, 2k+1) is (Q, k).
fn equal_or_above(q1: u32, k1: u32, q2: u32, k2: u32) -> bool {
    if (q1, k1) == (q2, k2) {
        return true;
    }
    q2 > 1 && equal_or_above(q1, k1, q2 / 2, k2 / 2)
}

/// "Two codes are related when they are equal or one lies above the other in this tree." Refuses
/// "3 and 4 for each code in turn".
pub fn related(q1: u32, k1: u32, q2: u32, k2: u32) -> Result<bool, u32> {
    check_code(q1, k1)?;
    check_code(q2, k2)?;
    Ok(equal_or_above(q1, k1, q2, k2) || equal_or_above(q2, k2, q1, k1))
}

/// "The code group of p is p div 4". Refuses 1.
pub fn code_group(cell: u32) -> Result<u32, u32> {
    check_cell(cell)?;
    Ok(cell / 4)
}

/// j^i.
fn power_of_j(i: usize) -> Complex {
    match i % 4 {
        0 => ONE,
        1 => J,
        2 => -ONE,
        _ => -J,
    }
}

/// "Scrambling code p [...] is row p of Annex A [...], v1 to v16; its complex element i is j^i
/// times vi, i from 1."
fn scramble_row(row: &str) -> Vec<Complex> {
    row.split_whitespace()
        .enumerate()
        .map(|(place, v)| {
            let unit = power_of_j(place + 1);
            match v {
                "1" => unit,
                "-1" => -unit,
                _ => panic!("no sign"),
            }
        })
        .collect()
}

/// The complex scrambling codes by cell parameter.
static SCRAMBLING: LazyLock<Vec<Vec<Complex>>> = LazyLock::new(|| ROWS.iter().map(|row| scramble_row(row)).collect());

/// The complex scrambling code of a cell parameter, which must be one.
pub(super) fn scrambling_code(cell: u32) -> &'static [Complex] {
    &SCRAMBLING[cell as usize]
}

/// Complex scrambling element 1 + `chip`. Refuses 1; 16 for a chip index past 15.
pub fn scrambling_chip(cell: u32, chip: u32) -> Result<Complex, u32> {
    check_cell(cell)?;
    if chip >= 16 {
        return Err(16);
    }
    Ok(scrambling_code(cell)[chip as usize])
}
