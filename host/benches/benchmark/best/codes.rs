//! The code rules that gain by a table more.
use super::{check_code, check_timing};
use crate::Answer;
use crate::tables::{CODE_SETS, CODES, LEAVES, complex};
use smugolec::codes::{Allocated, ModulatedCode};

/// Case 1 by group and frame, then case 2 by group, frame and half.
static ALLOCATIONS: [Allocated; 192] = allocations();

const fn modulated(code: u32, imaginary: bool, negative: bool) -> ModulatedCode {
    let sign = if negative { -1 } else { 1 };
    ModulatedCode { code, unit: if imaginary { complex(0, sign) } else { complex(sign, 0) } }
}

/// The places of a row's pair and marker in its code set.
pub const ROWS: [[usize; 3]; 4] = [[0, 1, 2], [0, 1, 2], [0, 2, 1], [1, 2, 0]];

const fn arranged(set: u32, row: u32, [first, second, marker]: [bool; 3]) -> Allocated {
    let (set, [a, b, d]) = (CODE_SETS[set as usize], ROWS[row as usize]);
    Allocated {
        first: modulated(set[a], row != 0, first),
        second: modulated(set[b], row != 0, second),
        marker: modulated(set[d], false, marker),
    }
}

const fn allocations() -> [Allocated; 192] {
    let mut all = [arranged(0, 0, [false; 3]); 192];
    let mut n = 0;
    while n < 64 {
        let (g, frame2) = (n / 2, n % 2 == 1);
        let r = g % 16;
        all[n as usize] = arranged(g / 16, r / 4, [r % 4 >= 2, r % 2 == 1, frame2]);
        n += 1;
    }
    while n < 192 {
        let (g, frame2, half) = ((n - 64) / 4, n / 2 % 2 == 1, n % 2 == 1);
        let r = g % 8;
        all[n as usize] = arranged(g / 8, r / 2, [frame2, frame2 != (r % 2 == 1), half]);
        n += 1;
    }
    all
}

/// Of a case, group, frame and half that are in range.
pub fn allocated(case: u32, group: u32, frame: u32, half: u32) -> &'static Allocated {
    let place = if case == 1 { 2 * group + frame - 1 } else { 64 + 4 * group + 2 * (frame - 1) + half };
    &ALLOCATIONS[place as usize]
}

#[inline(never)]
pub fn element(q: u32, k: u32, chip: u32) -> Answer<i32> {
    let node = check_code(q, k)?;
    if chip >= q { Err(16) } else { Ok(CODES[node % 31][chip as usize % 16]) }
}

#[inline(never)]
pub fn related(q1: u32, k1: u32, q2: u32, k2: u32) -> Answer<bool> {
    let (m, n) = (check_code(q1, k1)?, check_code(q2, k2)?);
    Ok(LEAVES[m] & LEAVES[n] != 0)
}

#[inline(never)]
pub fn allocation(case: u32, group: u32, frame: u32, half: u32) -> Answer<Allocated> {
    if group > 31 {
        return Err(1);
    }
    check_timing(case, frame, half)?;
    Ok(*allocated(case, group, frame, half))
}
