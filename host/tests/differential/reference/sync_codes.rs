//! Document 01, "The sync burst": the codes, their allocation and where the burst starts.

use std::sync::LazyLock;

use super::complex::{Complex, J, ONE};

/// "256 chips"
pub(super) const BURST: usize = 256;

/// "a = 1 1 1 1 1 1 -1 -1 1 -1 1 -1 1 -1 -1 1"
const A: [i32; 16] = [1, 1, 1, 1, 1, 1, -1, -1, 1, -1, 1, -1, 1, -1, -1, 1];

/// "a repeated 16 times with signs + + + - - + - - + + + - + - + +"
const A_SIGNS: [i32; 16] = [1, 1, 1, -1, -1, 1, -1, -1, 1, 1, 1, -1, 1, -1, 1, 1];

/// "z is b repeated with signs + + + - + + - - + - + - - - - -"
const B_SIGNS: [i32; 16] = [1, 1, 1, -1, 1, 1, -1, -1, 1, -1, 1, -1, -1, -1, -1, -1];

/// "i is one of 0, 1, 3, 4, 5, 6, 8, 10, 12, 13, 14, 15"
pub(super) const NUMBERS: [u32; 12] = [0, 1, 3, 4, 5, 6, 8, 10, 12, 13, 14, 15];

/// A sequence of 16 repeated 16 times with signs.
fn repeat(sequence: [i32; 16], signs: [i32; 16]) -> Vec<i32> {
    signs.iter().flat_map(|sign| sequence.map(|element| sign * element)).collect()
}

/// "(1+j) times" a real sequence.
fn one_plus_j(sequence: &[i32]) -> Vec<Complex> {
    sequence.iter().map(|&x| Complex { re: x, im: x }).collect()
}

/// "The primary code Cp is (1+j) times a repeated 16 times with signs"
static PRIMARY: LazyLock<Vec<Complex>> = LazyLock::new(|| one_plus_j(&repeat(A, A_SIGNS)));

/// "b is a with its last eight elements negated"
fn b() -> [i32; 16] {
    let mut b = A;
    for element in &mut b[8..] {
        *element = -*element;
    }
    b
}

/// "the 256-row Hadamard matrix, whose element (m, n) is -1 when m and n share an odd number of
/// set bits, else 1"
pub(super) fn hadamard(m: u32, n: u32) -> i32 {
    if (m & n).count_ones() % 2 == 1 { -1 } else { 1 }
}

/// "Ci is (1+j) times z times row 16i of the 256-row Hadamard matrix"
fn make_secondary(i: u32) -> Vec<Complex> {
    let z = repeat(b(), B_SIGNS);
    let product: Vec<i32> = (0..256).zip(&z).map(|(n, z)| z * hadamard(16 * i, n)).collect();
    one_plus_j(&product)
}

/// The secondary codes by number, none at a number not listed.
static SECONDARY: LazyLock<[Option<Vec<Complex>>; 16]> = LazyLock::new(|| {
    std::array::from_fn(|i| {
        let i = i as u32;
        NUMBERS.contains(&i).then(|| make_secondary(i))
    })
});

/// Cp.
pub(super) fn primary_code() -> &'static [Complex] {
    &PRIMARY
}

/// Ci, whose number must be listed.
pub(super) fn secondary_code(i: u32) -> &'static [Complex] {
    SECONDARY[i as usize].as_ref().expect("a listed number")
}

/// Chip of Cp. Refuses "16 for a chip index past the code's end".
pub fn primary_chip(chip: u32) -> Result<Complex, u32> {
    if chip >= 256 {
        return Err(16);
    }
    Ok(primary_code()[chip as usize])
}

/// Chip of Ci. Refuses "16 for a chip index past the code's end or a sync code number not listed".
pub fn secondary_chip(number: u32, chip: u32) -> Result<Complex, u32> {
    if !NUMBERS.contains(&number) || chip >= 256 {
        return Err(16);
    }
    Ok(secondary_code(number)[chip as usize])
}

/// "1 (also for a code group above 31)"
fn check_group(group: u32) -> Result<(), u32> {
    if group > 31 {
        return Err(1);
    }
    Ok(())
}

/// "14 case not 1 or 2"
pub(super) fn check_case(case: u32) -> Result<(), u32> {
    if case != 1 && case != 2 {
        return Err(14);
    }
    Ok(())
}

/// "15 frame not 1 or 2, half above 1, or half 1 in case 1"
pub(super) fn check_timing(case: u32, frame: u32, half: u32) -> Result<(), u32> {
    if (frame != 1 && frame != 2) || half > 1 || (half == 1 && case == 1) {
        return Err(15);
    }
    Ok(())
}

/// "Code sets (A, B, D): 1 is (1, 3, 5), 2 is (10, 13, 14), 3 is (0, 6, 12), 4 is (4, 8, 15)."
fn code_set(set: u32) -> (u32, u32, u32) {
    match set {
        1 => (1, 3, 5),
        2 => (10, 13, 14),
        3 => (0, 6, 12),
        4 => (4, 8, 15),
        _ => panic!("no code set"),
    }
}

/// The pair, its unit and the marker of a row: "0 gives pair (A, B) with unit 1 and marker D; 1
/// gives (A, B) with j and D; 2 gives (A, D) with j and B; 3 gives (B, D) with j and A".
fn code_row(set: u32, row: u32) -> (u32, u32, Complex, u32) {
    let (a, b, d) = code_set(set);
    match row {
        0 => (a, b, ONE, d),
        1 => (a, b, J, d),
        2 => (a, d, J, b),
        3 => (b, d, J, a),
        _ => panic!("no code row"),
    }
}

/// A secondary code of a burst with its unit u.
#[derive(Clone, Copy, PartialEq, Eq, Debug)]
pub struct Modulated {
    pub code: u32,
    pub unit: Complex,
}

/// `unit` or its negative.
fn signed(negative: bool, unit: Complex) -> Complex {
    if negative { -unit } else { unit }
}

/// "Case 1: set 1 + g div 16, r = g mod 16. Row r div 4 [...]. r mod 4 = 0, 1, 2, 3 signs the pair
/// ++, +-, -+, --. The marker is +1 in frame 1, -1 in frame 2."
fn case_1(g: u32, frame: u32) -> [Modulated; 3] {
    let r = g % 16;
    let (first, second, unit, marker) = code_row(1 + g / 16, r / 4);
    let (first_negative, second_negative) = match r % 4 {
        0 => (false, false),
        1 => (false, true),
        2 => (true, false),
        _ => (true, true),
    };
    [
        Modulated { code: first, unit: signed(first_negative, unit) },
        Modulated { code: second, unit: signed(second_negative, unit) },
        Modulated { code: marker, unit: signed(frame == 2, ONE) },
    ]
}

/// "Case 2: set 1 + g div 8, r = g mod 8, rows by r div 2 as above. The pair is ++ for even r, +-
/// for odd r, both negated in frame 2. The marker is +1 in half 0 (slot k), -1 in half 1 (slot
/// k+8)."
fn case_2(g: u32, frame: u32, half: u32) -> [Modulated; 3] {
    let r = g % 8;
    let (first, second, unit, marker) = code_row(1 + g / 8, r / 2);
    let first_unit = unit;
    let second_unit = signed(r % 2 == 1, unit);
    [
        Modulated { code: first, unit: signed(frame == 2, first_unit) },
        Modulated { code: second, unit: signed(frame == 2, second_unit) },
        Modulated { code: marker, unit: signed(half == 1, ONE) },
    ]
}

/// "For code group g, units u are as follows": the pair in its order, then the marker. Refuses 1;
/// 14; 15.
pub fn allocation(case: u32, group: u32, frame: u32, half: u32) -> Result<[Modulated; 3], u32> {
    check_group(group)?;
    check_case(case)?;
    check_timing(case, frame, half)?;
    Ok(match case {
        1 => case_1(group, frame),
        _ => case_2(group, frame, half),
    })
}

/// "starting at chip 48g for g below 16 and 720 + 48g from 16 on". Refuses 1.
pub fn burst_start(group: u32) -> Result<u32, u32> {
    check_group(group)?;
    Ok(if group < 16 { 48 * group } else { 720 + 48 * group })
}
