//! The codes against TS 25.223 V3.3.0: the rows that tables 4 and 5 print, Annex A, and the
//! constructions of clauses 6.2 and 7.1 and Annex B.

use super::super::sync_codes::hadamard;
use super::super::{Complex, Modulated, allocation, element, primary_chip, related, scrambling_chip, secondary_chip};

/// Table 4, case 1: code group, then the codes of frame 1 and of frame 2.
const TABLE_4: &[(u32, &str)] = &[
    (0, "C1 C3 C5 C1 C3 -C5"),
    (1, "C1 -C3 C5 C1 -C3 -C5"),
    (2, "-C1 C3 C5 -C1 C3 -C5"),
    (3, "-C1 -C3 C5 -C1 -C3 -C5"),
    (4, "jC1 jC3 C5 jC1 jC3 -C5"),
    (5, "jC1 -jC3 C5 jC1 -jC3 -C5"),
    (6, "-jC1 jC3 C5 -jC1 jC3 -C5"),
    (7, "-jC1 -jC3 C5 -jC1 -jC3 -C5"),
    (8, "jC1 jC5 C3 jC1 jC5 -C3"),
    (9, "jC1 -jC5 C3 jC1 -jC5 -C3"),
    (10, "-jC1 jC5 C3 -jC1 jC5 -C3"),
    (11, "-jC1 -jC5 C3 -jC1 -jC5 -C3"),
    (12, "jC3 jC5 C1 jC3 jC5 -C1"),
    (13, "jC3 -jC5 C1 jC3 -jC5 -C1"),
    (14, "-jC3 jC5 C1 -jC3 jC5 -C1"),
    (15, "-jC3 -jC5 C1 -jC3 -jC5 -C1"),
    (16, "C10 C13 C14 C10 C13 -C14"),
    (17, "C10 -C13 C14 C10 -C13 -C14"),
    (20, "jC10 jC13 C14 jC10 jC13 -C14"),
    (24, "jC10 jC14 C13 jC10 jC14 -C13"),
    (31, "-jC13 -jC14 C10 -jC13 -jC14 -C10"),
];

/// Table 5, case 2: code group, then the codes of frame 1 slot k, frame 1 slot k+8, frame 2 slot k
/// and frame 2 slot k+8.
const TABLE_5: &[(u32, &str)] = &[
    (0, "C1 C3 C5 C1 C3 -C5 -C1 -C3 C5 -C1 -C3 -C5"),
    (1, "C1 -C3 C5 C1 -C3 -C5 -C1 C3 C5 -C1 C3 -C5"),
    (2, "jC1 jC3 C5 jC1 jC3 -C5 -jC1 -jC3 C5 -jC1 -jC3 -C5"),
    (3, "jC1 -jC3 C5 jC1 -jC3 -C5 -jC1 jC3 C5 -jC1 jC3 -C5"),
    (4, "jC1 jC5 C3 jC1 jC5 -C3 -jC1 -jC5 C3 -jC1 -jC5 -C3"),
    (5, "jC1 -jC5 C3 jC1 -jC5 -C3 -jC1 jC5 C3 -jC1 jC5 -C3"),
    (6, "jC3 jC5 C1 jC3 jC5 -C1 -jC3 -jC5 C1 -jC3 -jC5 -C1"),
    (7, "jC3 -jC5 C1 jC3 -jC5 -C1 -jC3 jC5 C1 -jC3 jC5 -C1"),
    (8, "C10 C13 C14 C10 C13 -C14 -C10 -C13 C14 -C10 -C13 -C14"),
    (9, "C10 -C13 C14 C10 -C13 -C14 -C10 C13 C14 -C10 C13 -C14"),
    (10, "jC10 jC13 C14 jC10 jC13 -C14 -jC10 -jC13 C14 -jC10 -jC13 -C14"),
    (11, "jC10 -jC13 C14 jC10 -jC13 -C14 -jC10 jC13 C14 -jC10 jC13 -C14"),
    (12, "jC10 jC14 C13 jC10 jC14 -C13 -jC10 -jC14 C13 -jC10 -jC14 -C13"),
    (13, "jC10 -jC14 C13 jC10 -jC14 -C13 -jC10 jC14 C13 -jC10 jC14 -C13"),
    (14, "jC13 jC14 C10 jC13 jC14 -C10 -jC13 -jC14 C10 -jC13 -jC14 -C10"),
    (15, "jC13 -jC14 C10 jC13 -jC14 -C10 -jC13 jC14 C10 -jC13 jC14 -C10"),
    (16, "C0 C6 C12 C0 C6 -C12 -C0 -C6 C12 -C0 -C6 -C12"),
    (23, "jC6 -jC12 C0 jC6 -jC12 -C0 -jC6 jC12 C0 -jC6 jC12 -C0"),
    (24, "C4 C8 C15 C4 C8 -C15 -C4 -C8 C15 -C4 -C8 -C15"),
    (31, "jC8 -jC15 C4 jC8 -jC15 -C4 -jC8 jC15 C4 -jC8 jC15 -C4"),
];

/// "-jC13" and the like.
fn parse(text: &str) -> Modulated {
    let (sign, rest) = match text.strip_prefix('-') {
        Some(rest) => (-1, rest),
        None => (1, text),
    };
    let (unit, rest) = match rest.strip_prefix('j') {
        Some(rest) => (Complex { re: 0, im: sign }, rest),
        None => (Complex { re: sign, im: 0 }, rest),
    };
    let code = rest.strip_prefix('C').unwrap().parse().unwrap();
    Modulated { code, unit }
}

/// A row's codes three by three, against (frame, half) by (frame, half).
fn check_row(case: u32, (group, row): (u32, &str), order: &[(u32, u32)]) {
    let codes: Vec<Modulated> = row.split(' ').map(parse).collect();
    assert_eq!(codes.len(), 3 * order.len());
    for (three, &(frame, half)) in codes.chunks(3).zip(order) {
        assert_eq!(allocation(case, group, frame, half).unwrap(), three);
    }
}

#[test]
fn table_4() {
    for &row in TABLE_4 {
        check_row(1, row, &[(1, 0), (2, 0)]);
    }
}

#[test]
fn table_5() {
    for &row in TABLE_5 {
        check_row(2, row, &[(1, 0), (1, 1), (2, 0), (2, 1)]);
    }
}

/// Every candidate of a case has an allocation of its own.
#[test]
fn allocations_differ() {
    for case in [1, 2] {
        let mut all = Vec::new();
        for group in 0..32 {
            for frame in [1, 2] {
                for half in 0..case {
                    let units = allocation(case, group, frame, half).unwrap();
                    assert!(!all.contains(&units));
                    all.push(units);
                }
            }
        }
    }
}

/// Annex A: 128 rows of 16 signs, no two alike; elements at odd i are imaginary, at even i real.
#[test]
fn annex_a() {
    let mut rows = Vec::new();
    for cell in 0..128 {
        let row: Vec<Complex> = (0..16).map(|chip| scrambling_chip(cell, chip).unwrap()).collect();
        for (chip, element) in row.iter().enumerate() {
            let (size, other) = if chip % 2 == 0 { (element.im, element.re) } else { (element.re, element.im) };
            assert_eq!((size.abs(), other), (1, 0));
        }
        assert!(!rows.contains(&row));
        rows.push(row);
    }
}

/// Clause 6.2: codes of one level are orthogonal; the first code of each level is all ones.
#[test]
fn levels_are_orthogonal() {
    for q in [1, 2, 4, 8, 16] {
        for k1 in 0..q {
            assert_eq!(element(q, 0, k1), Ok(1));
            for k2 in 0..q {
                let sum: i32 = (0..q).map(|chip| element(q, k1, chip).unwrap() * element(q, k2, chip).unwrap()).sum();
                assert_eq!(sum, if k1 == k2 { q as i32 } else { 0 });
            }
        }
    }
}

/// Clause 6.2: codes can be used together exactly when they are orthogonal over every symbol of
/// the shorter one.
#[test]
fn related_codes_are_those_not_orthogonal() {
    let factors = [1, 2, 4, 8, 16];
    for q1 in factors {
        for k1 in 0..q1 {
            for q2 in factors {
                for k2 in 0..q2 {
                    let (short, long) = if q1 < q2 { ((q1, k1), (q2, k2)) } else { ((q2, k2), (q1, k1)) };
                    let orthogonal = (0..long.0 / short.0).all(|place| {
                        let sum: i32 = (0..short.0)
                            .map(|chip| {
                                element(short.0, short.1, chip).unwrap()
                                    * element(long.0, long.1, place * short.0 + chip).unwrap()
                            })
                            .sum();
                        sum == 0
                    });
                    assert_eq!(related(q1, k1, q2, k2), Ok(!orthogonal));
                }
            }
        }
    }
}

/// Clause 7.1: H0 = (1), Hk = (H H; H -H).
#[test]
fn hadamard_matrix_by_recursion() {
    let mut matrix = vec![vec![1]];
    for _ in 0..8 {
        let mut next = Vec::new();
        for row in &matrix {
            next.push([row.clone(), row.clone()].concat());
        }
        for row in &matrix {
            let negative: Vec<i32> = row.iter().map(|x| -x).collect();
            next.push([row.clone(), negative].concat());
        }
        matrix = next;
    }
    for (m, row) in matrix.iter().enumerate() {
        for (n, &expected) in row.iter().enumerate() {
            assert_eq!(hadamard(m as u32, n as u32), expected);
        }
    }
}

/// Annex B.1, method 2: the primary code as a pruned Golay complementary sequence.
#[test]
fn primary_code_by_annex_b() {
    let delays = [128, 64, 16, 32, 8, 1, 4, 2];
    let weights = [1, -1, 1, 1, 1, 1, 1, 1];
    let mut a = vec![0; 256];
    a[0] = 1;
    let mut b = a.clone();
    for n in 1..=8 {
        let (delay, weight) = (delays[n - 1], weights[n - 1]);
        let delayed = |k: usize| if k < delay { 0 } else { b[k - delay] };
        let sum: Vec<i32> = (0..256).map(|k| a[k] + weight * delayed(k)).collect();
        let difference: Vec<i32> = (0..256).map(|k| a[k] - weight * delayed(k)).collect();
        b = if n == 4 || n == 6 { sum.clone() } else { difference };
        a = sum;
    }
    for (chip, &x) in a.iter().enumerate() {
        assert_eq!(primary_chip(chip as u32), Ok(Complex { re: x, im: x }));
    }
}

/// The sync codes are orthogonal to one another, Cp among them.
#[test]
fn sync_codes_are_orthogonal() {
    let mut codes = vec![(0..256).map(|n| primary_chip(n).unwrap().re).collect()];
    for i in [0, 1, 3, 4, 5, 6, 8, 10, 12, 13, 14, 15] {
        let real: Vec<i32> = (0..256).map(|n| secondary_chip(i, n).unwrap().re).collect();
        for (n, &x) in real.iter().enumerate() {
            let chip = secondary_chip(i, n as u32);
            assert_eq!(chip, Ok(Complex { re: x, im: x }));
        }
        codes.push(real);
    }
    for (m, first) in codes.iter().enumerate() {
        for (n, second) in codes.iter().enumerate() {
            let sum: i32 = first.iter().zip(second).map(|(x, y)| x * y).sum();
            assert_eq!(sum, if m == n { 256 } else { 0 });
        }
    }
}

/// Clause 7.1: row 0 of the Hadamard matrix is all ones, so C0 is (1+j) times z.
#[test]
fn secondary_code_0_is_z() {
    let b = [1, 1, 1, 1, 1, 1, -1, -1, -1, 1, -1, 1, -1, 1, 1, -1];
    let blocks = "+++-++--+-+-----".chars();
    for (block, sign) in blocks.enumerate() {
        for (n, x) in b.iter().enumerate() {
            let x = if sign == '+' { *x } else { -x };
            let chip = secondary_chip(0, (16 * block + n) as u32);
            assert_eq!(chip, Ok(Complex { re: x, im: x }));
        }
    }
}
