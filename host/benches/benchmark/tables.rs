//! The codes of document 01 in tables made once, for both Rust forms. The benchmark holds every entry to the library before it times anything.
use smugolec::{Complex, ffi};

/// The settings of a bench without a sync burst.
pub const NO_SYNC: ffi::Sync = ffi::Sync { on: 0, case: 0, frame: 0, half: 0, gp: 0, gs: 0 };

/// Annex A: row p is scrambling code p, v1 first, 1 for 1 and 0 for -1.
const ANNEX_A: [u16; 128] = [
    0x44b4, 0xfa9c, 0xbb78, 0xe122, 0xe1ee, 0x63fa, 0x4478, 0xa0c6, 0xe2de, 0xdee2, 0xaf36, 0x7844, 0x221e, 0xb884,
    0x84b8, 0xc6a0, 0x950c, 0xeed2, 0x7448, 0x4874, 0x0a6c, 0xf36a, 0x8744, 0x77b4, 0x2e12, 0xbbb4, 0x8878, 0x4784,
    0x111e, 0xb444, 0x039a, 0xcf56, 0x8b48, 0x1eee, 0x88b4, 0xb488, 0xdd1e, 0x122e, 0x4b88, 0x7888, 0x5036, 0xd222,
    0x8788, 0x3056, 0x21e2, 0x2dee, 0x6c0a, 0x9cfa, 0xddd2, 0x3650, 0xd2ee, 0x9ca0, 0xee1e, 0x717e, 0x22d2, 0x60ac,
    0x7778, 0x6350, 0x506c, 0xc0a6, 0x6f5c, 0x39a0, 0x4e82, 0x5390, 0x930a, 0x1e22, 0x09ca, 0x1dde, 0xb182, 0x28e4,
    0xd112, 0x905c, 0xf6ca, 0x7142, 0xd418, 0xc950, 0x4172, 0x5f6c, 0x5630, 0x5c60, 0xd424, 0xfa36, 0x5fc6, 0xca06,
    0x2d22, 0x65fc, 0x11d2, 0xc5f6, 0x6ca0, 0x4b44, 0x81b2, 0x42b2, 0x6a0c, 0x063a, 0xa6c0, 0xf93a, 0xc60a, 0xc9fa,
    0xdbe8, 0xa930, 0xb242, 0xf5c6, 0xaf6c, 0x24e8, 0xb774, 0xfc9a, 0xc506, 0x0c6a, 0x14d8, 0x59c0, 0x35f6, 0xe7d4,
    0x3af6, 0xcaf6, 0x18d4, 0x9fac, 0x7bb8, 0xed2e, 0x059c, 0x1724, 0x2b24, 0x7eb2, 0x1b28, 0xac90, 0x3fa6, 0x9afc,
    0xf56c, 0xa09c,
];

/// The sequence a, and the signs with which the primary code repeats it.
pub const A: [i32; 16] = [1, 1, 1, 1, 1, 1, -1, -1, 1, -1, 1, -1, 1, -1, -1, 1];
pub const A_SIGNS: [i32; 16] = [1, 1, 1, -1, -1, 1, -1, -1, 1, 1, 1, -1, 1, -1, 1, 1];
/// The signs with which z repeats b.
pub const B_SIGNS: [i32; 16] = [1, 1, 1, -1, 1, 1, -1, -1, 1, -1, 1, -1, -1, -1, -1, -1];
/// The numbers of the secondary codes.
pub const NUMBERS: [u32; 12] = [0, 1, 3, 4, 5, 6, 8, 10, 12, 13, 14, 15];
/// The code sets (A, B, D).
pub const CODE_SETS: [[u32; 3]; 4] = [[1, 3, 5], [10, 13, 14], [0, 6, 12], [4, 8, 15]];
/// The symbols of the pairs 00, 01, 10, 11.
pub const SYMBOLS: [Complex; 4] = [complex(0, 1), complex(1, 0), complex(-1, 0), complex(0, -1)];

/// Code (q, k) stands at q - 1 + k, repeated up to 16 elements.
pub static CODES: [[i32; 16]; 31] = codes();
/// The leaves of the tree below each code, one bit a leaf. Related codes have leaves in common.
pub static LEAVES: [u16; 31] = leaves();
/// The complex scrambling codes: chip i is the standard's element i + 1.
pub static SCRAMBLING: [[Complex; 16]; 128] = scrambling();
pub static PRIMARY: [Complex; 256] = primary();
/// The secondary codes by number; 0 where no code has the number.
pub static SECONDARY: [[Complex; 256]; 16] = secondary();

pub const fn complex(re: i32, im: i32) -> Complex {
    Complex { re, im }
}

/// Code (2Q, 2k) is code (Q, k) twice, code (2Q, 2k+1) has the second one negated.
const fn codes() -> [[i32; 16]; 31] {
    let mut rows = [[1; 16]; 31];
    let mut node = 1;
    while node < 31 {
        let (q, k) = code_at(node);
        let above = rows[q / 2 - 1 + k / 2];
        let mut i = 0;
        while i < 16 {
            rows[node][i] = if k % 2 == 1 && i % q >= q / 2 { -above[i] } else { above[i] };
            i += 1;
        }
        node += 1;
    }
    rows
}

/// The code whose place is `node`.
pub const fn code_at(node: usize) -> (usize, usize) {
    let mut q = 1;
    while 2 * q - 1 <= node {
        q *= 2;
    }
    (q, node + 1 - q)
}

const fn leaves() -> [u16; 31] {
    let mut bits = [0; 31];
    let mut node = 0;
    while node < 31 {
        let (q, k) = code_at(node);
        let width = 16 / q;
        bits[node] = (u16::MAX >> (16 - width)) << (k * width);
        node += 1;
    }
    bits
}

const fn scrambling() -> [[Complex; 16]; 128] {
    let mut rows = [[complex(0, 0); 16]; 128];
    let mut p = 0;
    while p < 128 {
        let mut i = 0;
        while i < 16 {
            let v = if ANNEX_A[p] >> (15 - i) & 1 == 1 { 1 } else { -1 };
            rows[p][i] = [complex(0, v), complex(-v, 0), complex(0, -v), complex(v, 0)][i % 4];
            i += 1;
        }
        p += 1;
    }
    rows
}

const fn primary() -> [Complex; 256] {
    let mut chips = [complex(0, 0); 256];
    let mut n = 0;
    while n < 256 {
        let x = A_SIGNS[n / 16] * A[n % 16];
        chips[n] = complex(x, x);
        n += 1;
    }
    chips
}

const fn secondary() -> [[Complex; 256]; 16] {
    let mut chips = [[complex(0, 0); 256]; 16];
    let mut at = 0;
    while at < 12 {
        let i = NUMBERS[at] as usize;
        let mut n = 0;
        while n < 256 {
            let b = if n % 16 < 8 { A[n % 16] } else { -A[n % 16] };
            let row = if ((16 * i) & n).count_ones() % 2 == 1 { -1 } else { 1 };
            let x = B_SIGNS[n / 16] * b * row;
            chips[i][n] = complex(x, x);
            n += 1;
        }
        at += 1;
    }
    chips
}
