//! Tests of the reference against document 01 and the standard's own tables.

mod air;
mod edges;
mod instances;
mod refusals;
mod round_trip;
mod tables;

use super::{Bench, Complex};

/// A plain random source, the same in every run.
struct Random(u64);

impl Random {
    fn next(&mut self) -> u32 {
        self.0 = self.0.wrapping_mul(6_364_136_223_846_793_005).wrapping_add(1_442_695_040_888_963_407);
        (self.0 >> 33) as u32
    }

    /// A number from 0 to `limit` - 1.
    fn below(&mut self, limit: u32) -> u32 {
        self.next() % limit
    }

    fn bits(&mut self, count: usize) -> Vec<u8> {
        (0..count).map(|_| self.below(2) as u8).collect()
    }
}

fn complex(re: i32, im: i32) -> Complex {
    Complex { re, im }
}

/// Starts a slot and draws it whole.
fn draw_slot(bench: &mut Bench) -> (Vec<i32>, Vec<i32>) {
    let mut re = vec![0; 2560];
    let mut im = vec![0; 2560];
    assert_eq!(bench.start(), Ok(()));
    assert_eq!(bench.draw(&mut re, &mut im), Ok(2560));
    (re, im)
}

/// Where field 1 and field 2 of a burst type lie in the slot: start and length.
fn fields(kind: u32) -> [(usize, usize); 2] {
    match kind {
        1 => [(0, 976), (1488, 976)],
        2 => [(0, 1104), (1360, 1104)],
        _ => [(0, 976), (1488, 880)],
    }
}
