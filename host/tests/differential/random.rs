//! Seeded numbers, so that a failure can be run again.

/// Splitmix64.
pub struct Random(u64);

impl Random {
    /// The numbers of one item of a test. Each item has its own, however many the ones before it took.
    pub fn of(seed: u64, item: usize) -> Random {
        Random(Random(seed).word() ^ Random(!(item as u64)).word())
    }

    pub fn word(&mut self) -> u64 {
        self.0 = self.0.wrapping_add(0x9E37_79B9_7F4A_7C15);
        let once = (self.0 ^ (self.0 >> 30)).wrapping_mul(0xBF58_476D_1CE4_E5B9);
        let twice = (once ^ (once >> 27)).wrapping_mul(0x94D0_49BB_1331_11EB);
        twice ^ (twice >> 31)
    }

    /// 0 to `limit` - 1.
    pub fn below(&mut self, limit: usize) -> usize {
        (self.word() % limit as u64) as usize
    }

    /// `from` to `to`, both included.
    pub fn within(&mut self, from: i32, to: i32) -> i32 {
        from + self.below((to - from) as usize + 1) as i32
    }

    pub fn chance(&mut self, percent: usize) -> bool {
        self.below(100) < percent
    }

    pub fn one_of<T: Copy>(&mut self, all: &[T]) -> T {
        all[self.below(all.len())]
    }

    /// A place of `weights`, as often as its weight says.
    pub fn weighted(&mut self, weights: &[usize]) -> usize {
        let mut left = self.below(weights.iter().sum());
        for (place, &weight) in weights.iter().enumerate() {
            if left < weight {
                return place;
            }
            left -= weight;
        }
        unreachable!("the weights' sum is above every number below it")
    }

    pub fn shuffle<T>(&mut self, all: &mut [T]) {
        for n in 1..all.len() {
            all.swap(n, self.below(n + 1));
        }
    }

    /// Mostly past a limit: just past it, far past it, or with low bits that look valid, for a call that narrows its arguments.
    pub fn past(&mut self, limit: u32) -> u32 {
        let low = self.below(limit as usize) as u32;
        let any = self.word() as u32;
        let looks_valid = self.one_of(&[0x100, 0x1_0000, 0x8000_0000]) + low;
        self.one_of(&[0, limit, limit, limit + 1, 2 * limit, looks_valid, looks_valid, u32::MAX, any])
    }
}

/// The seed of every test: a fixed one, or what TDD_SEED says.
pub fn seed() -> u64 {
    std::env::var("TDD_SEED").map_or(25_223, |text| text.parse().expect("TDD_SEED is a whole number"))
}

/// The seed, printed for the test that runs with it.
pub fn printed_seed(test: &str) -> u64 {
    println!("{test}: TDD_SEED={}", seed());
    seed()
}
