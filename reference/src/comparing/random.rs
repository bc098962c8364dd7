//! Random numbers that depend on nothing but the seed and the number of the case.

pub struct Random {
    state: u64,
}

impl Random {
    pub fn new(seed: u64, number: u64) -> Random {
        let mut random = Random { state: seed };
        let mixed = random.next();
        Random { state: mixed ^ number.wrapping_mul(0xD134_2543_DE82_EF95) }
    }

    /// The next 64 bits (the generator known as SplitMix64). There is always a next, so it is no
    /// iterator's.
    #[allow(clippy::should_implement_trait)]
    pub fn next(&mut self) -> u64 {
        self.state = self.state.wrapping_add(0x9E37_79B9_7F4A_7C15);
        let mut mixed = self.state;
        mixed = (mixed ^ (mixed >> 30)).wrapping_mul(0xBF58_476D_1CE4_E5B9);
        mixed = (mixed ^ (mixed >> 27)).wrapping_mul(0x94D0_49BB_1331_11EB);
        mixed ^ (mixed >> 31)
    }

    /// From low to high, both included.
    pub fn between(&mut self, low: i64, high: i64) -> i64 {
        let width = high.abs_diff(low) + 1;
        low + (self.next() % width) as i64
    }

    /// A size or place from low to high, both included; low where they cross.
    pub fn size(&mut self, low: usize, high: usize) -> usize {
        if low >= high {
            return low;
        }
        low + (self.next() % (high - low + 1) as u64) as usize
    }

    pub fn word(&mut self, low: u32, high: u32) -> u32 {
        self.size(low as usize, high as usize) as u32
    }

    /// True once in so many times.
    pub fn once_in(&mut self, times: u64) -> bool {
        self.next().is_multiple_of(times)
    }

    /// One of a list that isn't empty.
    pub fn pick<T: Copy>(&mut self, list: &[T]) -> T {
        list[self.size(0, list.len() - 1)]
    }

    pub fn shuffle<T>(&mut self, list: &mut [T]) {
        for last in (1..list.len()).rev() {
            let other = self.size(0, last);
            list.swap(last, other);
        }
    }
}
