//! Random numbers from a seed: splitmix64, so that a case is the same on every machine.

pub struct Random {
    state: u64,
}

impl Random {
    /// the numbers of one world of a seed, whatever other worlds took
    pub fn of(seed: u64, world: u64) -> Self {
        let mut mixed = Random { state: seed };
        let state = mixed.next() ^ world.wrapping_mul(0xD134_2543_DE82_EF95);
        Random { state }
    }

    pub fn next(&mut self) -> u64 {
        self.state = self.state.wrapping_add(0x9E37_79B9_7F4A_7C15);
        let z = (self.state ^ (self.state >> 30)).wrapping_mul(0xBF58_476D_1CE4_E5B9);
        let z = (z ^ (z >> 27)).wrapping_mul(0x94D0_49BB_1331_11EB);
        z ^ (z >> 31)
    }

    /// 0 to n - 1; 0 for n = 0
    pub fn below(&mut self, n: usize) -> usize {
        (((self.next() >> 32) * n as u64) >> 32) as usize
    }

    pub fn between(&mut self, low: usize, high: usize) -> usize {
        low + self.below(high - low + 1)
    }

    pub fn byte(&mut self) -> u8 {
        self.next() as u8
    }

    pub fn chance(&mut self, p: f64) -> bool {
        ((self.next() >> 11) as f64) < p * (1u64 << 53) as f64
    }

    pub fn choice<T: Copy>(&mut self, from: &[T]) -> T {
        from[self.below(from.len())]
    }

    /// `n` different members, in random order
    pub fn sample<T: Copy>(&mut self, from: &[T], n: usize) -> Vec<T> {
        let mut left = from.to_vec();
        (0..n).map(|_| left.swap_remove(self.below(left.len()))).collect()
    }
}
