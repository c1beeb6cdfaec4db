//! Random numbers from a seed (splitmix64).

pub struct Random(u64);

impl Random {
    /// The numbers of one case of a seed.
    pub fn of(seed: u64, case: u64) -> Random {
        let mut r = Random(seed ^ case.wrapping_mul(0xd134_2543_de82_ef95));
        r.any();
        r
    }

    pub fn any(&mut self) -> u64 {
        self.0 = self.0.wrapping_add(0x9e37_79b9_7f4a_7c15);
        let mut z = self.0;
        z = (z ^ (z >> 30)).wrapping_mul(0xbf58_476d_1ce4_e5b9);
        z = (z ^ (z >> 27)).wrapping_mul(0x94d0_49bb_1331_11eb);
        z ^ (z >> 31)
    }

    /// A number below n, which is not 0.
    pub fn below(&mut self, n: usize) -> usize {
        ((self.any() >> 11) % n as u64) as usize
    }

    /// A number from low to high, both included.
    pub fn between(&mut self, low: u64, high: u64) -> u64 {
        low + (self.any() >> 1) % (high - low + 1)
    }

    /// True once in n times.
    pub fn once_in(&mut self, n: usize) -> bool {
        self.below(n) == 0
    }

    pub fn pick<T: Copy>(&mut self, of: &[T]) -> T {
        of[self.below(of.len())]
    }

    pub fn shuffle<T>(&mut self, of: &mut [T]) {
        for i in (1..of.len()).rev() {
            of.swap(i, self.below(i + 1));
        }
    }
}
