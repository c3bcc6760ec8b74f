//! Numbers to draw from: splitmix64, the same on every machine for the same seed.

pub struct Draw(u64);

impl Draw {
    pub fn new(seed: u64) -> Draw {
        Draw(seed)
    }

    pub fn bits(&mut self) -> u64 {
        self.0 = self.0.wrapping_add(0x9E37_79B9_7F4A_7C15);
        let mut z = self.0;
        z = (z ^ (z >> 30)).wrapping_mul(0xBF58_476D_1CE4_E5B9);
        z = (z ^ (z >> 27)).wrapping_mul(0x94D0_49BB_1331_11EB);
        z ^ (z >> 31)
    }

    /// A number below `bound`, or 0 where that is 0.
    pub fn below(&mut self, bound: u32) -> u32 {
        scaled(self.bits(), bound)
    }

    pub fn index(&mut self, bound: usize) -> usize {
        self.below(bound as u32) as usize
    }

    /// From `low` to `high`, both counted.
    pub fn between(&mut self, low: u32, high: u32) -> u32 {
        low + self.below(high - low + 1)
    }

    /// The same, but `low` once in eight times, and `high` as often. It takes as many bits as `between`, so that what is drawn
    /// afterwards does not depend on which of the two is called.
    pub fn to_the_edges(&mut self, low: u32, high: u32) -> u32 {
        let bits = self.bits();
        match bits % 8 {
            0 => low,
            1 => high,
            _ => low + scaled(bits, high - low + 1),
        }
    }

    /// True once in `n` times.
    pub fn one_in(&mut self, n: u32) -> bool {
        self.below(n) == 0
    }

    pub fn pick<T: Copy>(&mut self, from: &[T]) -> T {
        from[self.index(from.len())]
    }

    /// An index, each as often as its weight says.
    pub fn weighted(&mut self, weights: &[u32]) -> usize {
        let mut left = self.below(weights.iter().sum());
        for (index, &weight) in weights.iter().enumerate() {
            if left < weight {
                return index;
            }
            left -= weight;
        }
        unreachable!("no weight above 0")
    }

    /// A word from where things go wrong: the limits, and numbers whose multiples by a row's words leave 32 bits.
    pub fn wild(&mut self) -> u32 {
        const LIMITS: [u32; 20] =
            [0, 1, 2, 3, 4, 5, 9, 10, 1022, 1023, 1024, 1025, 4095, 4096, 8191, 8192, 0x2000_0000, 0x8000_0000, u32::MAX - 1, u32::MAX];
        match self.below(4) {
            0 => self.bits() as u32,
            1 => self.below(2048),
            _ => self.pick(&LIMITS),
        }
    }
}

/// A number below `bound` by the upper half of these bits.
fn scaled(bits: u64, bound: u32) -> u32 {
    ((u64::from(bound) * (bits >> 32)) >> 32) as u32
}
