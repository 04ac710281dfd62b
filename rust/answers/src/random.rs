//! Numbers that look random and are the same in every run.

/// The generator xorshift64*.
pub struct Random(u64);

impl Random {
    pub fn new(seed: u64) -> Random {
        assert!(seed != 0, "the generator stays at 0: choose another seed");
        Random(seed)
    }

    pub fn number(&mut self) -> u64 {
        self.0 ^= self.0 >> 12;
        self.0 ^= self.0 << 25;
        self.0 ^= self.0 >> 27;
        self.0.wrapping_mul(0x2545_F491_4F6C_DD1D)
    }

    /// A number below `bound`.
    pub fn below(&mut self, bound: usize) -> usize {
        ((self.number() >> 32) as usize) % bound
    }

    pub fn choose<Item: Copy>(&mut self, from: &[Item]) -> Item {
        from[self.below(from.len())]
    }
}
