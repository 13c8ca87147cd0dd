//! Xorshift: the same numbers in every run.

pub struct Random(u64);

impl Random {
    pub fn new(seed: u64) -> Self {
        Self(seed | 1)
    }

    pub fn number(&mut self) -> u64 {
        self.0 ^= self.0 << 13;
        self.0 ^= self.0 >> 7;
        self.0 ^= self.0 << 17;
        self.0
    }

    /// The high bits, which are the better ones.
    pub fn word(&mut self) -> u32 {
        (self.number() >> 32) as u32
    }

    pub fn short(&mut self) -> u16 {
        (self.number() >> 48) as u16
    }

    pub fn byte(&mut self) -> u8 {
        self.number().to_le_bytes()[5]
    }

    pub fn bytes(&mut self, count: usize) -> Vec<u8> {
        (0..count).map(|_| self.byte()).collect()
    }

    pub fn below(&mut self, bound: usize) -> usize {
        self.word() as usize % bound
    }

    /// Below a bound of at most 256, drawn from one byte: the recorded list is
    /// made with it, and would be another with `below`.
    pub fn under(&mut self, bound: usize) -> usize {
        usize::from(self.byte()) * bound / 256
    }

    pub fn one_in(&mut self, many: usize) -> bool {
        self.below(many) == 0
    }

    pub fn of<T: Copy>(&mut self, some: &[T]) -> T {
        some[self.below(some.len())]
    }
}
