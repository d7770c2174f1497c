//! A small seeded source of numbers (splitmix64), the same on every machine.

/// Numbers from a seed.
#[derive(Clone, Debug)]
pub struct Rng(u64);

impl Rng {
    /// The source of this seed.
    pub const fn new(seed: u64) -> Self {
        Self(seed)
    }

    /// The next 64 bits.
    pub fn bits(&mut self) -> u64 {
        self.0 = self.0.wrapping_add(0x9E37_79B9_7F4A_7C15);
        let mut z = self.0;
        z = (z ^ (z >> 30)).wrapping_mul(0xBF58_476D_1CE4_E5B9);
        z = (z ^ (z >> 27)).wrapping_mul(0x94D0_49BB_1331_11EB);
        z ^ (z >> 31)
    }

    /// A number under `end`, or 0 if `end` is 0.
    pub fn below(&mut self, end: u64) -> u64 {
        ((u128::from(self.bits()) * u128::from(end)) >> 64) as u64
    }

    /// A number from `least` to `greatest`, both with it.
    pub fn between(&mut self, least: u32, greatest: u32) -> u32 {
        let span = u64::from(greatest.saturating_sub(least)) + 1;
        least.saturating_add(self.below(span) as u32)
    }

    /// A length under `end`, or 0 if `end` is 0.
    pub fn size(&mut self, end: usize) -> usize {
        self.below(end as u64) as usize
    }

    /// True `times` of `out_of` times.
    pub fn chance(&mut self, times: u64, out_of: u64) -> bool {
        self.below(out_of) < times
    }

    /// One of some values.
    pub fn pick<T: Copy>(&mut self, values: &[T]) -> T {
        values[self.size(values.len())]
    }

    /// A byte.
    pub fn byte(&mut self) -> u8 {
        self.bits() as u8
    }
}
