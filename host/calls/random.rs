//! A small generator of pseudo-random numbers (splitmix64).

/// Numbers that a seed decides: the same seed gives the same numbers for ever, on every machine.
#[derive(Clone, Debug)]
pub struct Random(u64);

impl Random {
    /// Any number is a seed.
    ///
    /// ```
    /// assert_eq!(calls::Random::new(7).word(), calls::Random::new(7).word());
    /// ```
    pub fn new(seed: u64) -> Random {
        Random(seed)
    }

    /// Any word.
    pub fn word(&mut self) -> u64 {
        self.0 = self.0.wrapping_add(0x9E37_79B9_7F4A_7C15);
        let mut z = self.0;
        z = (z ^ (z >> 30)).wrapping_mul(0xBF58_476D_1CE4_E5B9);
        z = (z ^ (z >> 27)).wrapping_mul(0x94D0_49BB_1331_11EB);
        z ^ (z >> 31)
    }

    /// A number below `end`, 0 if `end` is 0.
    ///
    /// ```
    /// assert!(calls::Random::new(7).below(10) < 10);
    /// ```
    pub fn below(&mut self, end: u64) -> u64 {
        ((u128::from(self.word()) * u128::from(end)) >> 64) as u64
    }

    /// True `times` times out of `of`.
    pub fn chance(&mut self, times: u64, of: u64) -> bool {
        self.below(of) < times
    }

    /// One of some items, of which there must be one at least.
    pub fn one_of<T: Copy>(&mut self, items: &[T]) -> T {
        items[self.below(items.len() as u64) as usize]
    }
}
