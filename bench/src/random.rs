//! A deterministic source of words: SplitMix64 (Steele, Lea, Flood).

pub struct Random {
    state: u64,
}

impl Random {
    pub fn new(seed: u64) -> Self {
        Random { state: seed }
    }

    /// A source of its own for each list of numbers, such as seed, group and history.
    pub fn for_place(numbers: &[u64]) -> Self {
        let mixed = numbers
            .iter()
            .fold(0, |state, &number| Random::new(state ^ number).word());
        Random::new(mixed)
    }

    pub fn word(&mut self) -> u64 {
        self.state = self.state.wrapping_add(0x9E37_79B9_7F4A_7C15);
        let mut word = self.state;
        word = (word ^ (word >> 30)).wrapping_mul(0xBF58_476D_1CE4_E5B9);
        word = (word ^ (word >> 27)).wrapping_mul(0x94D0_49BB_1331_11EB);
        word ^ (word >> 31)
    }

    /// 0 to `limit` - 1; 0 where `limit` is 0.
    pub fn below(&mut self, limit: u64) -> u64 {
        ((u128::from(self.word()) * u128::from(limit)) >> 64) as u64
    }

    pub fn between(&mut self, least: u64, most: u64) -> u64 {
        least + self.below(most - least + 1)
    }

    pub fn one_in(&mut self, count: u64) -> bool {
        self.below(count) == 0
    }

    pub fn pick<T: Copy>(&mut self, choices: &[T]) -> T {
        choices[self.below(choices.len() as u64) as usize]
    }

    /// One of `center` - `reach` to `center` + `reach`, not below 0.
    pub fn near(&mut self, center: u64, reach: u64) -> u64 {
        center.wrapping_add(self.below(2 * reach + 1)).saturating_sub(reach)
    }

    /// A word with as many bits as may be: small ones are as likely as large ones.
    pub fn any_width(&mut self) -> u64 {
        let shift = self.below(65);
        self.word().checked_shr(shift as u32).unwrap_or(0)
    }

    /// Up to `most`, and a bit at `lowest` or above it, which shows if it is lost with the upper bits of the word.
    pub fn with_an_upper_bit(&mut self, most: u64, lowest: u64) -> u64 {
        self.between(0, most) | 1 << self.between(lowest, 63)
    }

    pub fn words(&mut self, count: usize) -> Vec<u64> {
        (0..count).map(|_| self.word()).collect()
    }

    pub fn bytes(&mut self, count: usize) -> Vec<u8> {
        (0..count).map(|_| self.word() as u8).collect()
    }
}
