//! Numbers that look random and come again with the same seed.

pub struct Random(u64);

impl Random {
    pub fn new(seed: u64) -> Self { Self(seed) }

    /// The numbers of one round of one call, which have nothing to do with those of another
    pub fn of(seed: u64, round: u64, call: u64) -> Self {
        let mut state = Self(seed);
        state.0 = state.bits() ^ round;
        state.0 = state.bits() ^ call;
        state.0 = state.bits();
        state
    }

    /// The next 64 bits (splitmix64)
    pub fn bits(&mut self) -> u64 {
        self.0 = self.0.wrapping_add(0x9e37_79b9_7f4a_7c15);
        let z = (self.0 ^ (self.0 >> 30)).wrapping_mul(0xbf58_476d_1ce4_e5b9);
        let z = (z ^ (z >> 27)).wrapping_mul(0x94d0_49bb_1331_11eb);
        z ^ (z >> 31)
    }

    /// A number below `n`; 0 where n is 0
    pub fn below(&mut self, n: u64) -> u64 { if n == 0 { 0 } else { ((self.bits() as u128 * n as u128) >> 64) as u64 } }
    pub fn size(&mut self, n: usize) -> usize { self.below(n as u64) as usize }
    /// A number from `from` to `to`, both included
    pub fn range(&mut self, from: u64, to: u64) -> u64 {
        match (to - from).checked_add(1) { Some(n) => from + self.below(n), None => self.bits() }
    }
    pub fn one_in(&mut self, n: u64) -> bool { self.below(n) == 0 }
    pub fn pick<T: Copy>(&mut self, of: &[T]) -> T { of[self.size(of.len())] }

    /// A word: mostly small, often at an edge, sometimes any
    pub fn word(&mut self) -> u64 {
        match self.below(8) {
            0 => self.bits(),
            1 => { let width = self.below(64); self.bits() >> width }
            2 | 3 => self.edge(),
            _ => self.below(12),
        }
    }

    /// A number near a power of two, or near the greatest
    pub fn edge(&mut self) -> u64 {
        let power = self.pick(&[0, 1, 2, 3, 4, 8, 16, 20, 31, 32, 33, 53, 62, 63]);
        match self.below(4) {
            0 => u64::MAX - self.below(3),
            1 => (1u64 << power) - 1,
            2 => (1u64 << power) + self.below(2),
            _ => 1u64 << power,
        }
    }

    /// A signed word of either sign, of the same kinds
    pub fn long(&mut self) -> i64 {
        let word = self.word() as i64;
        match self.below(8) { 0 => i64::MIN.wrapping_add(word & 3), 1 => i64::MAX - (word & 3), 2 | 3 => word.wrapping_neg(), _ => word }
    }
}
