//! Random numbers that are the same in every run: SplitMix64.

/// A stream of random numbers.
pub struct Random(u64);

impl Random {
    /// The stream of a seed.
    pub fn new(seed: u64) -> Self {
        Self(seed)
    }

    /// The stream that belongs to one place below a seed.
    pub fn at(seed: u64, name: &str, place: u64) -> Self {
        let mut own = Self(seed);
        for byte in name.bytes() {
            own.0 = own.0.rotate_left(7) ^ u64::from(byte);
            own.next();
        }
        own.0 ^= place.wrapping_mul(0xd134_2543_de82_ef95);
        own.next();
        own
    }

    /// The next 64 bits.
    #[allow(clippy::should_implement_trait)]
    pub fn next(&mut self) -> u64 {
        self.0 = self.0.wrapping_add(0x9e37_79b9_7f4a_7c15);
        let mut x = self.0;
        x = (x ^ (x >> 30)).wrapping_mul(0xbf58_476d_1ce4_e5b9);
        x = (x ^ (x >> 27)).wrapping_mul(0x94d0_49bb_1331_11eb);
        x ^ (x >> 31)
    }

    /// The next 32 bits.
    pub fn word(&mut self) -> u32 {
        (self.next() >> 32) as u32
    }

    /// A number below `bound`, which is not 0.
    pub fn below(&mut self, bound: usize) -> usize {
        ((u128::from(self.next()) * bound as u128) >> 64) as usize
    }

    /// A number from `least` to `most`.
    pub fn between(&mut self, least: usize, most: usize) -> usize {
        least + self.below(most - least + 1)
    }

    /// One of them.
    pub fn pick<T: Copy>(&mut self, of: &[T]) -> T {
        of[self.below(of.len())]
    }

    /// True once in `n`.
    pub fn once_in(&mut self, n: usize) -> bool {
        self.below(n) == 0
    }

    /// A number of any size: each count of bits is as likely as each other.
    pub fn any_size(&mut self) -> u32 {
        let bits = self.below(33);
        if bits == 0 { 0 } else { self.word() >> (32 - bits) }
    }
}
