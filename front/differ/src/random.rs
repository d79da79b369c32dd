//! Numbers from a seed: the same seed and case give the same numbers, on every machine.

/// A xorshift generator.
pub struct Random(u64);

/// One step of splitmix64.
fn mix(number: u64) -> u64 {
    let mut z = number.wrapping_add(0x9E37_79B9_7F4A_7C15);
    z = (z ^ (z >> 30)).wrapping_mul(0xBF58_476D_1CE4_E5B9);
    z = (z ^ (z >> 27)).wrapping_mul(0x94D0_49BB_1331_11EB);
    z ^ (z >> 31)
}

impl Random {
    /// The numbers of one case, so that each case can be made again alone.
    pub fn new(seed: u64, case: u64) -> Random {
        Random(mix(seed ^ mix(case)) | 1)
    }

    /// 64 bits.
    pub fn bits(&mut self) -> u64 {
        self.0 ^= self.0 >> 12;
        self.0 ^= self.0 << 25;
        self.0 ^= self.0 >> 27;
        self.0.wrapping_mul(0x2545_F491_4F6C_DD1D)
    }

    /// 0 to `n - 1`.
    pub fn below(&mut self, n: usize) -> usize {
        ((self.bits() >> 11) % n as u64) as usize
    }

    /// `least` to `most`, both of them too.
    pub fn between(&mut self, least: usize, most: usize) -> usize {
        least + self.below(most - least + 1)
    }

    /// `least` to `most` of a u64, its length in digits chosen first.
    pub fn worth(&mut self, least: u64, most: u64) -> u64 {
        let digits = self.between(1, most.ilog10() as usize + 1) as u32;
        let top = 10u64.pow(digits).min(most.saturating_add(1));
        ((self.bits() >> 1) % top).clamp(least, most)
    }

    /// True once in `n`.
    pub fn once_in(&mut self, n: usize) -> bool {
        self.below(n) == 0
    }

    /// One of a list.
    pub fn pick<'a, T: ?Sized>(&mut self, list: &[&'a T]) -> &'a T {
        list[self.below(list.len())]
    }

    /// One byte of a set.
    pub fn of(&mut self, set: &[u8]) -> u8 {
        set[self.below(set.len())]
    }

    /// `length` bytes of a set.
    pub fn bytes(&mut self, set: &[u8], length: usize) -> Vec<u8> {
        (0..length).map(|_| self.of(set)).collect()
    }

    /// A length from `least` to `most`, the two ends of it often.
    pub fn length(&mut self, least: usize, most: usize) -> usize {
        match self.below(6) {
            0 => least,
            1 => most,
            _ => self.between(least, most),
        }
    }
}
