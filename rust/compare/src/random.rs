//! A small generator of random numbers (SplitMix64), so that the seed repeats a run.

/// The state of one generator.
pub struct Random(u64);

impl Random {
    /// The generator of a seed, a part and a block, so that the inputs do not depend on the number
    /// of threads.
    pub fn new(seed: u64, part: &str, block: u64) -> Random {
        let named = part.bytes().fold(0xCBF2_9CE4_8422_2325, |h: u64, b| {
            (h ^ u64::from(b)).wrapping_mul(0x100_0000_01B3)
        });
        let mut random = Random(seed ^ named);
        let first = random.bits();
        random.0 = first.wrapping_add(block.wrapping_mul(0xD134_2543_DE82_EF95));
        random.bits();
        random
    }

    /// The next 64 bits.
    pub fn bits(&mut self) -> u64 {
        self.0 = self.0.wrapping_add(0x9E37_79B9_7F4A_7C15);
        let a = (self.0 ^ (self.0 >> 30)).wrapping_mul(0xBF58_476D_1CE4_E5B9);
        let b = (a ^ (a >> 27)).wrapping_mul(0x94D0_49BB_1331_11EB);
        b ^ (b >> 31)
    }

    /// A number below `end`, which is not 0.
    pub fn below(&mut self, end: usize) -> usize {
        ((u128::from(self.bits()) * end as u128) >> 64) as usize
    }

    /// True in `percent` of a hundred cases.
    pub fn chance(&mut self, percent: usize) -> bool {
        self.below(100) < percent
    }

    /// One element of a slice that is not empty.
    pub fn pick<T: Copy>(&mut self, list: &[T]) -> T {
        list[self.below(list.len())]
    }

    /// A random byte.
    pub fn byte(&mut self) -> u8 {
        self.bits() as u8
    }

    /// What a lent buffer is filled with: mostly values that no job writes, sometimes a value that
    /// a job could write.
    pub fn mark(&mut self) -> u8 {
        self.pick(&[0xA7, 0xA7, 0x5C, 0xFF, 0x80, 0x02, 0x01, 0x00])
    }
}
