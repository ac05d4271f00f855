//! A small generator of numbers that look random (SplitMix64).

pub struct Random(u64);

impl Random {
    pub fn new(seed: u64) -> Random {
        Random(seed)
    }

    pub fn number(&mut self) -> u64 {
        self.0 = self.0.wrapping_add(0x9e37_79b9_7f4a_7c15);
        let mut mixed = self.0;
        mixed = (mixed ^ (mixed >> 30)).wrapping_mul(0xbf58_476d_1ce4_e5b9);
        mixed = (mixed ^ (mixed >> 27)).wrapping_mul(0x94d0_49bb_1331_11eb);
        mixed ^ (mixed >> 31)
    }

    /// A number from 0 to `bound` − 1.
    pub fn below(&mut self, bound: usize) -> usize {
        (self.number() % bound as u64) as usize
    }

    /// A number from `least` to `greatest`.
    pub fn between(&mut self, least: i32, greatest: i32) -> i32 {
        assert!(least <= greatest, "{least} to {greatest}");
        least + self.below((greatest - least) as usize + 1) as i32
    }

    /// The same, small distances from `least` being more frequent.
    pub fn low_between(&mut self, least: i32, greatest: i32) -> i32 {
        let bits = (greatest - least + 1).ilog2() as usize;
        let span = (greatest - least) >> self.below(bits + 1);
        self.between(least, least + span)
    }

    pub fn pick<T: Copy>(&mut self, items: &[T]) -> T {
        items[self.below(items.len())]
    }

    /// True once in `times` calls, on average.
    pub fn once_in(&mut self, times: usize) -> bool {
        self.below(times) == 0
    }

    pub fn byte(&mut self) -> u8 {
        self.number() as u8
    }
}
