//! Numbers drawn from a seed (splitmix64): the same seed always gives the same scripts.

pub struct Random(u64);

impl Random {
    pub fn new(seed: u64) -> Self {
        Random(seed.wrapping_mul(0x9E37_79B9_7F4A_7C15) ^ 0x5851_F42D_4C95_7F2D)
    }

    pub fn draw(&mut self) -> u64 {
        self.0 = self.0.wrapping_add(0x9E37_79B9_7F4A_7C15);
        let mixed = (self.0 ^ (self.0 >> 30)).wrapping_mul(0xBF58_476D_1CE4_E5B9);
        let mixed = (mixed ^ (mixed >> 27)).wrapping_mul(0x94D0_49BB_1331_11EB);
        mixed ^ (mixed >> 31)
    }

    /// 0 up to, not including, a limit that is not 0.
    pub fn below(&mut self, limit: usize) -> usize {
        ((u128::from(self.draw()) * limit as u128) >> 64) as usize
    }

    /// From `low` to `high`, both included.
    pub fn between(&mut self, low: usize, high: usize) -> usize {
        low + self.below(high - low + 1)
    }

    /// True so many times in a hundred.
    pub fn percent(&mut self, times: usize) -> bool {
        self.below(100) < times
    }

    pub fn octet(&mut self) -> u8 {
        self.draw() as u8
    }

    pub fn pick<T: Copy>(&mut self, from: &[T]) -> Option<T> {
        (!from.is_empty()).then(|| from[self.below(from.len())])
    }

    /// One of the items for which the test holds.
    pub fn pick_where<T: Copy>(&mut self, from: &[T], test: impl Fn(&T) -> bool) -> Option<T> {
        let count = from.iter().filter(|item| test(item)).count();
        let chosen = self.below(count.max(1));
        from.iter().copied().filter(test).nth(chosen)
    }

    /// A number of any octet count, small ones and the ends of each count more often.
    pub fn number(&mut self) -> i32 {
        const ENDS: [i32; 12] =
            [0, -1, 127, 128, -128, -129, 32_767, 32_768, -8_388_608, 8_388_608, i32::MAX, i32::MIN];
        match self.below(10) {
            0..=4 => self.below(40) as i32 - 4,
            5..=6 => ENDS[self.below(ENDS.len())],
            _ => (self.draw() as i32) >> (8 * self.below(4)),
        }
    }

    /// A number for which the test does not hold.
    pub fn number_unless(&mut self, taken: impl Fn(i32) -> bool) -> i32 {
        loop {
            let number = self.number();
            if !taken(number) {
                return number;
            }
        }
    }
}
