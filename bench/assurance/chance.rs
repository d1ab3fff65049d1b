//! Numbers that look like chance (xorshift64*), the same of a seed each time.

pub struct Chance(u64);

impl Chance {
    /// The numbers of a seed, without so many of the first.
    pub fn new(seed: u64, skipped: usize) -> Chance {
        let mut chance = Chance(seed.wrapping_mul(0x9e37_79b9_7f4a_7c15) | 1);
        for _ in 0..skipped {
            chance.next();
        }
        chance
    }

    pub fn next(&mut self) -> u64 {
        self.0 ^= self.0 >> 12;
        self.0 ^= self.0 << 25;
        self.0 ^= self.0 >> 27;
        self.0.wrapping_mul(0x2545_f491_4f6c_dd1d)
    }

    pub fn below(&mut self, count: usize) -> usize {
        ((self.next() >> 32) as usize * count) >> 32
    }

    /// A number of a range, its ends included.
    pub fn of(&mut self, least: i32, most: i32) -> i32 {
        least + self.below((most - least + 1) as usize) as i32
    }

    /// Happens so many times in a thousand.
    pub fn happens(&mut self, times: usize) -> bool {
        self.below(1000) < times
    }

    pub fn one<T: Copy>(&mut self, all: &[T]) -> T {
        all[self.below(all.len())]
    }
}
