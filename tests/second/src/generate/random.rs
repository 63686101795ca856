//! A small generator of pseudo-random numbers (splitmix64): the same seed gives the same numbers everywhere.

/// The state of a generator.
pub struct Random(u64);

impl Random {
    /// A generator for one case of a seed, so that each case can be made again without those before it.
    pub fn new(seed: u64, case: u64) -> Random {
        let mut random = Random(seed);
        let start = random.draw() ^ case.wrapping_mul(0x9E37_79B9_7F4A_7C15);
        Random(start)
    }

    pub fn draw(&mut self) -> u64 {
        self.0 = self.0.wrapping_add(0x9E37_79B9_7F4A_7C15);
        let mut mixed = self.0;
        mixed = (mixed ^ (mixed >> 30)).wrapping_mul(0xBF58_476D_1CE4_E5B9);
        mixed = (mixed ^ (mixed >> 27)).wrapping_mul(0x94D0_49BB_1331_11EB);
        mixed ^ (mixed >> 31)
    }

    /// A number from 0 up to but without this one, which must not be 0.
    pub fn below(&mut self, end: usize) -> usize {
        (self.draw() % end as u64) as usize
    }

    /// A number from the first to the last, both included.
    pub fn between(&mut self, first: i64, last: i64) -> i64 {
        first + (self.draw() % (last - first + 1) as u64) as i64
    }

    /// Yes once in so many times.
    pub fn once_in(&mut self, times: usize) -> bool {
        self.below(times) == 0
    }

    /// One of the choices, of which there must be some.
    pub fn one<T: Copy>(&mut self, choices: &[T]) -> T {
        choices[self.below(choices.len())]
    }

    /// Any byte.
    pub fn byte(&mut self) -> u8 {
        self.draw() as u8
    }
}
