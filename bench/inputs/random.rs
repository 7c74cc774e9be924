//! Random numbers that are the same at each run (xorshift, G. Marsaglia, 2003).

pub struct Random(u64);

impl Random {
    pub fn new(seed: u64) -> Random {
        Random(seed.wrapping_mul(0x9E37_79B9_7F4A_7C15) | 1)
    }

    pub fn word(&mut self) -> u64 {
        self.0 ^= self.0 << 13;
        self.0 ^= self.0 >> 7;
        self.0 ^= self.0 << 17;
        self.0.wrapping_mul(0x2545_F491_4F6C_DD1D)
    }

    /// A number from `least` to `greatest`.
    pub fn within(&mut self, least: i32, greatest: i32) -> i32 {
        let span = (greatest - least) as u64 + 1;
        least + ((self.word() >> 33) % span) as i32
    }

    pub fn one_in(&mut self, n: i32) -> bool {
        self.within(1, n) == 1
    }
}
