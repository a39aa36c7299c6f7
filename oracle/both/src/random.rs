//! A small generator of random numbers, so that a seed gives the same run everywhere.

#[derive(Clone)]
pub struct Random(u64);

impl Random {
    /// The stream of a seed and a name; each name has its own, so one part alone repeats what it did among others.
    pub fn new(seed: u64, name: &str) -> Random {
        let mix = |sum: u64, byte: u8| (sum ^ byte as u64).wrapping_mul(0x0000_0100_0000_01B3);
        Random(name.bytes().fold(seed ^ 0xCBF2_9CE4_8422_2325, mix))
    }

    pub fn next(&mut self) -> u64 {
        self.0 = self.0.wrapping_add(0x9E37_79B9_7F4A_7C15);
        let mut z = self.0;
        z = (z ^ (z >> 30)).wrapping_mul(0xBF58_476D_1CE4_E5B9);
        z = (z ^ (z >> 27)).wrapping_mul(0x94D0_49BB_1331_11EB);
        z ^ (z >> 31)
    }

    pub fn below(&mut self, n: usize) -> usize {
        (self.next() % n as u64) as usize
    }

    /// True about once in `n` times.
    pub fn once_in(&mut self, n: usize) -> bool {
        self.below(n) == 0
    }

    pub fn pick<'a, T>(&mut self, from: &'a [T]) -> &'a T {
        &from[self.below(from.len())]
    }
}
