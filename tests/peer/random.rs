//! A seeded generator (splitmix64): the same seed draws the same script on every machine.

#[derive(Clone)]
pub struct Random(u64);

impl Random {
    pub fn new(seed: u64) -> Self {
        Random(seed)
    }

    pub fn bits(&mut self) -> u64 {
        self.0 = self.0.wrapping_add(0x9E37_79B9_7F4A_7C15);
        let mut z = self.0;
        z = (z ^ (z >> 30)).wrapping_mul(0xBF58_476D_1CE4_E5B9);
        z = (z ^ (z >> 27)).wrapping_mul(0x94D0_49BB_1331_11EB);
        z ^ (z >> 31)
    }

    pub fn byte(&mut self) -> u8 {
        (self.bits() >> 32) as u8
    }

    /// From 0 to `end` - 1. The slight bias of the remainder does no harm here.
    pub fn below(&mut self, end: usize) -> usize {
        ((self.bits() >> 16) % end as u64) as usize
    }

    pub fn between(&mut self, first: usize, last: usize) -> usize {
        first + self.below(last - first + 1)
    }

    pub fn chance(&mut self, percent: usize) -> bool {
        self.below(100) < percent
    }

    pub fn pick<T: Copy>(&mut self, choices: &[T]) -> T {
        choices[self.below(choices.len())]
    }

    /// A byte with few bits set, all bits set, or any: registers show most at their edges.
    pub fn edge_byte(&mut self) -> u8 {
        match self.below(4) {
            0 => 1 << self.below(8),
            1 => self.pick(&[0x00, 0xFF]),
            _ => self.byte(),
        }
    }
}
