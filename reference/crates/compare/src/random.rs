//! A seeded generator: the same numbers on every machine.

/// xorshift64*, which never gives the same 64 bits twice in a row and needs no crate.
pub struct Random(u64);

impl Random {
    pub fn new(seed: u64) -> Random {
        // A seed of 0 would stay 0; the multiplication spreads small seeds.
        Random((seed + 1).wrapping_mul(0x9e37_79b9_7f4a_7c15))
    }

    pub fn bits(&mut self) -> u64 {
        self.0 ^= self.0 >> 12;
        self.0 ^= self.0 << 25;
        self.0 ^= self.0 >> 27;
        self.0.wrapping_mul(0x2545_f491_4f6c_dd1d)
    }
}
