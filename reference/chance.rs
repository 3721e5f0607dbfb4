//! Chance for the differential tester: the same seed gives the same histories.

pub struct Rng(pub u64);

impl Rng {
    pub fn new(seed: u64) -> Rng {
        // A xorshift generator never leaves zero; spread small seeds as well.
        Rng(seed.wrapping_mul(0x9E37_79B9_7F4A_7C15) ^ 0xD1B5_4A32_D192_ED03 | 1)
    }

    pub fn next(&mut self) -> u64 {
        self.0 ^= self.0 >> 12;
        self.0 ^= self.0 << 25;
        self.0 ^= self.0 >> 27;
        self.0.wrapping_mul(0x2545_F491_4F6C_DD1D)
    }

    pub fn below(&mut self, limit: u64) -> u64 {
        (self.next() >> 32) % limit
    }

    pub fn word(&mut self) -> u32 {
        (self.next() >> 32) as u32
    }

    pub fn byte(&mut self) -> u8 {
        (self.next() >> 56) as u8
    }

    pub fn chance(&mut self, percent: u64) -> bool {
        self.below(100) < percent
    }

    pub fn pick<T: Copy>(&mut self, from: &[T]) -> T {
        from[self.below(from.len() as u64) as usize]
    }

    pub fn weighted<T: Copy>(&mut self, from: &[(u64, T)]) -> T {
        let mut roll = self.below(from.iter().map(|(weight, _)| weight).sum());
        for &(weight, value) in from {
            if roll < weight {
                return value;
            }
            roll -= weight;
        }
        unreachable!("the roll is below the sum")
    }
}
