//! Numbers for the tests: the same on every machine for the same seed.

use sendurafi::P;

pub struct Random(u64);

impl Random {
    pub fn new(seed: u64) -> Random {
        Random(seed)
    }

    /// A Weyl sequence, mixed by two multiplications.
    pub fn next(&mut self) -> u64 {
        self.0 = self.0.wrapping_add(0xA24B_AED4_963E_E407);
        let mut x = self.0;
        x = (x ^ (x >> 32)).wrapping_mul(0x9FB2_1C65_1E98_DF25);
        x = (x ^ (x >> 29)).wrapping_mul(0xD6E8_FEB8_6659_FD93);
        x ^ (x >> 32)
    }

    pub fn below(&mut self, bound: u32) -> u32 {
        (self.next() % u64::from(bound)) as u32
    }

    /// True once in `n` times.
    pub fn one_in(&mut self, n: u32) -> bool {
        self.below(n) == 0
    }

    /// Mostly any element; often one at an edge; now and then none at all.
    pub fn number(&mut self) -> u32 {
        match self.below(200) {
            0 => P,
            1 => P + 1,
            2 => u32::MAX,
            3..=20 => P - 1,
            21..=40 => self.below(3),
            _ => self.below(P),
        }
    }

    pub fn element(&mut self) -> u32 {
        match self.below(8) {
            0 => P - 1 - self.below(2),
            1 => self.below(3),
            _ => self.below(P),
        }
    }

    pub fn elements(&mut self, length: usize) -> Vec<u32> {
        (0..length).map(|_| self.element()).collect()
    }

    /// Old contents of a lent list.
    pub fn anything(&mut self, length: usize) -> Vec<u32> {
        (0..length).map(|_| self.next() as u32).collect()
    }

    /// A length that is mostly the right one.
    pub fn about(&mut self, length: usize) -> usize {
        match self.below(40) {
            0 => length + 1,
            1 => length.saturating_sub(1),
            2 => 0,
            _ => length,
        }
    }
}
