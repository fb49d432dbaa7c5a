//! A small generator of numbers for the inputs (splitmix64), the same on
//! every machine for the same seed.

use crate::field::P;

pub struct Random {
    state: u64,
}

impl Random {
    pub fn new(seed: u64) -> Random {
        Random { state: seed }
    }

    pub fn number(&mut self) -> u64 {
        self.state = self.state.wrapping_add(0x9E37_79B9_7F4A_7C15);
        let mut z = self.state;
        z = (z ^ (z >> 30)).wrapping_mul(0xBF58_476D_1CE4_E5B9);
        z = (z ^ (z >> 27)).wrapping_mul(0x94D0_49BB_1331_11EB);
        z ^ (z >> 31)
    }

    /// A number below the bound. The slight unevenness does no harm here.
    pub fn below(&mut self, bound: u64) -> u64 {
        self.number() % bound
    }

    pub fn pick(&mut self, list: &[u64]) -> u64 {
        list[self.below(list.len() as u64) as usize]
    }

    /// An element; one in four stands at an edge of the field.
    pub fn element(&mut self) -> u64 {
        if self.below(4) == 0 {
            self.pick(&[0, 1, 2, P - 2, P - 1])
        } else {
            self.below(P)
        }
    }

    pub fn elements(&mut self, length: u64) -> Vec<u64> {
        (0..length).map(|_| self.element()).collect()
    }

    /// Old contents of a lent list: any u32, as they are no elements yet.
    pub fn anything(&mut self, length: u64) -> Vec<u64> {
        (0..length).map(|_| self.below(1 << 32)).collect()
    }
}

#[cfg(test)]
mod tests {
    use super::*;

    #[test]
    fn same_seed_same_numbers() {
        let mut a = Random::new(7);
        let mut b = Random::new(7);
        for _ in 0..100 {
            assert_eq!(a.number(), b.number());
            assert!(a.element() < P);
            assert!(b.element() < P);
        }
    }
}
