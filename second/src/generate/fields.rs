//! Cases for the six field entries.

use super::growing::{Inputs, EDGES};
use crate::cases::Case;
use crate::field::P;

/// Exponents at the edges of the field, of 32 and of 64 bits.
const EXPONENTS: [u64; 12] =
    [0, 1, 2, 3, P - 2, P - 1, P, (1 << 32) - 1, 1 << 32, 1 << 63, u64::MAX - 1, u64::MAX];

pub fn add(to: &mut Inputs) {
    to.comment("field: sum, difference, negative, product, power, inverse");
    edges(to);
    for _ in 0..100 {
        let (a, b) = (to.random.element(), to.random.element());
        let exponent = to.random.number() >> to.random.below(64);
        for code in [1, 2, 4] {
            to.case(&Case::new(code).number(a).number(b));
        }
        to.case(&Case::new(3).number(a));
        to.case(&Case::new(5).number(a).number(exponent));
        to.case(&Case::new(6).number(a));
    }
    // Products whose high and low parts add up to p, the slip "p itself
    // comes out for 0" among them.
    for a in 1..32 {
        let b = (1 << 31) / a;
        for b in [b - 1, b, b + 1] {
            to.case(&Case::new(4).number(a).number(b));
            to.case(&Case::new(4).number(P - a).number(b));
        }
        to.case(&Case::new(1).number(a).number(P - a));
        to.case(&Case::new(2).number(P - a).number(a));
    }
}

fn edges(to: &mut Inputs) {
    let mut values = EDGES.to_vec();
    values.extend([2, P - 2, 1 << 30, 46341, 65536]);
    for a in &values {
        to.case(&Case::new(3).number(*a));
        to.case(&Case::new(6).number(*a));
        for b in &values {
            for code in [1, 2, 4] {
                to.case(&Case::new(code).number(*a).number(*b));
            }
        }
        for exponent in EXPONENTS {
            to.case(&Case::new(5).number(*a).number(exponent));
        }
    }
}
