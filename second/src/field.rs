//! Arithmetic modulo n, and document 01's six field entries.
//!
//! The plain functions take numbers below n and n below 2^32, so that no
//! product leaves a u64. The entries judge their operands first.

use crate::refusals::element;

/// 2^31 - 1 (document 01, "The protocol").
pub const P: u64 = 2147483647;

pub fn add(n: u64, a: u64, b: u64) -> u64 {
    (a + b) % n
}

pub fn sub(n: u64, a: u64, b: u64) -> u64 {
    (a + n - b) % n
}

pub fn mul(n: u64, a: u64, b: u64) -> u64 {
    (a * b) % n
}

/// a multiplied e times, by squaring: e goes up to 2^64 - 1, and so many
/// products one by one would never end. Nothing multiplied is 1, so 0 to the
/// power 0 is 1.
pub fn pow(n: u64, a: u64, e: u64) -> u64 {
    let mut result = 1 % n;
    let mut square = a % n;
    let mut left = e;
    while left > 0 {
        if left % 2 == 1 {
            result = mul(n, result, square);
        }
        square = mul(n, square, square);
        left /= 2;
    }
    result
}

/// The number b below n with a·b = 1, if there is one, by Euclid's algorithm:
/// a search through all of them takes 2^31 steps.
pub fn inv(n: u64, a: u64) -> Option<u64> {
    // Kept at each turn: r = t·a modulo n, for both pairs.
    let (mut r0, mut t0) = (n, 0);
    let (mut r1, mut t1) = (a % n, 1 % n);
    while r1 != 0 {
        let q = r0 / r1;
        let r2 = r0 - q * r1;
        let t2 = sub(n, t0, mul(n, q % n, t1));
        r0 = r1;
        t0 = t1;
        r1 = r2;
        t1 = t2;
    }
    if r0 == 1 {
        Some(t0)
    } else {
        None
    }
}

pub fn sum(n: u64, a: u64, b: u64) -> Result<u64, u64> {
    element(n, a)?;
    element(n, b)?;
    Ok(add(n, a, b))
}

pub fn difference(n: u64, a: u64, b: u64) -> Result<u64, u64> {
    element(n, a)?;
    element(n, b)?;
    Ok(sub(n, a, b))
}

pub fn negative(n: u64, a: u64) -> Result<u64, u64> {
    element(n, a)?;
    Ok(sub(n, 0, a))
}

pub fn product(n: u64, a: u64, b: u64) -> Result<u64, u64> {
    element(n, a)?;
    element(n, b)?;
    Ok(mul(n, a, b))
}

/// "Power takes any u64 exponent, and 0 to the power 0 is 1."
pub fn power(n: u64, a: u64, e: u64) -> Result<u64, u64> {
    element(n, a)?;
    Ok(pow(n, a, e))
}

/// "Inverse: 5, 6." Modulo a prime only 0 has none.
pub fn inverse(n: u64, a: u64) -> Result<u64, u64> {
    element(n, a)?;
    inv(n, a).ok_or(6)
}

#[cfg(test)]
mod tests {
    use super::*;

    #[test]
    fn by_hand_from_document_01() {
        assert_eq!(product(P, P - 1, P - 1), Ok(1));
        assert_eq!(sum(P, P - 1, 1), Ok(0));
        assert_eq!(difference(P, 0, 1), Ok(P - 1));
        assert_eq!(negative(P, 0), Ok(0));
        assert_eq!(power(P, 0, 0), Ok(1));
        assert_eq!(power(P, 0, 1), Ok(0));
    }

    #[test]
    fn operand_p_is_refusal_5() {
        for bad in [P, P + 1, 1 << 31, (1 << 32) - 1] {
            assert_eq!(sum(P, bad, 0), Err(5));
            assert_eq!(sum(P, 0, bad), Err(5));
            assert_eq!(difference(P, bad, 0), Err(5));
            assert_eq!(difference(P, 0, bad), Err(5));
            assert_eq!(negative(P, bad), Err(5));
            assert_eq!(product(P, bad, 0), Err(5));
            assert_eq!(product(P, 0, bad), Err(5));
            assert_eq!(power(P, bad, 0), Err(5));
            assert_eq!(inverse(P, bad), Err(5));
        }
        assert_eq!(inverse(P, 0), Err(6));
    }

    /// Powers and inverses against their definitions, where these end.
    #[test]
    fn small_moduli_by_search() {
        for n in [2, 3, 5, 7, 11, 13] {
            for a in 0..n {
                let mut by_definition = 1 % n;
                for e in 0..20 {
                    assert_eq!(pow(n, a, e), by_definition);
                    by_definition = mul(n, by_definition, a);
                }
                let found = (0..n).find(|b| mul(n, a, *b) == 1 % n);
                assert_eq!(inv(n, a), found);
            }
        }
    }

    #[test]
    fn inverse_modulo_p() {
        for a in [1, 2, 3, 65537, P - 2, P - 1] {
            let b = inverse(P, a).unwrap();
            assert_eq!(mul(P, a, b), 1);
            assert_eq!(Ok(b), power(P, a, P - 2));
        }
    }
}
