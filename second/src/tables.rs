//! Tables and their extensions, as document 01's "Terms" define them.

use crate::field::{add, mul, sub};
use crate::refusals::{corners, elements, exact, limits, tables_length};

/// The corner at an index: "x1 is the top bit".
pub fn corner(vars: u64, index: u64) -> Vec<u64> {
    let mut bits = Vec::new();
    for i in 1..=vars {
        bits.push((index >> (vars - i)) & 1);
    }
    bits
}

/// "the product over i of (ri·bi + (1-ri)(1-bi))"
pub fn weight(n: u64, point: &[u64], corner: &[u64]) -> u64 {
    let mut result = 1 % n;
    for (r, b) in point.iter().zip(corner) {
        let one = mul(n, *r, *b);
        let zero = mul(n, sub(n, 1 % n, *r), sub(n, 1 % n, *b));
        result = mul(n, result, add(n, one, zero));
    }
    result
}

/// "the sum over all corners b of value(b) times" its weight.
pub fn extension(n: u64, table: &[u64], point: &[u64]) -> u64 {
    let vars = point.len() as u64;
    let mut result = 0;
    for index in 0..corners(vars) {
        let at = weight(n, point, &corner(vars, index));
        result = add(n, result, mul(n, table[index as usize], at));
    }
    result
}

/// "table after table": the t-th one, from 0.
pub fn table(vars: u64, tables: &[u64], t: u64) -> &[u64] {
    let size = corners(vars) as usize;
    let start = t as usize * size;
    &tables[start..start + size]
}

/// "f is the product of the k extensions."
pub fn f(n: u64, degree: u64, tables: &[u64], point: &[u64]) -> u64 {
    let vars = point.len() as u64;
    let mut result = 1 % n;
    for t in 0..degree {
        result = mul(n, result, extension(n, table(vars, tables, t), point));
    }
    result
}

/// "The true sum is f summed over all 2^m corners." At a corner an extension
/// is the table's own value (002), which saves 2^m weights at each corner; a
/// test compares this with f itself.
pub fn corner_sum(n: u64, vars: u64, degree: u64, tables: &[u64]) -> u64 {
    let mut result = 0;
    for index in 0..corners(vars) {
        let mut at_corner = 1 % n;
        for t in 0..degree {
            let value = table(vars, tables, t)[index as usize];
            at_corner = mul(n, at_corner, value);
        }
        result = add(n, result, at_corner);
    }
    result
}

/// The entry "true sum": 1, 2, 3, 5.
pub fn true_sum(n: u64, vars: u64, degree: u64, tables: &[u64]) -> Result<u64, u64> {
    limits(vars, degree)?;
    exact(tables, tables_length(vars, degree))?;
    elements(n, tables)?;
    Ok(corner_sum(n, vars, degree, tables))
}

/// The entry "value of f at a point": 1, 2, 3, 5. The point is m elements.
pub fn value_at(n: u64, vars: u64, degree: u64, tables: &[u64], point: &[u64]) -> Result<u64, u64> {
    limits(vars, degree)?;
    exact(tables, tables_length(vars, degree))?;
    exact(point, vars)?;
    elements(n, tables)?;
    elements(n, point)?;
    Ok(f(n, degree, tables, point))
}

#[cfg(test)]
mod tests {
    use super::*;
    use crate::field::P;
    use crate::random::Random;

    #[test]
    fn p1_p2_modulo_11() {
        assert_eq!(true_sum(11, 2, 1, &[3, 4, 1, 2]), Ok(10));
        assert_eq!(value_at(11, 2, 1, &[3, 4, 1, 2], &[5, 2]), Ok(6));
    }

    #[test]
    fn p5_p6_small_moduli() {
        assert_eq!(value_at(13, 2, 1, &[0, 1, 2, 0], &[3, 1]), Ok(11));
        assert_eq!(true_sum(5, 2, 1, &[1, 2, 2, 3]), Ok(3));
        assert_eq!(value_at(5, 2, 1, &[1, 2, 2, 3], &[2, 4]), Ok(2));
    }

    #[test]
    fn p7_p9_sum_and_last_value() {
        let tables = [0, 1, 2, 0, 3, 4, 1, 2];
        assert_eq!(true_sum(P, 2, 2, &tables), Ok(6));
        assert_eq!(value_at(P, 2, 2, &tables, &[3, 1]), Ok(4));
    }

    /// The true sum with the extensions themselves at every corner.
    #[test]
    fn corner_sum_is_the_sum_of_f() {
        let mut random = Random::new(1);
        for n in [5, 13, P] {
            for (vars, degree) in [(0, 1), (0, 3), (1, 2), (3, 1), (4, 2), (5, 3)] {
                let length = tables_length(vars, degree);
                let tables: Vec<u64> = (0..length).map(|_| random.below(n)).collect();
                let mut by_f = 0;
                for index in 0..corners(vars) {
                    by_f = add(n, by_f, f(n, degree, &tables, &corner(vars, index)));
                }
                assert_eq!(corner_sum(n, vars, degree, &tables), by_f);
            }
        }
    }

    #[test]
    fn order_of_refusals() {
        assert_eq!(true_sum(P, 17, 0, &[P]), Err(1));
        assert_eq!(true_sum(P, 4294967295, 1, &[]), Err(1));
        assert_eq!(true_sum(P, 2, 4, &[P]), Err(2));
        assert_eq!(true_sum(P, 2, 1, &[P, 0, 0]), Err(3));
        assert_eq!(true_sum(P, 2, 1, &[0, 0, 0, P]), Err(5));
        assert_eq!(value_at(P, 1, 1, &[P, 0], &[]), Err(3));
        assert_eq!(value_at(P, 1, 1, &[P], &[0]), Err(3));
        assert_eq!(value_at(P, 1, 1, &[1, 0], &[P]), Err(5));
        assert_eq!(value_at(P, 0, 2, &[5, 7], &[]), Ok(35));
    }
}
