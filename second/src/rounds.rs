//! Polynomials as coefficient lists, lowest power first, the true polynomials
//! of document 01's "Terms", and the prover.

use crate::field::{add, mul, pow, sub};
use crate::refusals::{corners, elements, exact, limits, messages_length, room, tables_length};
use crate::tables::{corner, table, weight};

/// Coefficient by coefficient. The lists may differ in length.
pub fn plus(n: u64, a: &[u64], b: &[u64]) -> Vec<u64> {
    let mut result = vec![0; a.len().max(b.len())];
    for (i, x) in a.iter().enumerate() {
        result[i] = add(n, result[i], *x);
    }
    for (i, x) in b.iter().enumerate() {
        result[i] = add(n, result[i], *x);
    }
    result
}

/// Multiplied out: x^i times x^j adds to the coefficient of x^(i+j).
pub fn times(n: u64, a: &[u64], b: &[u64]) -> Vec<u64> {
    let mut result = vec![0; a.len() + b.len() - 1];
    for (i, x) in a.iter().enumerate() {
        for (j, y) in b.iter().enumerate() {
            result[i + j] = add(n, result[i + j], mul(n, *x, *y));
        }
    }
    result
}

/// The sum of the coefficients times the powers of x.
pub fn value(n: u64, polynomial: &[u64], x: u64) -> u64 {
    let mut result = 0;
    for (i, coefficient) in polynomial.iter().enumerate() {
        result = add(n, result, mul(n, *coefficient, pow(n, x, i as u64)));
    }
    result
}

/// One table's extension at (bound, Xj, rest) as a polynomial in Xj. A corner
/// whose last variables differ from `rest` has weight 0, so only the corners
/// of the first variables are summed, with their weights.
fn linear(n: u64, vars: u64, table: &[u64], weights: &[u64], rest: u64) -> Vec<u64> {
    let rest_vars = vars - 1 - (weights.len() as u64).trailing_zeros() as u64;
    let mut result = vec![0, 0];
    for (first, at) in weights.iter().enumerate() {
        let low = (((first as u64) * 2) << rest_vars) + rest;
        let high = low + corners(rest_vars);
        let at_0 = mul(n, *at, table[low as usize]);
        let at_1 = mul(n, *at, table[high as usize]);
        // at_0·(1 - X) + at_1·X
        result[0] = add(n, result[0], at_0);
        result[1] = add(n, result[1], sub(n, at_1, at_0));
    }
    result
}

/// "The true polynomial of round j puts r1..r(j-1) for the first variables,
/// keeps Xj, and sums f over all corners of the rest." Here `bound` is
/// r1..r(j-1), so j is one more than its length. Asked for j from 1 to vars.
pub fn true_polynomial(n: u64, vars: u64, degree: u64, tables: &[u64], bound: &[u64]) -> Vec<u64> {
    let before = bound.len() as u64;
    let mut weights = Vec::new();
    for index in 0..corners(before) {
        weights.push(weight(n, bound, &corner(before, index)));
    }
    let mut result = vec![0; degree as usize + 1];
    for rest in 0..corners(vars - before - 1) {
        let mut at_rest = vec![1 % n];
        for t in 0..degree {
            let factor = linear(n, vars, table(vars, tables, t), &weights, rest);
            at_rest = times(n, &at_rest, &factor);
        }
        result = plus(n, &result, &at_rest);
    }
    result
}

/// All m true polynomials, round after round.
pub fn true_messages(
    n: u64,
    vars: u64,
    degree: u64,
    tables: &[u64],
    challenges: &[u64],
) -> Vec<u64> {
    let mut result = Vec::new();
    for before in 0..vars as usize {
        result.extend(true_polynomial(n, vars, degree, tables, &challenges[..before]));
    }
    result
}

/// The entry "prover": 1, 2, 3, 4, 5. Refused, it changes nothing. What the
/// two lent lists held before is not judged.
pub fn prove(
    n: u64,
    vars: u64,
    degree: u64,
    tables: &[u64],
    challenges: &[u64],
    messages: &mut [u64],
    scratch: &mut [u64],
) -> Result<(), u64> {
    limits(vars, degree)?;
    exact(tables, tables_length(vars, degree))?;
    exact(challenges, vars)?;
    room(messages, messages_length(vars, degree))?;
    room(scratch, tables_length(vars, degree))?;
    elements(n, tables)?;
    elements(n, challenges)?;
    let written = true_messages(n, vars, degree, tables, challenges);
    messages[..written.len()].copy_from_slice(&written);
    for place in &mut scratch[..tables.len()] {
        *place = 0;
    }
    Ok(())
}

#[cfg(test)]
mod tests {
    use super::*;
    use crate::field::P;
    use crate::random::Random;
    use crate::tables::f;

    #[test]
    fn p3_p4_modulo_11() {
        assert_eq!(true_polynomial(11, 2, 1, &[3, 4, 1, 2], &[]), [7, 7]);
        assert_eq!(true_polynomial(11, 2, 1, &[3, 4, 1, 2], &[5]), [4, 1]);
    }

    #[test]
    fn p7_p8_and_what_is_lent() {
        let tables = [0, 1, 2, 0, 3, 4, 1, 2];
        let mut messages = [9; 8];
        let mut scratch = [P; 10];
        let answer = prove(P, 2, 2, &tables, &[3, 1], &mut messages, &mut scratch);
        assert_eq!(answer, Ok(()));
        let wanted = [4, 0, 2147483645, 2147483629, 30, 2147483639, 9, 9];
        assert_eq!(messages, wanted);
        assert_eq!(scratch, [0, 0, 0, 0, 0, 0, 0, 0, P, P]);
    }

    /// The definition word for word: at every x, the polynomial's value is f
    /// summed over all corners of the rest, f by all corners and weights.
    /// k+1 different x settle a polynomial of degree k.
    #[test]
    fn true_polynomial_is_the_sum_of_f() {
        let mut random = Random::new(2);
        for n in [5, 13, P] {
            for (vars, degree) in [(1, 1), (1, 3), (2, 2), (3, 3), (4, 1), (5, 2)] {
                let length = tables_length(vars, degree);
                let tables: Vec<u64> = (0..length).map(|_| random.below(n)).collect();
                let bound: Vec<u64> = (1..vars).map(|_| random.below(n)).collect();
                for before in 0..vars {
                    let bound = &bound[..before as usize];
                    let found = true_polynomial(n, vars, degree, &tables, bound);
                    for x in 0..=degree {
                        let rest_vars = vars - before - 1;
                        let mut wanted = 0;
                        for rest in 0..corners(rest_vars) {
                            let mut point = bound.to_vec();
                            point.push(x);
                            point.extend(corner(rest_vars, rest));
                            wanted = add(n, wanted, f(n, degree, &tables, &point));
                        }
                        assert_eq!(value(n, &found, x), wanted);
                    }
                }
            }
        }
    }

    /// What prove answers for lent lists of these lengths. A refusal must
    /// leave both as they were.
    fn refused(
        vars: u64,
        degree: u64,
        tables: &[u64],
        challenges: &[u64],
        lent: (usize, usize),
    ) -> u64 {
        let mut messages = vec![P; lent.0];
        let mut scratch = vec![7; lent.1];
        let answer = prove(P, vars, degree, tables, challenges, &mut messages, &mut scratch);
        assert!(messages.iter().all(|x| *x == P));
        assert!(scratch.iter().all(|x| *x == 7));
        answer.unwrap_err()
    }

    #[test]
    fn order_of_refusals() {
        assert_eq!(refused(17, 0, &[P], &[], (0, 0)), 1);
        assert_eq!(refused(1, 0, &[P], &[], (0, 0)), 2);
        assert_eq!(refused(1, 1, &[P], &[0], (0, 0)), 3);
        assert_eq!(refused(1, 1, &[P, 0], &[], (0, 0)), 3);
        assert_eq!(refused(1, 1, &[P, 0], &[0], (1, 2)), 4);
        assert_eq!(refused(1, 1, &[P, 0], &[0], (2, 1)), 4);
        assert_eq!(refused(1, 1, &[P, 0], &[0], (2, 2)), 5);
        assert_eq!(refused(1, 1, &[0, 0], &[P], (2, 2)), 5);
    }
}
