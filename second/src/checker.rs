//! Document 01's checker in one call, with tables and without.

use crate::field::add;
use crate::refusals::{element, elements, exact, limits, messages_length, tables_length};
use crate::rounds::value;
use crate::tables::f;

/// The checker's answer where it does not refuse. From a step, Accepted means
/// that the round was taken.
#[derive(Debug, PartialEq)]
pub enum Verdict {
    Accepted,
    Rejected(u64),
}

/// The answer of the form without tables.
#[derive(Debug, PartialEq)]
pub enum Last {
    Value(u64),
    Rejected(u64),
}

/// "In round j the message must have s(0) + s(1) = c(j-1)".
pub fn fits(n: u64, message: &[u64], claim: u64) -> bool {
    add(n, value(n, message, 0), value(n, message, 1 % n)) == claim
}

/// All rounds: the first that does not fit rejects, else "cj = s(rj)" and the
/// last value is cm. With no rounds that is c0, the claim.
pub fn judge_rounds(n: u64, degree: u64, claim: u64, challenges: &[u64], messages: &[u64]) -> Last {
    let width = degree as usize + 1;
    let mut running = claim;
    for (j, challenge) in challenges.iter().enumerate() {
        let message = &messages[j * width..(j + 1) * width];
        if !fits(n, message, running) {
            return Last::Rejected(j as u64 + 1);
        }
        running = value(n, message, *challenge);
    }
    Last::Value(running)
}

/// The entry "checker": 1, 2, 3, 5, the search for 5 "in tables, claim,
/// challenges, messages". "A final check that fails is reported as round m."
pub fn check(
    n: u64,
    vars: u64,
    degree: u64,
    tables: &[u64],
    claim: u64,
    challenges: &[u64],
    messages: &[u64],
) -> Result<Verdict, u64> {
    limits(vars, degree)?;
    exact(tables, tables_length(vars, degree))?;
    exact(challenges, vars)?;
    exact(messages, messages_length(vars, degree))?;
    elements(n, tables)?;
    element(n, claim)?;
    elements(n, challenges)?;
    elements(n, messages)?;
    Ok(match judge_rounds(n, degree, claim, challenges, messages) {
        Last::Rejected(round) => Verdict::Rejected(round),
        Last::Value(last) if last == f(n, degree, tables, challenges) => Verdict::Accepted,
        Last::Value(_) => Verdict::Rejected(vars),
    })
}

/// The entry "form without tables that gives cm in place of the final check".
pub fn check_rounds(
    n: u64,
    vars: u64,
    degree: u64,
    claim: u64,
    challenges: &[u64],
    messages: &[u64],
) -> Result<Last, u64> {
    limits(vars, degree)?;
    exact(challenges, vars)?;
    exact(messages, messages_length(vars, degree))?;
    element(n, claim)?;
    elements(n, challenges)?;
    elements(n, messages)?;
    Ok(judge_rounds(n, degree, claim, challenges, messages))
}

#[cfg(test)]
mod tests {
    use super::*;
    use crate::field::P;

    const TWO: [u64; 8] = [0, 1, 2, 0, 3, 4, 1, 2];
    const ROUNDS: [u64; 6] = [4, 0, 2147483645, 2147483629, 30, 2147483639];

    #[test]
    fn p9_accepted_last_value_4() {
        assert_eq!(check(P, 2, 2, &TWO, 6, &[3, 1], &ROUNDS), Ok(Verdict::Accepted));
        assert_eq!(check_rounds(P, 2, 2, 6, &[3, 1], &ROUNDS), Ok(Last::Value(4)));
    }

    #[test]
    fn p10_p11_a_false_claim() {
        let messages = [7, 2147483644, 3, 1];
        let one = [3, 4, 1, 2];
        assert_eq!(check(P, 2, 1, &one, 11, &[0, 9], &messages), Ok(Verdict::Accepted));
        assert_eq!(check(P, 2, 1, &one, 11, &[5, 9], &messages), Ok(Verdict::Rejected(2)));
        assert_eq!(check_rounds(P, 2, 1, 11, &[5, 9], &messages), Ok(Last::Rejected(2)));
    }

    #[test]
    fn p12_no_variables() {
        assert_eq!(check(P, 0, 2, &[5, 7], 35, &[], &[]), Ok(Verdict::Accepted));
        assert_eq!(check(P, 0, 2, &[5, 7], 36, &[], &[]), Ok(Verdict::Rejected(0)));
        assert_eq!(check_rounds(P, 0, 2, 36, &[], &[]), Ok(Last::Value(36)));
    }

    #[test]
    fn a_failed_final_check_is_round_m() {
        let other = [0, 2, 2, 0, 3, 4, 1, 2];
        assert_eq!(check(P, 2, 2, &other, 6, &[3, 1], &ROUNDS), Ok(Verdict::Rejected(2)));
        // A first round that fails comes before it.
        assert_eq!(check(P, 2, 2, &other, 7, &[3, 1], &ROUNDS), Ok(Verdict::Rejected(1)));
    }

    #[test]
    fn order_of_refusals() {
        assert_eq!(check(P, 17, 4, &[P], P, &[P], &[P]), Err(1));
        assert_eq!(check(P, 2, 4, &[P], P, &[P], &[P]), Err(2));
        assert_eq!(check(P, 2, 2, &TWO, P, &[P], &ROUNDS), Err(3));
        assert_eq!(check(P, 2, 2, &TWO, P, &[P, 0], &ROUNDS[1..]), Err(3));
        assert_eq!(check(P, 2, 2, &TWO[1..], P, &[P, 0], &ROUNDS), Err(3));
        assert_eq!(check(P, 2, 2, &TWO, P, &[3, 1], &ROUNDS), Err(5));
        assert_eq!(check(P, 2, 2, &TWO, 6, &[3, P], &ROUNDS), Err(5));
        assert_eq!(check(P, 2, 2, &TWO, 7, &[3, 1], &[4, 0, 0, 0, 0, P]), Err(5));
        assert_eq!(check_rounds(P, 0, 1, P, &[], &[]), Err(5));
        assert_eq!(check_rounds(P, 0, 1, P, &[0], &[]), Err(3));
        assert_eq!(check_rounds(P, 0, 1, P, &[], &[0]), Err(3));
    }
}
