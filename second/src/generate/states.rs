//! Forged states: each number of a state over its edges, for a step and for
//! closing. "any use of a state with more rounds taken than vars, or rejected
//! with all rounds taken" is among them.

use super::growing::{Inputs, EDGES};
use crate::cases::Case;
use crate::field::{inv, mul, sub, P};
use crate::refusals::MOST_DEGREE;

const TOP: u64 = (1 << 32) - 1;

/// A message whose values at 0 and 1 add up to the claim: all coefficients
/// but the first are given, 2·first is what is missing.
fn fitting(claim: u64, others: &[u64]) -> Vec<u64> {
    let mut missing = claim % P;
    for other in others {
        missing = sub(P, missing, *other);
    }
    let half = inv(P, 2).unwrap();
    let mut message = vec![mul(P, missing, half)];
    message.extend(others);
    message
}

fn rounds_near(vars: u64) -> Vec<u64> {
    let mut result = vec![0, 1, vars, TOP];
    result.extend([vars.saturating_sub(1), (vars + 1).min(TOP)]);
    result
}

fn forged(code: u64, state: [u64; 5]) -> Case {
    let mut case = Case::new(code);
    for number in state {
        case = case.number(number);
    }
    case
}

/// Step and closing for one forged state.
fn uses(to: &mut Inputs, state: [u64; 5]) {
    let [_, degree, _, claim, _] = state;
    let others = to.random.elements(degree.clamp(1, MOST_DEGREE));
    let challenge = to.random.element();
    let mut message = fitting(claim, &others);
    if to.random.below(4) == 0 {
        message[0] = to.random.element();
    }
    to.case(&forged(31, state).plain(&message).number(challenge));
    to.case(&forged(32, state).number(claim));
    let value = to.random.pick(&[0, P - 1, P, TOP]);
    to.case(&forged(32, state).number(value));
}

pub fn add(to: &mut Inputs) {
    to.comment("forged states: a step and two closings on each");
    for vars in [0, 1, 2, 16, 17, 1 << 31, TOP] {
        for degree in [0, 1, 2, 3, 4, TOP] {
            for taken in rounds_near(vars) {
                for claim in [0, P - 1, P, TOP] {
                    uses(to, [vars, degree, taken, claim, 0]);
                    uses(to, [vars, degree, taken, claim, 1]);
                }
            }
        }
    }
    to.comment("states as a caller may hold them: steps that fit and steps that don't");
    for _ in 0..500 {
        let (vars, degree) = (to.random.below(17), 1 + to.random.below(MOST_DEGREE));
        let (taken, claim) = (to.random.below(vars + 1), to.random.element());
        let rejected = to.random.pick(&[0, 0, 0, 1]);
        uses(to, [vars, degree, taken, claim, rejected]);
    }
    to.comment("opening at the edges");
    for vars in [0, 1, 15, 16, 17, 1 << 31, TOP] {
        for degree in [0, 1, 2, 3, 4, TOP] {
            for claim in EDGES {
                to.case(&Case::new(30).number(vars).number(degree).number(claim));
            }
        }
    }
}
