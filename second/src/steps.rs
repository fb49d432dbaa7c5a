//! Document 01's checker in steps. The state is five plain numbers that the
//! caller may have forged, so each use doubts them.

use crate::checker::{fits, Verdict};
use crate::refusals::{element, elements, exact, limits};
use crate::rounds::value;

/// "The state holds vars, degree, rounds taken, running claim and a rejected
/// mark." The mark is 0 or 1; any other number counts as set.
#[derive(Clone, Debug, PartialEq)]
pub struct State {
    pub vars: u64,
    pub degree: u64,
    pub taken: u64,
    pub claim: u64,
    pub rejected: u64,
}

/// "Opening: 1, 2, 5."
pub fn open(n: u64, vars: u64, degree: u64, claim: u64) -> Result<State, u64> {
    limits(vars, degree)?;
    element(n, claim)?;
    Ok(State { vars, degree, taken: 0, claim, rejected: 0 })
}

/// "1, 2, 5 on the running claim", then the part of 7 that holds for any use:
/// "more rounds taken than vars, or rejected with all rounds taken".
fn doubt(n: u64, state: &State) -> Result<(), u64> {
    limits(state.vars, state.degree)?;
    element(n, state.claim)?;
    if state.taken > state.vars {
        return Err(7);
    }
    if state.rejected != 0 && state.taken == state.vars {
        return Err(7);
    }
    Ok(())
}

fn judge_step(n: u64, state: &State, message: &[u64], challenge: u64) -> Result<(), u64> {
    doubt(n, state)?;
    // "a step on a rejected or complete state"
    if state.rejected != 0 || state.taken == state.vars {
        return Err(7);
    }
    exact(message, state.degree + 1)?;
    elements(n, message)?;
    element(n, challenge)
}

/// One round. Accepted means that the round was taken. "A rejecting step sets
/// the mark and changes nothing else; the rejecting round is rounds taken + 1."
/// A refused step gives its state back as it came.
pub fn step(
    n: u64,
    state: &State,
    message: &[u64],
    challenge: u64,
) -> (Result<Verdict, u64>, State) {
    let mut after = state.clone();
    if let Err(number) = judge_step(n, state, message, challenge) {
        return (Err(number), after);
    }
    if !fits(n, message, state.claim) {
        after.rejected = 1;
        return (Ok(Verdict::Rejected(state.taken + 1)), after);
    }
    after.taken = state.taken + 1;
    after.claim = value(n, message, challenge);
    (Ok(Verdict::Accepted), after)
}

/// "Closing compares the running claim with a value that the caller gives for
/// f; where they differ it reports round m." A rejected state gives its round.
pub fn close(n: u64, state: &State, given: u64) -> Result<Verdict, u64> {
    doubt(n, state)?;
    // "closing a state neither rejected nor complete"
    if state.rejected == 0 && state.taken < state.vars {
        return Err(7);
    }
    element(n, given)?;
    if state.rejected != 0 {
        Ok(Verdict::Rejected(state.taken + 1))
    } else if state.claim == given {
        Ok(Verdict::Accepted)
    } else {
        Ok(Verdict::Rejected(state.vars))
    }
}

#[cfg(test)]
mod tests {
    use super::*;
    use crate::field::P;

    fn state(vars: u64, degree: u64, taken: u64, claim: u64, rejected: u64) -> State {
        State { vars, degree, taken, claim, rejected }
    }

    #[test]
    fn p9_in_steps_with_refused_ones_among_them() {
        let opened = open(P, 2, 2, 6).unwrap();
        assert_eq!(close(P, &opened, 4), Err(7));
        let (answer, same) = step(P, &opened, &[4, 0], 3);
        assert_eq!((answer, &same), (Err(3), &opened));
        let (answer, same) = step(P, &opened, &[4, 0, P], 3);
        assert_eq!((answer, &same), (Err(5), &opened));
        let (answer, one) = step(P, &opened, &[4, 0, 2147483645], 3);
        assert_eq!((answer, &one), (Ok(Verdict::Accepted), &state(2, 2, 1, 2147483633, 0)));
        let (answer, two) = step(P, &one, &[2147483629, 30, 2147483639], 1);
        assert_eq!((answer, &two), (Ok(Verdict::Accepted), &state(2, 2, 2, 4, 0)));
        assert_eq!(step(P, &two, &[0, 0, 0], 1).0, Err(7));
        assert_eq!(close(P, &two, 4), Ok(Verdict::Accepted));
        assert_eq!(close(P, &two, 5), Ok(Verdict::Rejected(2)));
        assert_eq!(close(P, &two, P), Err(5));
    }

    #[test]
    fn p11_in_steps() {
        let opened = open(P, 2, 1, 11).unwrap();
        let (_, one) = step(P, &opened, &[7, 2147483644], 5);
        let (answer, after) = step(P, &one, &[3, 1], 9);
        assert_eq!(answer, Ok(Verdict::Rejected(2)));
        assert_eq!(after, state(2, 1, 1, one.claim, 1));
        assert_eq!(step(P, &after, &[3, 1], 9), (Err(7), after.clone()));
        assert_eq!(close(P, &after, 0), Ok(Verdict::Rejected(2)));
        assert_eq!(close(P, &after, P), Err(5));
    }

    #[test]
    fn opening_refuses_in_order() {
        assert_eq!(open(P, 17, 4, P), Err(1));
        assert_eq!(open(P, 16, 4, P), Err(2));
        assert_eq!(open(P, 16, 3, P), Err(5));
        assert!(open(P, 16, 3, P - 1).is_ok());
    }

    #[test]
    fn forged_states() {
        let refused = |s: &State| (step(P, s, &[P], P).0, close(P, s, P));
        assert_eq!(refused(&state(17, 0, 20, P, 1)), (Err(1), Err(1)));
        assert_eq!(refused(&state(16, 4, 20, P, 1)), (Err(2), Err(2)));
        assert_eq!(refused(&state(16, 3, 20, P, 1)), (Err(5), Err(5)));
        assert_eq!(refused(&state(16, 3, 17, 0, 0)), (Err(7), Err(7)));
        assert_eq!(refused(&state(16, 3, 4294967295, 0, 1)), (Err(7), Err(7)));
        assert_eq!(refused(&state(2, 1, 2, 0, 1)), (Err(7), Err(7)));
        // Rejected and not complete: a step is 7, closing is not.
        assert_eq!(refused(&state(2, 1, 1, 0, 1)), (Err(7), Err(5)));
        // Complete: a step is 7, closing looks at the value.
        assert_eq!(refused(&state(2, 1, 2, 0, 0)), (Err(7), Err(5)));
        // Neither: closing is 7, a step looks at the message.
        assert_eq!(refused(&state(2, 1, 1, 0, 0)), (Err(3), Err(7)));
        assert_eq!(step(P, &state(2, 1, 1, 0, 0), &[0, 0], P).0, Err(5));
    }
}
