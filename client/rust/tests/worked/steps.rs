//! The checker in steps: honest, lying, and from states that no step leads to.

use crate::{plain, PROOF};
use sendurafi::{State, Step, Verdict, P};

/// A step's message and challenge, its answer, and the state after it: rounds
/// taken, running claim, mark.
type Taken<'a> = (&'a [u32], u32, Result<Step, u32>, (u32, u32, bool));

fn walk(state: &mut State, steps: &[Taken]) {
    for (message, challenge, answer, after) in steps {
        assert_eq!(plain(state.step(message, *challenge)), *answer);
        assert_eq!((state.taken, state.claim, state.rejected), *after);
    }
}

/// `document.rs` has the others at the limits.
#[test]
fn openings() {
    assert_eq!(plain(State::open(0, 1, P)), Err(5));
    let opened = State { vars: 0, degree: 1, taken: 0, claim: 2147483646, rejected: false };
    assert_eq!(State::open(0, 1, 2147483646), Ok(opened));
}

/// P9. Neither too early a closing nor a refused step changes anything.
#[test]
fn an_honest_prover() {
    let mut state = State::open(2, 2, 6).unwrap();
    walk(&mut state, &[(&PROOF[..3], 3, Ok(Step::Taken), (1, 2147483633, false))]);
    assert_eq!(plain(state.close(4)), Err(7));
    let rest: [Taken; 3] = [
        (&[4, 0], 1, Err(3), (1, 2147483633, false)),
        (&PROOF[3..], 1, Ok(Step::Taken), (2, 4, false)),
        (&PROOF[..3], 3, Err(7), (2, 4, false)),
    ];
    walk(&mut state, &rest);
    assert_eq!(state.close(4), Ok(Verdict::Accepted));
    assert_eq!(state.close(5), Ok(Verdict::Rejected { round: 2 }));
    assert_eq!(plain(state.close(P)), Err(5));
}

/// P11. After the step that rejects, none is taken.
#[test]
fn a_liar() {
    let mut state = State::open(2, 1, 11).unwrap();
    let steps: [Taken; 3] = [
        (&[7, 2147483644], 5, Ok(Step::Taken), (1, 2147483639, false)),
        (&[3, 1], 9, Ok(Step::Rejected { round: 2 }), (1, 2147483639, true)),
        (&[3, 1], 9, Err(7), (1, 2147483639, true)),
    ];
    walk(&mut state, &steps);
    assert_eq!(state.close(0), Ok(Verdict::Rejected { round: 2 }));
}

/// A state from vars, degree, rounds taken, running claim and mark.
fn state((vars, degree, taken, claim, rejected): (u32, u32, u32, u32, bool)) -> State {
    State { vars, degree, taken, claim, rejected }
}

/// Each refusal of a step, in its order: whatever comes later in the order is
/// wrong too. A refused step leaves the state.
#[test]
fn steps_on_any_state() {
    const MOST: u32 = u32::MAX;
    let message = [7, 2147483644];
    // a state, a message, a challenge, the refusal
    let cases: [((u32, u32, u32, u32, bool), &[u32], u32, u32); 12] = [
        ((17, 4, 18, P, true), &message, 5, 1),
        ((MOST, MOST, MOST, MOST, true), &message, MOST, 1),
        ((2, 4, 3, P, true), &message, 5, 2),
        ((2, 1, 3, P, true), &message, 5, 5),
        ((2, 1, 3, 11, false), &message, P, 7),
        ((2, 1, MOST, 11, false), &message, P, 7),
        ((2, 1, 2, 11, true), &message, P, 7),
        ((2, 1, 1, 11, true), &message, P, 7),
        ((2, 1, 2, 11, false), &message, P, 7),
        ((2, 2, 1, 11, false), &message, P, 3),
        ((2, 1, 1, 11, false), &message, P, 5),
        ((2, 1, 1, 11, false), &[11, P], 5, 5),
    ];
    for (numbers, message, challenge, number) in cases {
        let mut stepped = state(numbers);
        assert_eq!(plain(stepped.step(message, challenge)), Err(number));
        assert_eq!(stepped, state(numbers));
    }
    assert_eq!(state((2, 1, 1, 11, false)).step(&message, 5), Ok(Step::Taken));
}

/// Each answer of closing, in the same way.
#[test]
fn closing_any_state() {
    let accepted = Ok(Verdict::Accepted);
    let rejected = |round| Ok(Verdict::Rejected { round });
    let cases = [
        ((17, 4, 18, P, true), P, Err(1)),
        ((2, 0, 3, P, true), P, Err(2)),
        ((2, 1, 3, P, true), P, Err(5)),
        ((2, 1, 3, 11, false), P, Err(7)),
        ((2, 1, 2, 11, true), P, Err(7)),
        ((2, 1, 1, 11, false), P, Err(7)),
        ((2, 1, 2, 11, false), P, Err(5)),
        ((2, 1, 1, 11, true), P, Err(5)),
        ((2, 1, 1, 11, true), 11, rejected(2)),
        ((2, 1, 2, 11, false), 11, accepted),
        ((2, 1, 2, 11, false), 12, rejected(2)),
        ((0, 1, 0, 11, false), 12, rejected(0)),
    ];
    for (numbers, value, answer) in cases {
        assert_eq!(plain(state(numbers).close(value)), answer);
    }
}
