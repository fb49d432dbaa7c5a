//! The checker in one call, with tables and without.

use crate::ffi::{self, Answer, Said};
use crate::Refusal;

/// The checker's answer where it does not refuse.
#[must_use = "a proof that is rejected must not be believed"]
#[derive(Clone, Copy, Debug, PartialEq, Eq, Hash)]
pub enum Verdict {
    /// Every round's sum and the final check hold, modulo p.
    Accepted,
    /// The first round whose sum fails. A final check that fails is reported
    /// as round m.
    Rejected {
        /// The round, from 1; 0 only where there are no rounds.
        round: u32,
    },
}

impl Verdict {
    /// Whether the proof is accepted.
    ///
    /// ```
    /// let verdict = sendurafi::check(0, 2, &[5, 7], 36, &[], &[])?;
    /// assert!(!verdict.is_accepted());
    /// # Ok::<(), sendurafi::Refusal>(())
    /// ```
    pub const fn is_accepted(self) -> bool {
        matches!(self, Verdict::Accepted)
    }
}

/// The answer of the rounds without tables.
#[must_use = "the value reached must be compared with f"]
#[derive(Clone, Copy, Debug, PartialEq, Eq, Hash)]
pub enum Rounds {
    /// Every round's sum holds, modulo p.
    Reached {
        /// What f must be at the challenges.
        value: u32,
    },
    /// The first round whose sum fails.
    Rejected {
        /// The round, from 1.
        round: u32,
    },
}

pub(crate) fn verdict(answer: Answer) -> Result<Verdict, Refusal> {
    match answer.said() {
        Said::Done(_) => Ok(Verdict::Accepted),
        Said::Rejected(round) => Ok(Verdict::Rejected { round }),
        Said::Refused(refusal) => Err(refusal),
    }
}

/// Checks that f sums to `claim` modulo [`P`](crate::P), all rounds and the final
/// check.
///
/// # Errors
///
/// Refusals 1, 2, 3, 5, in this order, before any round is judged.
///
/// ```
/// use sendurafi::{check, Verdict};
/// let table = [3, 4, 1, 2];
/// let honest = check(2, 1, &table, 10, &[5, 9], &[7, 2147483643, 2147483640, 1]);
/// assert_eq!(honest, Ok(Verdict::Accepted));
/// let liar = check(2, 1, &table, 11, &[5, 9], &[7, 2147483644, 3, 1]);
/// assert_eq!(liar, Ok(Verdict::Rejected { round: 2 }));
/// ```
pub fn check(
    vars: u32,
    degree: u32,
    tables: &[u32],
    claim: u32,
    challenges: &[u32],
    messages: &[u32],
) -> Result<Verdict, Refusal> {
    // Safety: see ffi.
    verdict(unsafe {
        ffi::sendurafi_check(
            vars,
            degree,
            tables.as_ptr(),
            tables.len(),
            claim,
            challenges.as_ptr(),
            challenges.len(),
            messages.as_ptr(),
            messages.len(),
        )
    })
}

/// Checks the rounds of a claim modulo [`P`](crate::P) without tables. The caller
/// compares the value reached with f at the challenges, which it has from
/// elsewhere.
///
/// # Errors
///
/// Refusals 1, 2, 3, 5, in this order.
///
/// ```
/// use sendurafi::{check_rounds, Rounds};
/// let messages = [4, 0, 2147483645, 2147483629, 30, 2147483639];
/// let reached = check_rounds(2, 2, 6, &[3, 1], &messages);
/// assert_eq!(reached, Ok(Rounds::Reached { value: 4 }));
/// ```
pub fn check_rounds(
    vars: u32,
    degree: u32,
    claim: u32,
    challenges: &[u32],
    messages: &[u32],
) -> Result<Rounds, Refusal> {
    // Safety: see ffi.
    let answer = unsafe {
        ffi::sendurafi_check_rounds(
            vars,
            degree,
            claim,
            challenges.as_ptr(),
            challenges.len(),
            messages.as_ptr(),
            messages.len(),
        )
    };
    match answer.said() {
        Said::Done(value) => Ok(Rounds::Reached { value }),
        Said::Rejected(round) => Ok(Rounds::Rejected { round }),
        Said::Refused(refusal) => Err(refusal),
    }
}
