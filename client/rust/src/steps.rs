//! The checker in steps, for a client that is sent one message at a time.

use crate::checker::verdict;
use crate::ffi::{self, Said};
use crate::{Refusal, Verdict};

/// A checker between two rounds.
///
/// The fields are open, so that a state can be stored and taken up again. The
/// library doubts a state at each use: one with impossible numbers is refused.
///
/// ```
/// use sendurafi::{State, Step, Verdict};
/// let mut state = State::open(2, 2, 6)?;
/// assert_eq!(state.step(&[4, 0, 2147483645], 3)?, Step::Taken);
/// assert_eq!(state.step(&[2147483629, 30, 2147483639], 1)?, Step::Taken);
/// assert_eq!(state.close(4)?, Verdict::Accepted);
/// # Ok::<(), sendurafi::Refusal>(())
/// ```
#[derive(Clone, Copy, Debug, PartialEq, Eq, Hash)]
pub struct State {
    /// The number of variables.
    pub vars: u32,
    /// The number of tables.
    pub degree: u32,
    /// Rounds taken.
    pub taken: u32,
    /// The running claim, modulo p.
    pub claim: u32,
    /// Whether a round was rejected.
    pub rejected: bool,
}

/// A step's answer where it does not refuse.
#[must_use = "a round that is rejected must not be believed"]
#[derive(Clone, Copy, Debug, PartialEq, Eq, Hash)]
pub enum Step {
    /// The round's sum is the running claim modulo p, and the round was taken.
    Taken,
    /// The round's sum fails. The state is marked, and takes no more steps.
    Rejected {
        /// The round, from 1.
        round: u32,
    },
}

impl State {
    /// The state before any round, for the claim that f sums to `claim` modulo
    /// [`P`](crate::P).
    ///
    /// # Errors
    ///
    /// Refusals 1, 2, 5, in this order.
    ///
    /// ```
    /// use sendurafi::{State, P};
    /// assert_eq!(State::open(16, 3, 7)?.claim, 7);
    /// assert_eq!(State::open(17, 4, P).unwrap_err().number(), 1);
    /// # Ok::<(), sendurafi::Refusal>(())
    /// ```
    pub fn open(vars: u32, degree: u32, claim: u32) -> Result<State, Refusal> {
        // Safety: only numbers are passed.
        let opened = unsafe { ffi::sendurafi_open(vars, degree, claim) };
        opened.answer.value()?;
        Ok(State::from_c(opened.state))
    }

    /// Takes one round: its message of k+1 coefficients, and the challenge
    /// that the caller chose after it saw the message.
    ///
    /// # Errors
    ///
    /// Refusals 1, 2, 5 for the running claim, 7 on a rejected, complete or
    /// impossible state, then 3, 5 for what is given. Refused, the state is
    /// unchanged.
    ///
    /// ```
    /// use sendurafi::{State, Step};
    /// let mut state = State::open(2, 1, 11)?;
    /// assert_eq!(state.step(&[7], 5).unwrap_err().number(), 3);
    /// assert_eq!(state.step(&[7, 2147483644], 5)?, Step::Taken);
    /// assert_eq!(state.step(&[3, 1], 9)?, Step::Rejected { round: 2 });
    /// # Ok::<(), sendurafi::Refusal>(())
    /// ```
    pub fn step(&mut self, message: &[u32], challenge: u32) -> Result<Step, Refusal> {
        // Safety: see ffi.
        let stepped =
            unsafe { ffi::sendurafi_step(self.to_c(), message.as_ptr(), message.len(), challenge) };
        *self = State::from_c(stepped.state);
        match stepped.answer.said() {
            Said::Done(_) => Ok(Step::Taken),
            Said::Rejected(round) => Ok(Step::Rejected { round }),
            Said::Refused(refusal) => Err(refusal),
        }
    }

    /// Compares the running claim with the value that the caller gives for f
    /// at the challenges. A rejected state gives its round.
    ///
    /// # Errors
    ///
    /// Refusals 1, 2, 5 for the running claim, 7 on a state neither rejected
    /// nor complete or an impossible one, then 5 for the value.
    ///
    /// ```
    /// use sendurafi::{State, Verdict};
    /// let state = State::open(0, 2, 35)?;
    /// assert_eq!(state.close(35)?, Verdict::Accepted);
    /// assert_eq!(state.close(36)?, Verdict::Rejected { round: 0 });
    /// # Ok::<(), sendurafi::Refusal>(())
    /// ```
    pub fn close(&self, value: u32) -> Result<Verdict, Refusal> {
        // Safety: only numbers are passed.
        verdict(unsafe { ffi::sendurafi_close(self.to_c(), value) })
    }

    fn to_c(self) -> ffi::State {
        ffi::State {
            vars: self.vars,
            degree: self.degree,
            taken: self.taken,
            claim: self.claim,
            rejected: u32::from(self.rejected),
        }
    }

    fn from_c(state: ffi::State) -> State {
        State {
            vars: state.vars,
            degree: state.degree,
            taken: state.taken,
            claim: state.claim,
            rejected: state.rejected != 0,
        }
    }
}

#[cfg(test)]
mod tests {
    use super::*;

    /// Through C any number but 0 is a mark, and it comes back as 1.
    #[test]
    fn marks() {
        for (mark, back) in [(0, 0), (1, 1), (2, 1), (u32::MAX, 1)] {
            let state = ffi::State { vars: 2, degree: 1, taken: 1, claim: 0, rejected: mark };
            // Safety: an empty list is never read.
            let stepped = unsafe { ffi::sendurafi_step(state, core::ptr::null(), 0, 0) };
            assert_eq!(stepped.state.rejected, back);
            let number = if mark == 0 { 3 } else { 7 };
            assert_eq!(stepped.answer.value(), Err(Refusal::new(number, 0)));
        }
    }
}
