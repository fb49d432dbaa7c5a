//! The C interface, as client/include/sendurafi.h declares it.
//!
//! Safety of every call below: a slice gives a pointer that is valid and
//! aligned for its length, `&mut` slices overlap nothing, and the library asks
//! for nothing else.

use crate::Refusal;

const DONE: u32 = 0;
const REJECTED: u32 = 1;

#[repr(C)]
pub struct Answer {
    kind: u32,
    number: u32,
    line: u32,
    value: u32,
}

/// What an answer says.
pub enum Said {
    Done(u32),
    Rejected(u32),
    Refused(Refusal),
}

impl Answer {
    /// A kind that is not known is never taken for acceptance.
    pub fn said(self) -> Said {
        match self.kind {
            DONE => Said::Done(self.value),
            REJECTED => Said::Rejected(self.number),
            _ => Said::Refused(Refusal::new(self.number, self.line)),
        }
    }

    /// The value of an entry that cannot reject.
    pub fn value(self) -> Result<u32, Refusal> {
        match self.kind {
            DONE => Ok(self.value),
            _ => Err(Refusal::new(self.number, self.line)),
        }
    }
}

#[repr(C)]
#[derive(Clone, Copy)]
pub struct State {
    pub vars: u32,
    pub degree: u32,
    pub taken: u32,
    pub claim: u32,
    pub rejected: u32,
}

#[repr(C)]
pub struct Stepped {
    pub state: State,
    pub answer: Answer,
}

#[repr(C)]
pub struct File {
    kind: u32,
    number: u32,
    line: u32,
    vars: u32,
    degree: u32,
    claim: u32,
}

impl File {
    pub fn header(self) -> Result<crate::Header, Refusal> {
        match self.kind {
            DONE => Ok(crate::Header { vars: self.vars, degree: self.degree, claim: self.claim }),
            _ => Err(Refusal::new(self.number, self.line)),
        }
    }
}

#[repr(C)]
pub struct Part {
    pub start: usize,
    pub length: usize,
}

extern "C" {
    pub fn sendurafi_sum(a: u32, b: u32) -> Answer;
    pub fn sendurafi_difference(a: u32, b: u32) -> Answer;
    pub fn sendurafi_negative(a: u32) -> Answer;
    pub fn sendurafi_product(a: u32, b: u32) -> Answer;
    pub fn sendurafi_power(a: u32, e: u64) -> Answer;
    pub fn sendurafi_inverse(a: u32) -> Answer;
    pub fn sendurafi_true_sum(
        vars: u32,
        degree: u32,
        tables: *const u32,
        tables_len: usize,
    ) -> Answer;
    pub fn sendurafi_value_at(
        vars: u32,
        degree: u32,
        tables: *const u32,
        tables_len: usize,
        point: *const u32,
        point_len: usize,
    ) -> Answer;
    pub fn sendurafi_prove(
        vars: u32,
        degree: u32,
        tables: *const u32,
        tables_len: usize,
        challenges: *const u32,
        challenges_len: usize,
        messages: *mut u32,
        messages_len: usize,
        scratch: *mut u32,
        scratch_len: usize,
    ) -> Answer;
    pub fn sendurafi_check(
        vars: u32,
        degree: u32,
        tables: *const u32,
        tables_len: usize,
        claim: u32,
        challenges: *const u32,
        challenges_len: usize,
        messages: *const u32,
        messages_len: usize,
    ) -> Answer;
    pub fn sendurafi_check_rounds(
        vars: u32,
        degree: u32,
        claim: u32,
        challenges: *const u32,
        challenges_len: usize,
        messages: *const u32,
        messages_len: usize,
    ) -> Answer;
    pub fn sendurafi_open(vars: u32, degree: u32, claim: u32) -> Stepped;
    pub fn sendurafi_step(
        state: State,
        message: *const u32,
        message_len: usize,
        challenge: u32,
    ) -> Stepped;
    pub fn sendurafi_close(state: State, value: u32) -> Answer;
    pub fn sendurafi_round_part(
        vars: u32,
        degree: u32,
        messages: *const u32,
        messages_len: usize,
        round: u32,
    ) -> Part;
    pub fn sendurafi_round_part_refusal(
        vars: u32,
        degree: u32,
        messages: *const u32,
        messages_len: usize,
        round: u32,
    ) -> u32;
    pub fn sendurafi_read(
        bytes: *const u8,
        bytes_len: usize,
        messages: *mut u32,
        messages_len: usize,
    ) -> File;
}

#[cfg(test)]
mod tests {
    use super::*;

    fn answer(kind: u32) -> Answer {
        Answer { kind, number: 5, line: 0, value: 9 }
    }

    #[test]
    fn unknown_kinds_are_refusals() {
        for kind in [2, 3, 4, u32::MAX] {
            assert!(matches!(answer(kind).said(), Said::Refused(_)));
            assert!(answer(kind).value().is_err());
        }
        assert!(matches!(answer(DONE).said(), Said::Done(9)));
        assert!(matches!(answer(REJECTED).said(), Said::Rejected(5)));
        assert!(answer(REJECTED).value().is_err());
    }
}
