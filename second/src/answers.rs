//! The numbers that stand for each answer in an answer line. FORMAT.md says
//! the same in words.

use crate::checker::{Last, Verdict};
use crate::file::{FileRefusal, Header};
use crate::steps::State;

/// The kinds: each answer starts with one of them.
pub const DONE: u64 = 0;
pub const REJECTED: u64 = 1;
pub const REFUSED: u64 = 2;
pub const REFUSED_AT_LINE: u64 = 3;

/// A list with more places than this is written as its checksum.
pub const MOST_WRITTEN: usize = 64;

/// Something that an answer line can say.
pub trait Numbers {
    fn numbers(&self) -> Vec<u64>;
}

impl Numbers for () {
    fn numbers(&self) -> Vec<u64> {
        vec![DONE]
    }
}

impl Numbers for u64 {
    fn numbers(&self) -> Vec<u64> {
        vec![DONE, *self]
    }
}

impl Numbers for Verdict {
    fn numbers(&self) -> Vec<u64> {
        match self {
            Verdict::Accepted => vec![DONE],
            Verdict::Rejected(round) => vec![REJECTED, *round],
        }
    }
}

impl Numbers for Last {
    fn numbers(&self) -> Vec<u64> {
        match self {
            Last::Value(value) => vec![DONE, *value],
            Last::Rejected(round) => vec![REJECTED, *round],
        }
    }
}

impl Numbers for State {
    fn numbers(&self) -> Vec<u64> {
        let mut result = vec![DONE];
        result.extend(state(self));
        result
    }
}

impl Numbers for Header {
    fn numbers(&self) -> Vec<u64> {
        vec![DONE, self.vars, self.degree, self.claim]
    }
}

impl<T: Numbers> Numbers for Result<T, u64> {
    fn numbers(&self) -> Vec<u64> {
        match self {
            Ok(answer) => answer.numbers(),
            Err(number) => vec![REFUSED, *number],
        }
    }
}

impl<T: Numbers> Numbers for Result<T, FileRefusal> {
    fn numbers(&self) -> Vec<u64> {
        match self {
            Ok(answer) => answer.numbers(),
            Err(FileRefusal::Number(number)) => vec![REFUSED, *number],
            Err(FileRefusal::Line(number, line)) => vec![REFUSED_AT_LINE, *number, *line],
        }
    }
}

/// A state's five numbers, without a kind.
pub fn state(state: &State) -> Vec<u64> {
    vec![state.vars, state.degree, state.taken, state.claim, state.rejected]
}

/// A lent list afterwards: its length, then its members or their checksum.
pub fn lent(list: &[u64]) -> Vec<u64> {
    let mut result = vec![list.len() as u64];
    if list.len() <= MOST_WRITTEN {
        result.extend(list);
    } else {
        result.push(checksum(list));
    }
    result
}

/// Every step stays far below 2^64.
pub fn checksum(list: &[u64]) -> u64 {
    let mut h = 0;
    for x in list {
        h = (h * 257 + x + 1) % 4294967291;
    }
    h
}

#[cfg(test)]
mod tests {
    use super::*;

    #[test]
    fn long_lists_are_summed_up() {
        assert_eq!(lent(&[]), [0]);
        assert_eq!(lent(&[7, 8]), [2, 7, 8]);
        assert_eq!(lent(&[0; 64]).len(), 65);
        assert_eq!(lent(&[0; 65]).len(), 2);
        assert_eq!(checksum(&[7, 8]), 8 * 257 + 9);
    }
}
