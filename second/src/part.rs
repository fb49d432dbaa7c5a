//! Document 01's round part: "asked for round j, from 1, of a message list,
//! the library answers with that part of the caller's list, not a copy".
//! Here the part is told by its start and length.

use crate::refusals::{exact, limits, messages_length};

#[derive(Debug, PartialEq)]
pub struct Part {
    pub start: u64,
    pub length: u64,
}

/// The second entry: the refusal's number, "0 if none". 1, 2, 3, 8.
pub fn part_number(vars: u64, degree: u64, messages: &[u64], j: u64) -> u64 {
    let judged = || -> Result<(), u64> {
        limits(vars, degree)?;
        exact(messages, messages_length(vars, degree))?;
        if j == 0 || j > vars {
            return Err(8);
        }
        Ok(())
    };
    match judged() {
        Ok(()) => 0,
        Err(number) => number,
    }
}

/// "Where it refuses, the answer is the empty part at the list's start".
/// Elements are not looked at: refusal 5 is not in this entry's order.
pub fn round_part(vars: u64, degree: u64, messages: &[u64], j: u64) -> Part {
    if part_number(vars, degree, messages, j) != 0 {
        return Part { start: 0, length: 0 };
    }
    let width = degree + 1;
    Part { start: (j - 1) * width, length: width }
}

#[cfg(test)]
mod tests {
    use super::*;

    fn both(vars: u64, degree: u64, length: usize, j: u64) -> (u64, u64, u64) {
        let messages = vec![4294967295; length];
        let part = round_part(vars, degree, &messages, j);
        (part.start, part.length, part_number(vars, degree, &messages, j))
    }

    #[test]
    fn parts_of_a_list() {
        assert_eq!(both(2, 2, 6, 1), (0, 3, 0));
        assert_eq!(both(2, 2, 6, 2), (3, 3, 0));
        assert_eq!(both(16, 3, 64, 16), (60, 4, 0));
    }

    #[test]
    fn order_of_refusals() {
        assert_eq!(both(17, 4, 5, 0), (0, 0, 1));
        assert_eq!(both(2, 4, 5, 0), (0, 0, 2));
        assert_eq!(both(2, 2, 5, 0), (0, 0, 3));
        assert_eq!(both(2, 2, 7, 3), (0, 0, 3));
        assert_eq!(both(2, 2, 6, 0), (0, 0, 8));
        assert_eq!(both(2, 2, 6, 3), (0, 0, 8));
        assert_eq!(both(2, 2, 6, 4294967295), (0, 0, 8));
        assert_eq!(both(0, 1, 0, 1), (0, 0, 8));
    }
}
