//! The limits of the library, and the lengths that follow from them.

use crate::Refusal;

/// The modulus, 2^31 - 1. An element is a number below it.
pub const P: u32 = 2147483647;
/// The most variables.
pub const MAX_VARS: u32 = 16;
/// The highest degree: the most tables.
pub const MAX_DEGREE: u32 = 3;
/// The most bytes of a proof file.
pub const MAX_FILE_BYTES: usize = 4096;
/// No tables are longer.
pub const MAX_TABLES_LEN: usize = (MAX_DEGREE as usize) << MAX_VARS;
/// No messages are longer, so a list of this length has room for any file.
pub const MAX_MESSAGES_LEN: usize = MAX_VARS as usize * (MAX_DEGREE as usize + 1);

/// The length of the tables, and of the prover's scratch: k·2^m.
///
/// # Errors
///
/// Refusals 1, 2.
///
/// ```
/// assert_eq!(sendurafi::tables_len(16, 3), Ok(196608));
/// assert_eq!(sendurafi::tables_len(17, 3).unwrap_err().number(), 1);
/// ```
pub const fn tables_len(vars: u32, degree: u32) -> Result<usize, Refusal> {
    match shape(vars, degree) {
        0 => Ok((degree as usize) << vars),
        number => Err(Refusal::new(number, 0)),
    }
}

/// The length of the messages: m(k+1).
///
/// # Errors
///
/// Refusals 1, 2.
///
/// ```
/// assert_eq!(sendurafi::messages_len(16, 3), Ok(64));
/// assert_eq!(sendurafi::messages_len(2, 0).unwrap_err().number(), 2);
/// ```
pub const fn messages_len(vars: u32, degree: u32) -> Result<usize, Refusal> {
    match shape(vars, degree) {
        0 => Ok(vars as usize * (degree as usize + 1)),
        number => Err(Refusal::new(number, 0)),
    }
}

/// Refusals 1 and 2, 0 if none.
const fn shape(vars: u32, degree: u32) -> u32 {
    if vars > MAX_VARS {
        1
    } else if degree == 0 || degree > MAX_DEGREE {
        2
    } else {
        0
    }
}

#[cfg(test)]
mod tests {
    use super::*;

    #[test]
    fn the_limits_are_the_librarys() {
        for vars in [0, 1, MAX_VARS - 1, MAX_VARS, MAX_VARS + 1, 31, 32, 64, u32::MAX] {
            for degree in [0, 1, MAX_DEGREE, MAX_DEGREE + 1, u32::MAX] {
                let opened = crate::State::open(vars, degree, 0).map(|_| ());
                assert_eq!(tables_len(vars, degree).map(|_| ()), opened);
                assert_eq!(messages_len(vars, degree).map(|_| ()), opened);
            }
        }
    }

    #[test]
    fn the_modulus_is_the_librarys() {
        assert!(crate::field::negative(P - 1).is_ok());
        assert!(crate::field::negative(P).is_err());
    }

    #[test]
    fn the_most() {
        assert_eq!(tables_len(MAX_VARS, MAX_DEGREE), Ok(MAX_TABLES_LEN));
        assert_eq!(messages_len(MAX_VARS, MAX_DEGREE), Ok(MAX_MESSAGES_LEN));
    }
}
