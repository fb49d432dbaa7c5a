//! Why a call was turned down.

use core::fmt;

use crate::{MAX_DEGREE, MAX_FILE_BYTES, MAX_VARS, P};

/// A call that was turned down: its number, and for a proof file the line.
/// Nothing was changed by the call.
///
/// ```
/// let refusal = sendurafi::read(b"sumproof=1\nfield=7\n", &mut []).unwrap_err();
/// assert_eq!((refusal.number(), refusal.line()), (12, Some(2)));
/// assert_eq!(
///     refusal.to_string(),
///     "line 2 has a number that is not allowed: the field must be 2147483647 (refusal 12)"
/// );
/// ```
#[derive(Clone, Copy, Debug, PartialEq, Eq, Hash)]
pub struct Refusal {
    number: u32,
    line: u32,
}

impl Refusal {
    /// vars over 16.
    pub const VARS: u32 = 1;
    /// Degree 0 or over 3.
    pub const DEGREE: u32 = 2;
    /// Tables, challenges or messages not of the exact length.
    pub const LENGTH: u32 = 3;
    /// A lent message list or scratch too short.
    pub const ROOM: u32 = 4;
    /// An element not below p.
    pub const ELEMENT: u32 = 5;
    /// Inverse of 0.
    pub const INVERSE: u32 = 6;
    /// A state that does not allow this call.
    pub const STATE: u32 = 7;
    /// Round part 0 or over vars.
    pub const ROUND: u32 = 8;
    /// File over 4,096 bytes.
    pub const FILE: u32 = 9;
    /// Line not of its form.
    pub const FORM: u32 = 10;
    /// Line missing.
    pub const MISSING: u32 = 11;
    /// A number of right form but not allowed.
    pub const NUMBER: u32 = 12;
    /// Anything after the last line.
    pub const AFTER: u32 = 13;

    pub(crate) const fn new(number: u32, line: u32) -> Refusal {
        Refusal { number, line }
    }

    /// The refusal's number, 1 to 13. The constants of this type name them.
    ///
    /// ```
    /// use sendurafi::{field, Refusal};
    /// assert_eq!(field::inverse(0).unwrap_err().number(), Refusal::INVERSE);
    /// ```
    pub const fn number(&self) -> u32 {
        self.number
    }

    /// The line of the proof file, from 1, where the refusal is about one.
    ///
    /// ```
    /// let empty = sendurafi::read(b"", &mut []).unwrap_err();
    /// assert_eq!((empty.number(), empty.line()), (11, Some(1)));
    /// assert_eq!(sendurafi::field::inverse(0).unwrap_err().line(), None);
    /// ```
    pub const fn line(&self) -> Option<u32> {
        match self.line {
            0 => None,
            line => Some(line),
        }
    }
}

/// The form that a line of a proof file must have.
const fn form(line: u32) -> &'static str {
    match line {
        1 => "`sumproof=` and one number",
        2 => "`field=` and one number",
        3 => "`vars=` and one number",
        4 => "`degree=` and one number",
        5 => "`claim=` and one number",
        _ => "`round=` and degree + 1 numbers parted by commas, or after all rounds `end=` and one number",
    }
}

/// What the numbers of a line must be.
fn allowed(f: &mut fmt::Formatter<'_>, line: u32) -> fmt::Result {
    match line {
        1 => write!(f, "the edition must be 1"),
        2 => write!(f, "the field must be {}", P),
        3 => write!(f, "vars must be 0 to {}", MAX_VARS),
        4 => write!(f, "degree must be 1 to {}", MAX_DEGREE),
        5 => write!(f, "the claim must be below {}", P),
        _ => write!(f, "a coefficient must be below {}, and `end=` must repeat vars", P),
    }
}

impl Refusal {
    fn words(&self, f: &mut fmt::Formatter<'_>) -> fmt::Result {
        let line = self.line;
        match self.number {
            Self::VARS => write!(f, "vars is over {}", MAX_VARS),
            Self::DEGREE => write!(f, "degree is 0 or over {}", MAX_DEGREE),
            Self::LENGTH => {
                write!(
                    f,
                    "the list of tables, challenges or messages does not have the exact length"
                )
            }
            Self::ROOM => write!(f, "the lent message list or the scratch is too short"),
            Self::ELEMENT => write!(f, "a number is no element, as it is not below {}", P),
            Self::INVERSE => write!(f, "0 has no inverse"),
            Self::STATE => write!(
                f,
                "the state does not allow this call: it is over, not yet over, or no possible state"
            ),
            Self::ROUND => write!(f, "there is no such round, as rounds count from 1 to vars"),
            Self::FILE => write!(f, "the file has more than {} bytes", MAX_FILE_BYTES),
            Self::FORM => write!(f, "line {} is not of its form, {}", line, form(line)),
            Self::MISSING => write!(f, "line {} is missing, {}", line, form(line)),
            Self::NUMBER => {
                write!(f, "line {} has a number that is not allowed: ", line)?;
                allowed(f, line)
            }
            Self::AFTER => {
                write!(f, "there is something after the last line, where line {} would be", line)
            }
            _ => write!(f, "the call was turned down"),
        }
    }
}

impl fmt::Display for Refusal {
    fn fmt(&self, f: &mut fmt::Formatter<'_>) -> fmt::Result {
        self.words(f)?;
        write!(f, " (refusal {})", self.number)
    }
}

#[cfg(feature = "std")]
impl std::error::Error for Refusal {}

#[cfg(all(test, feature = "std"))]
mod tests {
    use super::*;
    use std::string::ToString;

    #[test]
    fn every_number_has_its_own_words() {
        let mut seen = std::vec::Vec::new();
        for number in 1..=14 {
            let line = if (10..=13).contains(&number) { 7 } else { 0 };
            let words = Refusal::new(number, line).to_string();
            assert!(words.ends_with(&std::format!("(refusal {})", number)), "{}", words);
            assert_eq!(words.contains("line 7"), line == 7, "{}", words);
            let plain = words.replace(&number.to_string(), "");
            assert!(!seen.contains(&plain), "{}", words);
            seen.push(plain);
        }
    }

    #[test]
    fn lines_are_named() {
        for line in 1..=23 {
            for number in 10..=13 {
                let words = Refusal::new(number, line).to_string();
                assert!(words.contains(&std::format!("line {}", line)), "{}", words);
            }
        }
    }

    #[test]
    fn it_is_an_error() {
        let error: std::boxed::Box<dyn std::error::Error> =
            std::boxed::Box::new(Refusal::new(6, 0));
        assert_eq!(error.to_string(), "0 has no inverse (refusal 6)");
    }
}
