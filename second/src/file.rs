//! Document 01's "Proof file": a reader that splits the bytes into lines and
//! takes the lines one after the other.

use crate::refusals::{messages_length, MOST_DEGREE, MOST_FILE_BYTES, MOST_VARS};

/// What a file says. The coefficients stand in the lent list.
#[derive(Debug, PartialEq)]
pub struct Header {
    pub vars: u64,
    pub degree: u64,
    pub claim: u64,
}

/// "A refusal returns its number; 10 to 13 also the line, from 1".
#[derive(Debug, PartialEq)]
pub enum FileRefusal {
    Number(u64),
    Line(u64, u64),
}

/// The lines that a byte 10 ends, and the bytes after the last of them.
struct Lines {
    ended: Vec<Vec<u8>>,
    after: Vec<u8>,
}

fn split(bytes: &[u8]) -> Lines {
    let mut ended: Vec<Vec<u8>> = bytes.split(|b| *b == 10).map(|l| l.to_vec()).collect();
    // The last piece is the one that no byte 10 ends; it may be empty.
    let after = ended.pop().unwrap_or_default();
    Lines { ended, after }
}

impl Lines {
    /// Line `number`, from 1. "Bytes after the last line end count as a line;
    /// where a line is expected there they are refusal 10".
    fn line(&self, number: u64) -> Result<&[u8], FileRefusal> {
        let index = number as usize - 1;
        if index < self.ended.len() {
            Ok(&self.ended[index])
        } else if index == self.ended.len() && !self.after.is_empty() {
            Err(FileRefusal::Line(10, number))
        } else {
            Err(FileRefusal::Line(11, number))
        }
    }

    /// Is there anything after line `number`, which is there?
    fn more_than(&self, number: u64) -> bool {
        self.ended.len() as u64 > number || !self.after.is_empty()
    }

    /// The numbers of a line `name=` with `count` numbers parted by commas.
    /// Refusals 11 and 10; all numbers are judged for 10 before any for 12.
    fn numbers(&self, number: u64, name: &[u8], count: u64) -> Result<Vec<u64>, FileRefusal> {
        let line = self.line(number)?;
        let form = FileRefusal::Line(10, number);
        if !line.starts_with(name) {
            return Err(form);
        }
        let texts: Vec<&[u8]> = line[name.len()..].split(|b| *b == b',').collect();
        if texts.len() as u64 != count {
            return Err(form);
        }
        let mut values = Vec::new();
        for text in texts {
            match decimal(text) {
                Some(value) => values.push(value),
                None => return Err(form),
            }
        }
        Ok(values)
    }

    /// The one number of a line, which `allowed` must hold of: else 12.
    fn one(
        &self,
        number: u64,
        name: &[u8],
        allowed: impl Fn(u64) -> bool,
    ) -> Result<u64, FileRefusal> {
        let value = self.numbers(number, name, 1)?[0];
        if allowed(value) {
            Ok(value)
        } else {
            Err(FileRefusal::Line(12, number))
        }
    }
}

/// "A number is 1 to 10 decimal digits with no leading 0 unless it is 0
/// alone." Ten digits may pass 2^32; the u64 holds them.
fn decimal(text: &[u8]) -> Option<u64> {
    let digits = text.iter().all(|b| b.is_ascii_digit());
    let leading = text.len() > 1 && text[0] == b'0';
    if !digits || leading || text.is_empty() || text.len() > 10 {
        return None;
    }
    Some(text.iter().fold(0, |value, b| value * 10 + (*b - b'0') as u64))
}

/// All lines in order, then 13: the header and the coefficients.
fn contents(n: u64, lines: &Lines) -> Result<(Header, Vec<u64>), FileRefusal> {
    lines.one(1, b"sumproof=", |x| x == 1)?;
    lines.one(2, b"field=", |x| x == n)?;
    let vars = lines.one(3, b"vars=", |x| x <= MOST_VARS)?;
    let degree = lines.one(4, b"degree=", |x| (1..=MOST_DEGREE).contains(&x))?;
    let claim = lines.one(5, b"claim=", |x| x < n)?;
    let mut coefficients = Vec::new();
    for round in 1..=vars {
        let values = lines.numbers(5 + round, b"round=", degree + 1)?;
        if values.iter().any(|x| *x >= n) {
            return Err(FileRefusal::Line(12, 5 + round));
        }
        coefficients.extend(values);
    }
    let last = vars + 6;
    lines.one(last, b"end=", |x| x == vars)?;
    if lines.more_than(last) {
        return Err(FileRefusal::Line(13, last + 1));
    }
    Ok((Header { vars, degree, claim }, coefficients))
}

/// The entry "reader": "9 first, then lines in order, in each line 11, 10, 12;
/// after `end` 13; last, refusal 4 for the lent message list". Nothing is
/// written before all of that is known.
pub fn read(n: u64, bytes: &[u8], messages: &mut [u64]) -> Result<Header, FileRefusal> {
    if bytes.len() > MOST_FILE_BYTES {
        return Err(FileRefusal::Number(9));
    }
    let (header, coefficients) = contents(n, &split(bytes))?;
    let length = messages_length(header.vars, header.degree) as usize;
    if messages.len() < length {
        return Err(FileRefusal::Number(4));
    }
    messages[..length].copy_from_slice(&coefficients);
    Ok(header)
}
