//! The specification's file damaged at every place, and lists and files of
//! many lengths. damaged.txt has what must come out, by another calculation.
//!
//! It has one number for a file. A refusal is 100 times its number, and its
//! line; what is below 100 stands for a file that was read, and depends on the
//! claim and on every coefficient. It is large where a refused call has
//! written something.

use crate::file::{reply, LENT};
use crate::FILE;
use std::fmt::Write;

const EXPECTED: &str = include_str!("damaged.txt");

/// What each byte is changed to.
const TELLING: [u8; 12] = *b"019,=\nez\r \0\xff";

/// The lines of damaged.txt under a heading.
fn expected(heading: &str) -> Vec<&'static str> {
    let mut lines = EXPECTED.lines().skip_while(|line| *line != heading);
    assert_eq!(lines.next(), Some(heading));
    lines.take_while(|line| !line.is_empty()).collect()
}

/// Compares line by line, so that the first difference is short.
fn compare(heading: &str, lines: &[String]) {
    let expected = expected(heading);
    for (line, expected) in lines.iter().zip(&expected) {
        assert_eq!(line, expected, "{}", heading);
    }
    assert_eq!(lines.len(), expected.len());
}

/// One number for what reading a file answers and writes.
fn code(file: &[u8]) -> u64 {
    let mut messages = [LENT; 80];
    let answer = reply(file, &mut messages);
    let written = messages
        .iter()
        .filter(|place| **place != LENT)
        .fold(0, |sum, place| (sum * 31 + u64::from(*place) + 1) % 997);
    match answer {
        Ok((_, _, claim)) => (u64::from(claim) + written) % 97,
        Err((number, line)) => u64::from(number * 100 + line) + written * 1_000_000,
    }
}

#[test]
fn cut_after_each_byte() {
    let lines: Vec<String> = (0..=FILE.len())
        .map(|length| format!("{} {}", length, code(&FILE.as_bytes()[..length])))
        .collect();
    compare("cut", &lines);
}

#[test]
fn each_byte_changed() {
    let mut lines = Vec::new();
    for place in 0..FILE.len() {
        let mut line = place.to_string();
        for byte in TELLING {
            let mut file = FILE.as_bytes().to_vec();
            file[place] = byte;
            write!(line, " {}", code(&file)).unwrap();
        }
        lines.push(line);
    }
    compare("changed", &lines);
}

/// The file without one of its lines, and with that line twice.
#[test]
fn each_line_left_out_and_doubled() {
    let file: Vec<&str> = FILE.split_inclusive('\n').collect();
    let mut lines = Vec::new();
    for k in 0..file.len() {
        let without = file[..k].concat() + &file[k + 1..].concat();
        let twice = file[..=k].concat() + &file[k..].concat();
        lines.push(format!("{} {} {}", k + 1, code(without.as_bytes()), code(twice.as_bytes())));
    }
    compare("lines", &lines);
}

/// The whole file into lists of every length up to two more than it needs. A
/// refusal is shown with its line, 0, and a file with all that was written.
#[test]
fn rooms() {
    let mut lines = Vec::new();
    for places in 0..=8 {
        let mut messages = [LENT; 8];
        let mut line = match reply(FILE.as_bytes(), &mut messages[..places]) {
            Ok((vars, degree, claim)) => format!("{} file {} {} {}", places, vars, degree, claim),
            Err((number, line)) => format!("{} refused {} {}", places, number, line),
        };
        for place in messages.iter().filter(|place| **place != LENT) {
            write!(line, " {}", place).unwrap();
        }
        lines.push(line);
    }
    compare("rooms", &lines);
}

/// The file with bytes after it, up to the most that a file may have, and one
/// more.
#[test]
fn sizes() {
    let mut file = FILE.as_bytes().to_vec();
    file.resize(4097, b'0');
    compare("sizes", &[format!("{} {}", code(&file[..4096]), code(&file))]);
}
