//! Proof files, good and bad. `document.rs` has those that the specification
//! names.

use crate::{FILE, PROOF};
use sendurafi::read;

/// What stands in a lent list before the call. No element is as large.
pub const LENT: u32 = 4000000000;

/// Vars, degree and claim; or a refusal's number and line, 0 for no line.
pub type Reply = Result<(u32, u32, u32), (u32, u32)>;

pub fn reply(bytes: &[u8], messages: &mut [u32]) -> Reply {
    match read(bytes, messages) {
        Ok(header) => Ok((header.vars, header.degree, header.claim)),
        Err(refusal) => Err((refusal.number(), refusal.line().unwrap_or(0))),
    }
}

/// Reads a file, and looks at every place of the lent list.
fn expect(file: &str, answer: Reply, coefficients: &[u32]) {
    let mut messages = [LENT; 80];
    assert_eq!(reply(file.as_bytes(), &mut messages), answer, "{}", file);
    let (filled, rest) = messages.split_at(coefficients.len());
    assert_eq!(filled, coefficients, "{}", file);
    assert!(rest.iter().all(|place| *place == LENT), "{}", file);
}

/// The specification's file with some text put for other text.
fn changed(from: &str, to: &str) -> String {
    assert!(FILE.contains(from));
    FILE.replace(from, to)
}

#[test]
fn claims() {
    let taken = |claim| Ok((2, 2, claim));
    expect(&changed("claim=6", "claim=2147483646"), taken(2147483646), &PROOF);
    expect(&changed("claim=6", "claim=0"), taken(0), &PROOF);
    // Ten digits are a number, even above 32 bits; eleven and none are not.
    for (claim, number) in [("9999999999", 12), ("4294967296", 12), ("10000000000", 10), ("", 10)] {
        expect(&changed("claim=6", &format!("claim={}", claim)), Err((number, 5)), &[]);
    }
}

#[test]
fn numbers_that_may_not_stand_there() {
    for (from, to, line) in [
        ("sumproof=1", "sumproof=2", 1),
        ("field=2147483647", "field=2147483648", 2),
        ("degree=2", "degree=0", 4),
        ("4,0,", "4,2147483647,", 6),
        ("end=2", "end=1", 8),
    ] {
        expect(&changed(from, to), Err((12, line)), &[]);
    }
}

#[test]
fn lines_not_of_their_form() {
    for (from, to, line) in [
        // One number too many in a round, and one too few.
        ("4,0,", "4,0,0,", 6),
        ("4,0,", "4,", 6),
        ("\n", "\r\n", 1),
        ("vars", "Vars", 3),
        ("vars=2\ndegree=2", "degree=2\nvars=2", 3),
        // The modulus as a number too, but 10 comes before 12.
        ("round=4,0,2147483645", "round=2147483647,0,2147483645,", 6),
    ] {
        expect(&changed(from, to), Err((10, line)), &[]);
    }
    let unended = &changed("claim=6", "claim=2147483647\n")[..60];
    assert!(unended.ends_with("claim=2147483647"));
    expect(unended, Err((10, 5)), &[]);
}

#[test]
fn small_files() {
    let head = "sumproof=1\nfield=2147483647\n";
    let none = format!("{}vars=0\ndegree=1\nclaim=35\nend=0\n", head);
    expect(&none, Ok((0, 1, 35)), &[]);
    let line = format!("{}vars=1\ndegree=1\nclaim=10\nround=7,2147483644\nend=1\n", head);
    expect(&line, Ok((1, 1, 10)), &[7, 2147483644]);
    let cubic = format!("{}vars=1\ndegree=3\nclaim=1\nround=0,1,2,3\nend=1\n", head);
    expect(&cubic, Ok((1, 3, 1)), &[0, 1, 2, 3]);
}

/// The head says sixteen rounds, and nine come. What they say is not written.
#[test]
fn nine_rounds_of_sixteen() {
    let head = "sumproof=1\nfield=2147483647\nvars=16\ndegree=1\nclaim=10\n";
    let file = format!("{}{}", head, "round=7,2147483644\n".repeat(9));
    expect(&format!("{}end=16\n", file), Err((10, 15)), &[]);
    expect(&file, Err((11, 15)), &[]);
}
