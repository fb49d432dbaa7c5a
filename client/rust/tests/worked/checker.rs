//! The checker in one call, with tables and without, and the round part.

use crate::{plain, PROOF};
use sendurafi::{check, check_rounds, round_part, Rounds, P};

const TABLE: [u32; 4] = [3, 4, 1, 2];
/// What a liar sends who claims 11.
const LIE: [u32; 4] = [7, 2147483644, 3, 1];
/// Not all of these are elements.
const BAD: [u32; 4] = [3, 4, P, 2];

#[test]
fn the_lie_without_tables() {
    assert_eq!(check_rounds(2, 1, 11, &[5, 9], &LIE), Ok(Rounds::Rejected { round: 2 }));
}

/// Each refusal alone, and vars before degree. Where a list is too short the
/// claim is no element either, as 3 comes before 5.
#[test]
fn refusals() {
    // vars, degree, tables, claim, challenges, messages
    let cases: [(u32, u32, &[u32], u32, &[u32], &[u32], u32); 11] = [
        (17, 1, &TABLE, 11, &[0, 9], &LIE, 1),
        (2, 0, &TABLE, 11, &[0, 9], &LIE, 2),
        (2, 4, &TABLE, 11, &[0, 9], &LIE, 2),
        (17, 4, &TABLE, 11, &[0, 9], &LIE, 1),
        (2, 1, &LIE[..3], P, &[0, 9], &LIE, 3),
        (2, 1, &TABLE, P, &[0], &LIE, 3),
        (2, 1, &TABLE, P, &[0, 9], &LIE[..3], 3),
        (2, 1, &BAD, 11, &[0, 9], &LIE, 5),
        (2, 1, &TABLE, P, &[0, 9], &LIE, 5),
        (2, 1, &TABLE, 11, &[0, P], &LIE, 5),
        (2, 1, &TABLE, 11, &[0, 9], &BAD, 5),
    ];
    for (vars, degree, tables, claim, challenges, messages, number) in cases {
        let answer = check(vars, degree, tables, claim, challenges, messages);
        assert_eq!(plain(answer), Err(number));
    }
}

#[test]
fn refusals_without_tables() {
    // vars, degree, claim, challenges, messages
    let cases: [(u32, u32, u32, &[u32], &[u32], u32); 7] = [
        (17, 1, 11, &[0, 9], &LIE, 1),
        (2, 0, 11, &[0, 9], &LIE, 2),
        (2, 1, P, &[0], &LIE, 3),
        (2, 1, P, &[0, 9], &LIE[..3], 3),
        (2, 1, P, &[0, 9], &LIE, 5),
        (2, 1, 11, &[0, P], &LIE, 5),
        (2, 1, 11, &[0, 9], &BAD, 5),
    ];
    for (vars, degree, claim, challenges, messages, number) in cases {
        let answer = check_rounds(vars, degree, claim, challenges, messages);
        assert_eq!(plain(answer), Err(number));
    }
}

/// Six numbers are two rounds of three, or three rounds of two.
#[test]
fn round_parts() {
    // vars, degree, messages, round
    let cases: [(u32, u32, &[u32], u32, Result<&[u32], u32>); 4] = [
        (3, 1, &PROOF, 3, Ok(&[30, 2147483639])),
        (2, 2, &PROOF[..5], 0, Err(3)),
        (2, 4, &PROOF, 1, Err(2)),
        (17, 4, &PROOF, 1, Err(1)),
    ];
    for (vars, degree, messages, round, part) in cases {
        assert_eq!(plain(round_part(vars, degree, messages, round)), part);
    }
}
