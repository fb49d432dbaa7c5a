//! Document 01's "Sums done by hand", as far as they are modulo p. The ones
//! with small moduli are in the unit tests.

use super::files::{bytes, documents_file, read};
use super::growing::Inputs;
use crate::cases::Case;
use crate::field::P;

pub fn add(to: &mut Inputs) {
    to.comment("document 01: sums done by hand, P7 to P12");
    sums(to);
    to.comment("document 01: field and limits");
    let operands = [(4, P - 1, P - 1), (1, P - 1, 1), (2, 0, 1), (1, P, 0), (4, 0, P), (5, 0, 0)];
    for (code, a, b) in operands {
        to.case(&Case::new(code).number(a).number(b));
    }
    for (vars, degree) in [(16, 3), (17, 3), (16, 0), (16, 4), (17, 4)] {
        to.case(&Case::new(30).number(vars).number(degree).number(0));
    }
    to.comment("document 01: the file and its damages");
    files(to);
}

/// Tables 0,1,2,0 and 3,4,1,2, the one table 3,4,1,2 with a false claim, and
/// no variables at all.
fn sums(to: &mut Inputs) {
    let two = [0, 1, 2, 0, 3, 4, 1, 2];
    let rounds = [4, 0, 2147483645, 2147483629, 30, 2147483639];
    to.case(&start(10, 2, 2).plain(&two));
    to.case(&start(11, 2, 2).plain(&two).plain(&[3, 1]));
    to.case(&start(12, 2, 2).plain(&two).plain(&[3, 1]).plain(&[9; 8]).plain(&[9; 10]));
    to.cases(&judged((2, 2, 6), &two, &[3, 1], &rounds, 4));
    for first in [0, 5] {
        let lie = [7, 2147483644, 3, 1];
        to.cases(&judged((2, 1, 11), &[3, 4, 1, 2], &[first, 9], &lie, 12));
    }
    for claim in [35, 36] {
        to.cases(&judged((0, 2, claim), &[5, 7], &[], &[], 35));
    }
}

fn start(code: u64, vars: u64, degree: u64) -> Case {
    Case::new(code).number(vars).number(degree)
}

/// The checker, the checker without tables, and all of it in steps. The
/// opening is vars, degree and claim; the last value is for closing.
fn judged(
    opening: (u64, u64, u64),
    tables: &[u64],
    challenges: &[u64],
    messages: &[u64],
    last: u64,
) -> [Case; 3] {
    let (vars, degree, claim) = opening;
    let lengths = vec![degree + 1; vars as usize];
    let whole = start(20, vars, degree).plain(tables).number(claim);
    let without = start(21, vars, degree).number(claim);
    let steps = start(33, vars, degree).number(claim).plain(&lengths);
    [
        whole.plain(challenges).plain(messages),
        without.plain(challenges).plain(messages),
        steps.plain(challenges).plain(messages).number(last),
    ]
}

fn files(to: &mut Inputs) {
    let whole = documents_file();
    let mut without_second_round = whole.clone();
    without_second_round.remove(6);
    let mut leading_zero = whole.clone();
    leading_zero[4] = "claim=06".to_string();
    let mut not_below_p = whole.clone();
    not_below_p[4] = "claim=2147483647".to_string();
    for lines in [&whole[..], &[], &without_second_round, &whole[..6], &leading_zero, &not_below_p]
    {
        let case = read(&mut to.random, &bytes(lines), 6);
        to.case(&case);
    }
    let mut without_last_byte = bytes(&whole);
    without_last_byte.pop();
    let case = read(&mut to.random, &without_last_byte, 6);
    to.case(&case);
}
