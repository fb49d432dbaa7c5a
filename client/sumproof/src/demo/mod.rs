//! The demonstration: a server that is honest, and some that are not.
//!
//! Everything in it comes from fixed generators, so that it prints the same
//! each time.

mod honest;
mod liars;
mod made;

use crate::layout::{columns, wrapped};
use crate::{say, Answer, Outcome};

const VARS: u32 = 16;

pub fn run() -> Answer<Outcome> {
    let ledger = made::ledger();
    let challenges = made::challenges();
    say(&honest::conversation(&ledger, &challenges)?)?;
    let (proof, told) = honest::file(&ledger, &challenges)?;
    say(&told)?;
    say("\nDishonest servers, and damaged files and states\n\n")?;
    say(&table(&liars::all(&proof, &ledger, &challenges)?))?;
    say(LUCK)?;
    Ok(Outcome::Done)
}

const LUCK: &str = "
The last line is no mistake: a false total passes where a challenge is a lucky
one. With one table each round has at most one lucky challenge, out of
2,147,483,647. So a client must draw its challenges as the server cannot
foresee, each after its message. The ones above are fixed, for this text to be
the same each time.
";

/// What is tried beside the answer, whose words may need several lines.
fn table(tried: &[(String, String)]) -> String {
    let mut rows = vec![
        vec!["What is tried".to_string(), "The library's answer".to_string()],
        vec!["-".repeat(44), "-".repeat(64)],
    ];
    for (what, answer) in tried {
        let mut left = wrapped(what, 44);
        let mut right = wrapped(answer, 64);
        let count = left.len().max(right.len());
        left.resize(count, String::new());
        right.resize(count, String::new());
        rows.extend(left.into_iter().zip(right).map(|(l, r)| vec![l, r]));
    }
    columns(&rows, &[])
}
