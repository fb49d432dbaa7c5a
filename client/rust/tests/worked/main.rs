//! Cases whose answers were worked out by hand or by other programs, through
//! the crate. `document.rs` has the specification's own cases; here are the
//! refusals one by one, states that no step leads to, the largest sizes, and
//! the specification's file damaged in every way that is quick to list.

mod checker;
mod damaged;
mod file;
mod prover;
mod steps;

use sendurafi::Refusal;

/// The messages of the specification's file.
const PROOF: [u32; 6] = [4, 0, 2147483645, 2147483629, 30, 2147483639];

/// The specification's file.
const FILE: &str = "sumproof=1\nfield=2147483647\nvars=2\ndegree=2\nclaim=6\n\
    round=4,0,2147483645\nround=2147483629,30,2147483639\nend=2\n";

/// An answer with its refusal as a number. None here is about a line.
fn plain<T>(answer: Result<T, Refusal>) -> Result<T, u32> {
    answer.map_err(|refusal| {
        assert_eq!(refusal.line(), None);
        refusal.number()
    })
}
