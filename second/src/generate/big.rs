//! A few cases with 16 variables. Their tables are made by the rule, so the
//! lines are short.

use super::defects::{of_field, with};
use super::growing::Inputs;
use super::liars::lie;
use super::proofs::{proof, proof_of};
use crate::field::P;
use crate::lists::List;
use crate::refusals::{tables_length, MOST_DEGREE, MOST_VARS};

pub fn add(to: &mut Inputs) {
    to.comment("16 variables: true proofs, lies, and defects in tables and scratch");
    for degree in 1..=MOST_DEGREE {
        honest(to, degree);
        for (fitting, lucky) in [(9, 0), (16, 0), (16, 16)] {
            let lying = lie(&mut to.random, MOST_VARS, degree, fitting, lucky);
            to.case(&lying.check());
            to.case(&lying.check_rounds());
        }
    }
}

fn honest(to: &mut Inputs, degree: u64) {
    let base = proof(&mut to.random, MOST_VARS, degree);
    let longer = base.prove(&mut to.random, 8);
    to.cases(&[longer, base.value_at()]);
    let exact = base.prove(&mut to.random, 0);
    for (case, field) in [(exact.clone(), 2), (exact, 5), (base.check(), 2), (base.true_sum(), 2)] {
        to.case(&case);
        for defect in of_field(&case, field) {
            to.case(&with(&case, (field, defect)));
        }
    }
    // Every element the greatest: sums that are not reduced are as large as
    // they can be.
    let tables = List::constant(tables_length(MOST_VARS, degree), P - 1);
    let greatest = proof_of(MOST_VARS, degree, tables, vec![P - 1; MOST_VARS as usize]);
    let prove = greatest.prove(&mut to.random, 0);
    to.cases(&[greatest.true_sum(), prove, greatest.check()]);
}
