//! Defects: every single one and every pair that document 01's table of
//! refusals names for an entry, so that the order of refusals shows. The
//! defects of a field come from what the field is.

use super::growing::{Inputs, EDGES};
use super::proofs::proof;
use crate::cases::{kinds, Case, Field, Kind};
use crate::field::P;
use crate::random::Random;
use crate::refusals::MOST_DEGREE;

/// One thing done to one field.
#[derive(Clone, Copy, PartialEq)]
pub enum Defect {
    /// Another number.
    Set(u64),
    /// A list one place shorter, one longer, or empty.
    Short,
    Long,
    Empty,
    /// Another member: in the first place (0), the middle (1) or the last (2).
    Put(u64, u64),
}

use Defect::*;

const TOP: u64 = (1 << 32) - 1;

/// The defects that a field of a case can have. A few of these leave the case
/// well formed, or make another one of it; that does no harm.
pub fn of_field(case: &Case, index: usize) -> Vec<Defect> {
    let vars = match case.fields[0] {
        Field::Number(value) => value,
        Field::List(_) => 0,
    };
    let over = (vars + 1).min(TOP);
    match kinds(case.code).unwrap()[index] {
        Kind::Vars => vec![Set(16), Set(17), Set(1 << 31), Set(TOP), Set(over)],
        Kind::Degree => vec![Set(0), Set(4), Set(TOP), Set(1), Set(3)],
        Kind::Element => vec![Set(0), Set(P - 1), Set(P), Set(P + 1), Set(1 << 31), Set(TOP)],
        Kind::Round => vec![Set(0), Set(over), Set(TOP)],
        Kind::Taken => vec![Set(0), Set(vars), Set(over), Set(TOP)],
        Kind::Mark => vec![Set(0), Set(1)],
        Kind::Room | Kind::Scratch => vec![Short, Empty, Long],
        kind if kind.is_list() => {
            let mut result = vec![Short, Long, Empty];
            for place in 0..3 {
                result.extend([Put(place, P), Put(place, TOP)]);
            }
            result
        }
        _ => Vec::new(),
    }
}

/// All defects of a case, with the fields that they are in.
pub fn of_case(case: &Case) -> Vec<(usize, Defect)> {
    let mut result = Vec::new();
    for index in 0..case.fields.len() {
        result.extend(of_field(case, index).into_iter().map(|defect| (index, defect)));
    }
    result
}

/// The case with a defect. An empty list has no place to change.
pub fn with(case: &Case, defect: (usize, Defect)) -> Case {
    let mut result = case.clone();
    match (&mut result.fields[defect.0], defect.1) {
        (Field::Number(number), Set(value)) => *number = value,
        (Field::List(list), Short) => list.resize(list.length().saturating_sub(1), 0),
        (Field::List(list), Long) => list.resize(list.length() + 1, 1),
        (Field::List(list), Empty) => list.resize(0, 0),
        (Field::List(list), Put(place, value)) if list.length() > 0 => {
            list.put((list.length() - 1) * place / 2, value)
        }
        _ => (),
    }
    result
}

/// Every single defect and every pair. Of two that replace the same number
/// only the second would be seen.
fn singles_and_pairs(to: &mut Inputs, case: &Case) {
    let all = of_case(case);
    for (i, first) in all.iter().enumerate() {
        let damaged = with(case, *first);
        to.case(&damaged);
        for second in &all[i + 1..] {
            let same = first.0 == second.0 && matches!(first.1, Set(_));
            if !same {
                to.case(&with(&damaged, *second));
            }
        }
    }
}

/// Every edge value in the first, middle and last place of each list that
/// holds elements, and in each number that is one.
fn edges_everywhere(to: &mut Inputs, case: &Case) {
    for (index, kind) in kinds(case.code).unwrap().iter().enumerate() {
        for value in EDGES {
            if *kind == Kind::Element {
                to.case(&with(case, (index, Set(value))));
            } else if kind.is_list() {
                for place in 0..3 {
                    to.case(&with(case, (index, Put(place, value))));
                }
            }
        }
    }
}

/// A case of a random entry with up to four random defects.
fn random_case(random: &mut Random) -> Case {
    let (vars, degree) = (random.below(5), 1 + random.below(MOST_DEGREE));
    let cases = proof(random, vars, degree).cases(random);
    let mut case = cases[random.below(cases.len() as u64) as usize].clone();
    for _ in 0..random.below(5) {
        let all = of_case(&case);
        case = with(&case, all[random.below(all.len() as u64) as usize]);
    }
    case
}

pub fn add(to: &mut Inputs) {
    to.comment("every single defect and every pair of defects, entry by entry");
    for (vars, degree) in [(0, 1), (0, 3), (1, 2), (2, 3), (3, 1)] {
        let base = proof(&mut to.random, vars, degree);
        let mut cases = vec![base.true_sum(), base.value_at(), base.prove(&mut to.random, 0)];
        cases.extend([base.check(), base.check_rounds(), base.open(), base.close()]);
        cases.push(base.round_part(&mut to.random, vars));
        if vars > 0 {
            cases.push(base.step(vars));
        }
        for case in &cases {
            edges_everywhere(to, case);
            singles_and_pairs(to, case);
        }
    }
    to.comment("random entries with up to four random defects");
    for _ in 0..2000 {
        let case = random_case(&mut to.random);
        to.case(&case);
    }
}
