//! From a case to its answer line.

use std::io::{BufRead, Write};

use crate::answers::{lent, state, Numbers};
use crate::cases::{parse, spaced, Case};
use crate::field::P;
use crate::steps::State;
use crate::{checker, field, file, part, rounds, steps, tables};

/// The numbers of a case's answer, without the case's own number.
pub fn answer(case: &Case) -> Vec<u64> {
    match case.code {
        1..=6 => field_answer(case),
        10 | 11 => tables_answer(case),
        12 => prove(case),
        20 | 21 => checker_answer(case),
        30 => steps::open(P, case.number_at(0), case.number_at(1), case.number_at(2)).numbers(),
        31 => step(case),
        32 => steps::close(P, &given_state(case), case.number_at(5)).numbers(),
        33 => sequence(case),
        40 => round_part(case),
        50 => read(case),
        code => panic!("no entry {}", code),
    }
}

fn field_answer(case: &Case) -> Vec<u64> {
    let a = case.number_at(0);
    let b = || case.number_at(1);
    let answer = match case.code {
        1 => field::sum(P, a, b()),
        2 => field::difference(P, a, b()),
        3 => field::negative(P, a),
        4 => field::product(P, a, b()),
        5 => field::power(P, a, b()),
        _ => field::inverse(P, a),
    };
    answer.numbers()
}

fn tables_answer(case: &Case) -> Vec<u64> {
    let (vars, degree) = (case.number_at(0), case.number_at(1));
    let lent_tables = case.list_at(2);
    let answer = match case.code {
        10 => tables::true_sum(P, vars, degree, &lent_tables),
        _ => tables::value_at(P, vars, degree, &lent_tables, &case.list_at(3)),
    };
    answer.numbers()
}

fn prove(case: &Case) -> Vec<u64> {
    let (vars, degree) = (case.number_at(0), case.number_at(1));
    let (lent_tables, challenges) = (case.list_at(2), case.list_at(3));
    let (mut messages, mut scratch) = (case.list_at(4), case.list_at(5));
    let answer =
        rounds::prove(P, vars, degree, &lent_tables, &challenges, &mut messages, &mut scratch);
    [answer.numbers(), lent(&messages), lent(&scratch)].concat()
}

fn checker_answer(case: &Case) -> Vec<u64> {
    let (vars, degree) = (case.number_at(0), case.number_at(1));
    if case.code == 20 {
        let (lent_tables, claim) = (case.list_at(2), case.number_at(3));
        let (challenges, messages) = (case.list_at(4), case.list_at(5));
        checker::check(P, vars, degree, &lent_tables, claim, &challenges, &messages).numbers()
    } else {
        let (claim, challenges, messages) = (case.number_at(2), case.list_at(3), case.list_at(4));
        checker::check_rounds(P, vars, degree, claim, &challenges, &messages).numbers()
    }
}

/// The state that entries 31 and 32 are given: their first five numbers.
fn given_state(case: &Case) -> State {
    State {
        vars: case.number_at(0),
        degree: case.number_at(1),
        taken: case.number_at(2),
        claim: case.number_at(3),
        rejected: case.number_at(4),
    }
}

fn step(case: &Case) -> Vec<u64> {
    let (answer, after) = steps::step(P, &given_state(case), &case.list_at(5), case.number_at(6));
    [answer.numbers(), state(&after)].concat()
}

/// Opening, all steps whatever they answer, and closing. An opening that is
/// refused gives no state, so the line ends there.
fn sequence(case: &Case) -> Vec<u64> {
    let opened = steps::open(P, case.number_at(0), case.number_at(1), case.number_at(2));
    let mut result = opened.numbers();
    if let Ok(mut now) = opened {
        let coefficients = case.list_at(5);
        let mut start = 0;
        for (length, challenge) in case.list_at(3).iter().zip(case.list_at(4)) {
            let end = start + *length as usize;
            let (answer, after) = steps::step(P, &now, &coefficients[start..end], challenge);
            result.extend(answer.numbers());
            result.extend(state(&after));
            now = after;
            start = end;
        }
        result.extend(steps::close(P, &now, case.number_at(6)).numbers());
    }
    result
}

/// Both entries: the part, then the number.
fn round_part(case: &Case) -> Vec<u64> {
    let (vars, degree) = (case.number_at(0), case.number_at(1));
    let (messages, j) = (case.list_at(2), case.number_at(3));
    let found = part::round_part(vars, degree, &messages, j);
    let number = part::part_number(vars, degree, &messages, j);
    vec![0, found.start, found.length, number]
}

fn read(case: &Case) -> Vec<u64> {
    let bytes: Vec<u8> = case.list_at(0).iter().map(|b| *b as u8).collect();
    let mut messages = case.list_at(1);
    let answer = file::read(P, &bytes, &mut messages);
    [answer.numbers(), lent(&messages)].concat()
}

/// All answers to all inputs, a line each. A wrong line stops it.
pub fn answers(inputs: impl BufRead, mut out: impl Write) -> Result<(), String> {
    let mut number = 0;
    for (index, line) in inputs.lines().enumerate() {
        let line = line.map_err(|e| e.to_string())?;
        if line.starts_with('#') {
            continue;
        }
        number += 1;
        let case = parse(&line).map_err(|e| format!("line {}: {}", index + 1, e))?;
        writeln!(out, "{} {}", number, spaced(&answer(&case))).map_err(|e| e.to_string())?;
    }
    out.flush().map_err(|e| e.to_string())
}
