//! Smaller cases near a case, for showing a difference as small as it can be
//! made. Each candidate is smaller by `size`, so that shrinking ends.

use crate::cases::{kinds, Case, Field, Kind};
use crate::lists::List;
use crate::refusals::{messages_length, tables_length, MOST_DEGREE, MOST_VARS};

/// Lists up to this length are worked on member by member.
const SHORT: u64 = 64;

/// Lengths first, then values.
fn size(case: &Case) -> (u64, u128) {
    let mut size = (0, 0);
    for field in &case.fields {
        match field {
            Field::Number(value) => size.1 += *value as u128,
            Field::List(list) => {
                size.0 += list.length();
                size.1 += list.written().iter().map(|x| *x as u128).sum::<u128>();
            }
        }
    }
    size
}

/// The same case with short made lists written out.
pub fn plain(case: &Case) -> Case {
    let mut result = case.clone();
    for field in &mut result.fields {
        if let Field::List(list) = field {
            if list.length() <= SHORT {
                *list = List::Plain(list.members());
            }
        }
    }
    result
}

/// All candidates, the boldest first.
pub fn candidates(case: &Case) -> Vec<Case> {
    let mut result = recut(case);
    result.extend(without_steps(case));
    for index in 0..case.fields.len() {
        for field in smaller(&case.fields[index]) {
            let mut candidate = case.clone();
            candidate.fields[index] = field;
            result.push(candidate);
        }
    }
    let most = size(case);
    result.retain(|candidate| candidate.fits_together() && size(candidate) < most);
    result
}

fn smaller(field: &Field) -> Vec<Field> {
    match field {
        Field::Number(value) => smaller_numbers(*value).into_iter().map(Field::Number).collect(),
        Field::List(list) => smaller_lists(list).into_iter().map(Field::List).collect(),
    }
}

fn smaller_numbers(value: u64) -> Vec<u64> {
    let mut result = vec![0, 1, value / 2, value.saturating_sub(1)];
    result.retain(|x| *x < value);
    result.dedup();
    result
}

fn smaller_lists(list: &List) -> Vec<List> {
    let length = list.length();
    let mut result = Vec::new();
    for shorter in smaller_numbers(length) {
        let mut cut = list.clone();
        cut.resize(shorter, 0);
        result.push(cut);
    }
    match list {
        List::Plain(members) if length <= 8 * SHORT => {
            for i in 0..members.len() {
                let mut without = members.clone();
                without.remove(i);
                result.push(List::Plain(without));
                for value in smaller_numbers(members[i]) {
                    let mut changed = list.clone();
                    changed.put(i as u64, value);
                    result.push(changed);
                }
            }
        }
        List::Plain(_) => (),
        List::Made(made) => {
            result.push(List::constant(length, 0));
            for i in 0..made.changes.len() {
                let mut without = made.clone();
                without.changes.remove(i);
                result.push(List::Made(without));
            }
        }
    }
    result
}

/// The length that a list of this kind must have.
fn right_length(kind: Kind, vars: u64, degree: u64) -> Option<u64> {
    match kind {
        Kind::Tables | Kind::Scratch => Some(tables_length(vars, degree)),
        Kind::Challenges => Some(vars),
        Kind::Messages | Kind::Room => Some(messages_length(vars, degree)),
        Kind::Message => Some(degree + 1),
        _ => None,
    }
}

/// One variable less, or one table less, and every list cut by as much, so
/// that what was of the right length still is.
fn recut(case: &Case) -> Vec<Case> {
    let all = kinds(case.code).unwrap_or(&[]);
    if all.len() < 2 || all[0] != Kind::Vars {
        return Vec::new();
    }
    let (vars, degree) = (case.number_at(0), case.number_at(1));
    if vars > MOST_VARS || degree > MOST_DEGREE {
        return Vec::new();
    }
    let less = vars.saturating_sub(1);
    let mut result = Vec::new();
    for (fewer_vars, fewer) in
        [(vars / 2, degree), (less, degree), (vars, degree.saturating_sub(1))]
    {
        let mut candidate = case.clone();
        candidate.fields[0] = Field::Number(fewer_vars);
        candidate.fields[1] = Field::Number(fewer);
        for (kind, field) in all.iter().zip(&mut candidate.fields) {
            let lengths =
                (right_length(*kind, vars, degree), right_length(*kind, fewer_vars, fewer));
            if let (Field::List(list), (Some(old), Some(new))) = (field, lengths) {
                list.resize(list.length().saturating_sub(old - new), 0);
            }
        }
        result.push(candidate);
    }
    result
}

/// A sequence with one step left out.
fn without_steps(case: &Case) -> Vec<Case> {
    if case.code != 33 {
        return Vec::new();
    }
    let (lengths, challenges, coefficients) = (case.list_at(3), case.list_at(4), case.list_at(5));
    let mut result = Vec::new();
    let mut start = 0;
    for i in 0..lengths.len() {
        let end = start + lengths[i] as usize;
        let mut lists = [lengths.clone(), challenges.clone(), coefficients.clone()];
        lists[0].remove(i);
        lists[1].remove(i);
        lists[2].drain(start..end);
        let mut candidate = case.clone();
        for (index, list) in lists.iter().enumerate() {
            candidate.fields[3 + index] = Field::List(List::Plain(list.clone()));
        }
        result.push(candidate);
        start = end;
    }
    result
}

#[cfg(test)]
mod tests {
    use super::*;
    use crate::cases::parse;

    /// A difference that only needs two variables is shrunk to two.
    #[test]
    fn shrinks_to_the_smallest() {
        let mut case = plain(&parse("10 3 2 4294967295 16 5 100 0 0").unwrap());
        let differs = |c: &Case| c.number_at(0) >= 2 && c.list_at(2).len() >= 4;
        while let Some(next) = candidates(&case).into_iter().find(|c| differs(c)) {
            case = next;
        }
        assert_eq!(case.written(), "10 2 0 4 0 0 0 0");
    }

    #[test]
    fn steps_are_left_out_whole() {
        let case = parse("33 2 1 0 2 2 1 2 9 9 3 5 6 7 0").unwrap();
        let without: Vec<String> = without_steps(&case).iter().map(|c| c.written()).collect();
        assert_eq!(without, ["33 2 1 0 1 1 1 9 1 7 0", "33 2 1 0 1 2 1 9 2 5 6 0"]);
    }
}
