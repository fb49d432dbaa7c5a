//! The inputs, made from a seed. The same seed gives the same bytes on every
//! machine. Each module here makes the cases of one subject.

mod big;
mod byhand;
mod damage;
mod defects;
mod fields;
mod files;
mod growing;
mod liars;
mod proofs;
mod sequences;
mod states;

use growing::Inputs;

/// The whole inputs as text.
pub fn inputs(seed: u64) -> String {
    let mut inputs = Inputs::new(seed);
    inputs.comment(&format!(
        "Made by: second inputs {}. FORMAT.md says what the numbers mean.",
        seed
    ));
    byhand::add(&mut inputs);
    fields::add(&mut inputs);
    proofs::add(&mut inputs);
    liars::add(&mut inputs);
    defects::add(&mut inputs);
    states::add(&mut inputs);
    sequences::add(&mut inputs);
    files::add(&mut inputs);
    damage::add(&mut inputs);
    big::add(&mut inputs);
    inputs.text
}

#[cfg(test)]
mod tests {
    use std::collections::HashSet;

    use super::*;
    use crate::cases::{parse, ENTRIES};
    use crate::run::answer;

    /// The refusals that an entry knows. Round part and sequence are left out:
    /// their answers start with kind 0.
    const KNOWN: &[(u64, &[u64])] = &[
        (6, &[5, 6]),
        (10, &[1, 2, 3, 5]),
        (11, &[1, 2, 3, 5]),
        (12, &[1, 2, 3, 4, 5]),
        (20, &[1, 2, 3, 5]),
        (21, &[1, 2, 3, 5]),
        (30, &[1, 2, 5]),
        (31, &[1, 2, 3, 5, 7]),
        (32, &[1, 2, 5, 7]),
        (50, &[4, 9, 10, 11, 12, 13]),
    ];

    /// Every line can be read and says itself again, and every entry is there
    /// many times with every refusal that it knows.
    #[test]
    fn all_lines_are_cases() {
        let mut refusals = HashSet::new();
        let mut count = vec![0; 100];
        for line in inputs(1).lines().filter(|line| !line.starts_with('#')) {
            let case = parse(line).unwrap();
            assert_eq!(case.written(), line);
            let given = answer(&case);
            if given[0] >= 2 {
                refusals.insert((case.code, given[1]));
            }
            count[case.code as usize] += 1;
        }
        for (code, kinds) in ENTRIES {
            assert!(count[*code as usize] >= 50, "entry {}", code);
            assert!(kinds.iter().filter(|kind| kind.is_list()).count() <= 4);
        }
        for (code, numbers) in KNOWN {
            for number in *numbers {
                assert!(refusals.contains(&(*code, *number)), "entry {}: {}", code, number);
            }
        }
    }

    #[test]
    fn same_seed_same_inputs() {
        assert!(inputs(3) == inputs(3));
    }
}
