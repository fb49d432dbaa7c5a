//! Proof files: whole ones, wrong counts, room, and sizes at the limit.

use super::growing::Inputs;
use super::proofs::{proof, room, Proof};
use crate::cases::Case;
use crate::field::P;
use crate::lists::List;
use crate::random::Random;
use crate::refusals::{messages_length, MOST_DEGREE, MOST_VARS};

/// The lines of a file, without their ends.
pub type Lines = Vec<String>;

/// The first file of document 01, "Proof file".
pub fn documents_file() -> Lines {
    let text = "sumproof=1 field=2147483647 vars=2 degree=2 claim=6 \
                round=4,0,2147483645 round=2147483629,30,2147483639 end=2";
    text.split(' ').map(str::to_string).collect()
}

pub fn lines(proof: &Proof) -> Lines {
    let mut result = vec![
        "sumproof=1".to_string(),
        format!("field={}", P),
        format!("vars={}", proof.vars),
        format!("degree={}", proof.degree),
        format!("claim={}", proof.claim),
    ];
    for round in 1..=proof.vars {
        let texts: Vec<String> = proof.message(round).iter().map(|x| x.to_string()).collect();
        result.push(format!("round={}", texts.join(",")));
    }
    result.push(format!("end={}", proof.vars));
    result
}

/// A file with any numbers in it. Its messages need not fit anything.
pub fn any_file(random: &mut Random, vars: u64, degree: u64) -> Lines {
    lines(&Proof {
        vars,
        degree,
        tables: List::Plain(Vec::new()),
        claim: random.element(),
        challenges: Vec::new(),
        messages: random.elements(messages_length(vars, degree)),
        last: 0,
    })
}

pub fn bytes(lines: &[String]) -> Vec<u64> {
    let mut result = Vec::new();
    for line in lines {
        result.extend(line.bytes().map(|b| b as u64));
        result.push(10);
    }
    result
}

/// A case with these bytes and a lent list of this length.
pub fn read(random: &mut Random, bytes: &[u64], length: u64) -> Case {
    Case::new(50).plain(bytes).list(room(random, length))
}

pub fn add(to: &mut Inputs) {
    to.comment("whole files, with the room exact, one longer, one shorter, none");
    for vars in 0..=MOST_VARS {
        for degree in 1..=MOST_DEGREE {
            let file = bytes(&any_file(&mut to.random, vars, degree));
            let length = messages_length(vars, degree);
            for length in [length, length + 1, length.saturating_sub(1), 0, 70] {
                let case = read(&mut to.random, &file, length);
                to.case(&case);
            }
        }
    }
    let true_file = bytes(&lines(&proof(&mut to.random, 3, 2)));
    let case = read(&mut to.random, &true_file, 9);
    to.case(&case);
    counts(to);
    sizes(to);
}

/// "Taking the header's counts as the file's contents": counts in vars,
/// degree and end that the lines do not keep.
fn counts(to: &mut Inputs) {
    to.comment("files: counts that the lines don't keep");
    for rounds in [0, 1, 2, 9, 15, 16] {
        for vars in [0, 1, 2, 3, 8, 9, 10, 15, 16, 17] {
            for end in [rounds, vars, 0] {
                let mut file = any_file(&mut to.random, rounds, 1);
                file[2] = format!("vars={}", vars);
                let last = file.len() - 1;
                file[last] = format!("end={}", end);
                let case = read(&mut to.random, &bytes(&file), 34);
                to.case(&case);
            }
        }
    }
    for degree in 1..=MOST_DEGREE {
        for said in 0..=4 {
            let mut file = any_file(&mut to.random, 2, degree);
            file[3] = format!("degree={}", said);
            let case = read(&mut to.random, &bytes(&file), 8);
            to.case(&case);
        }
    }
}

/// "file over 4,096 bytes": at the limit and over it.
fn sizes(to: &mut Inputs) {
    to.comment("files: sizes at the limit of 4,096 bytes");
    let whole = bytes(&documents_file());
    for length in [4095, 4096, 4097] {
        for filler in [120, 10] {
            let mut file = whole.clone();
            file.resize(length, filler);
            for room in [6, 0] {
                let case = read(&mut to.random, &file, room);
                to.case(&case);
            }
        }
        for value in [0, 10, 115, 255] {
            let same = List::constant(length as u64, value);
            to.case(&Case::new(50).list(same).plain(&[7]));
        }
    }
    for length in [0, 1, 10, 100, 4096, 4097, 65536, 196616] {
        let seed = to.random.below(1 << 32);
        to.case(&Case::new(50).list(List::made(length, seed, 256)).plain(&[7]));
    }
}
