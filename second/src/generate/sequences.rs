//! Sequences: opening, steps with refused ones among them, closing. "Any
//! sequence of steps, refused ones among it, answers as the protocol does on
//! the steps that were not refused."

use super::growing::Inputs;
use super::liars::lie;
use super::proofs::{proof, Proof};
use crate::cases::{Case, MOST_STEPS};
use crate::field::P;
use crate::random::Random;
use crate::refusals::MOST_DEGREE;

type Step = (Vec<u64>, u64);

fn sequence(opening: [u64; 3], steps: &[Step], value: u64) -> Case {
    let lengths: Vec<u64> = steps.iter().map(|step| step.0.len() as u64).collect();
    let challenges: Vec<u64> = steps.iter().map(|step| step.1).collect();
    let coefficients: Vec<u64> = steps.iter().flat_map(|step| step.0.clone()).collect();
    let case = Case::new(33).number(opening[0]).number(opening[1]).number(opening[2]);
    case.plain(&lengths).plain(&challenges).plain(&coefficients).number(value)
}

fn opening(proof: &Proof) -> [u64; 3] {
    [proof.vars, proof.degree, proof.claim]
}

fn steps(proof: &Proof) -> Vec<Step> {
    let challenges = proof.challenges.iter();
    let rounds = challenges.zip(1..).map(|(r, round)| (proof.message(round).to_vec(), *r));
    rounds.collect()
}

/// A step that is refused by 3 or 5 where it is not refused by 7.
fn refused_step(random: &mut Random, degree: u64) -> Step {
    let mut message = random.elements(degree + 1);
    let mut challenge = random.element();
    let bad = random.pick(&[P, P + 1, 1 << 31, (1 << 32) - 1]);
    match random.below(6) {
        0 => message.truncate(degree as usize),
        1 => message.push(random.element()),
        2 => message.clear(),
        3 => challenge = bad,
        4 => message[random.below(degree + 1) as usize] = bad,
        _ => message = vec![bad; degree as usize],
    }
    (message, challenge)
}

/// The steps of a proof with refused ones put in, and some after the end.
fn disturbed(random: &mut Random, proof: &Proof) -> Vec<Step> {
    let mut result = Vec::new();
    for step in steps(proof) {
        while random.below(3) == 0 {
            result.push(refused_step(random, proof.degree));
        }
        result.push(step);
    }
    for _ in 0..random.below(3) {
        result.push(refused_step(random, proof.degree));
        result.push((random.elements(proof.degree + 1), random.element()));
    }
    result.truncate(MOST_STEPS);
    result
}

fn value(random: &mut Random, proof: &Proof) -> u64 {
    let other = random.element();
    random.pick(&[proof.last, proof.last, proof.last, other, P, (1 << 32) - 1])
}

pub fn add(to: &mut Inputs) {
    to.comment("sequences: true proofs and lies, with and without refused steps");
    for vars in 0..=8 {
        for degree in 1..=MOST_DEGREE {
            let honest = proof(&mut to.random, vars, degree);
            around(to, &honest);
            for fitting in 0..=vars {
                let lucky = to.random.pick(&[0, fitting]);
                let lying = lie(&mut to.random, vars, degree, fitting, lucky);
                around(to, &lying);
            }
        }
    }
    to.comment("sequences: 16 rounds, and nine of them");
    for degree in 1..=MOST_DEGREE {
        for long in [proof(&mut to.random, 16, degree), lie(&mut to.random, 16, degree, 7, 0)] {
            let all = steps(&long);
            to.case(&sequence(opening(&long), &all, long.last));
            to.case(&sequence(opening(&long), &all[..9], long.last));
        }
    }
    to.comment("sequences: openings that are refused");
    for (vars, degree, claim) in [(17, 1, 0), (17, 4, P), (2, 0, P), (2, 4, 0), (2, 1, P)] {
        let step = refused_step(&mut to.random, 1);
        to.case(&sequence([vars, degree, claim], &[step], 0));
        to.case(&sequence([vars, degree, claim], &[], 0));
    }
}

/// The proof as it is, cut short, and with refused steps.
fn around(to: &mut Inputs, proof: &Proof) {
    let plain = steps(proof);
    to.case(&sequence(opening(proof), &plain, proof.last));
    if !plain.is_empty() {
        to.case(&sequence(opening(proof), &plain[1..], proof.last));
    }
    for _ in 0..2 {
        let many = disturbed(&mut to.random, proof);
        let given = value(&mut to.random, proof);
        to.case(&sequence(opening(proof), &many, given));
    }
}
