//! Lying provers. A lie can be made to fit each check up to a round, so that
//! any round, or the final check, is the first to fail. A lucky challenge
//! makes a false claim true again, as in document 01's P10.

use super::growing::Inputs;
use super::proofs::{proof, Proof};
use crate::cases::Case;
use crate::field::{add as plus_mod, inv, mul, sub, P};
use crate::random::Random;
use crate::refusals::MOST_DEGREE;
use crate::rounds::{plus, times, true_polynomial, value};
use crate::tables::f;

/// A polynomial d with d(0) + d(1) = delta and a root: c·(X - r1)..(X - ri)
/// for one to k roots, with the c that fits.
fn fix(random: &mut Random, degree: u64, delta: u64) -> (Vec<u64>, u64) {
    loop {
        let count = 1 + random.below(degree);
        let roots = random.elements(count);
        let mut polynomial = vec![1];
        for root in &roots {
            polynomial = times(P, &polynomial, &[sub(P, 0, *root), 1]);
        }
        let sum = plus_mod(P, value(P, &polynomial, 0), value(P, &polynomial, 1));
        if let Some(inverse) = inv(P, sum) {
            let factor = mul(P, delta, inverse);
            return (times(P, &polynomial, &[factor]), roots[0]);
        }
    }
}

/// A proof of a false claim. The messages of the rounds up to `fitting` fit,
/// later ones are the true polynomials. The challenge of round `lucky` is a
/// root of the lie; from there on nothing is false any more.
pub fn lie(random: &mut Random, vars: u64, degree: u64, fitting: u64, lucky: u64) -> Proof {
    let mut lying = proof(random, vars, degree);
    let tables = lying.tables.members();
    lying.claim = plus_mod(P, lying.claim, 1 + random.below(P - 1));
    lying.messages.clear();
    let mut running = lying.claim;
    for round in 1..=vars {
        let bound = lying.challenges[..round as usize - 1].to_vec();
        let mut message = true_polynomial(P, vars, degree, &tables, &bound);
        let sum = plus_mod(P, value(P, &message, 0), value(P, &message, 1));
        let delta = sub(P, running, sum);
        if round <= fitting && delta != 0 {
            let (lie, root) = fix(random, degree, delta);
            message = plus(P, &message, &lie);
            if round == lucky {
                lying.challenges[round as usize - 1] = root;
            }
        }
        running = value(P, &message, lying.challenges[round as usize - 1]);
        lying.messages.extend(message);
    }
    lying.last = f(P, degree, &tables, &lying.challenges);
    lying
}

/// The checker's cases of a proof, whole and without tables, and its closing.
fn judged(lying: &Proof) -> [Case; 3] {
    [lying.check(), lying.check_rounds(), lying.close()]
}

pub fn add(to: &mut Inputs) {
    to.comment("lying provers: the first failing check is round 1 to m, or the final one");
    for vars in 0..=8 {
        for degree in 1..=MOST_DEGREE {
            for fitting in 0..=vars {
                let lying = lie(&mut to.random, vars, degree, fitting, 0);
                to.cases(&judged(&lying));
                if fitting > 0 {
                    to.case(&lying.step(fitting));
                }
            }
        }
    }
    to.comment("lucky ones: a false claim that is accepted");
    for vars in 1..=8 {
        for degree in 1..=MOST_DEGREE {
            for lucky in 1..=vars {
                let lying = lie(&mut to.random, vars, degree, lucky, lucky);
                to.cases(&judged(&lying));
            }
        }
    }
    to.comment("true claims with one or two numbers changed");
    for _ in 0..400 {
        let (vars, degree) = (1 + to.random.below(5), 1 + to.random.below(MOST_DEGREE));
        let mut changed = proof(&mut to.random, vars, degree);
        for _ in 0..=to.random.below(2) {
            let place = to.random.below(changed.messages.len() as u64) as usize;
            changed.messages[place] = to.random.element();
        }
        to.cases(&judged(&changed));
    }
}

#[cfg(test)]
mod tests {
    use super::*;
    use crate::checker::{check, Verdict};

    fn verdict(p: &Proof) -> Result<Verdict, u64> {
        let tables = p.tables.members();
        check(P, p.vars, p.degree, &tables, p.claim, &p.challenges, &p.messages)
    }

    /// Lies fail where they were made to, and lucky ones are accepted. The
    /// seed is one where no other challenge happens to be lucky.
    #[test]
    fn lies_are_found_where_they_should_be() {
        let mut random = Random::new(12);
        for degree in 1..=3 {
            for fitting in 0..=4 {
                let round = if fitting < 4 { fitting + 1 } else { 4 };
                let lying = lie(&mut random, 4, degree, fitting, 0);
                assert_eq!(verdict(&lying), Ok(Verdict::Rejected(round)));
            }
            for lucky in 1..=4 {
                let lying = lie(&mut random, 4, degree, lucky, lucky);
                assert_eq!(verdict(&lying), Ok(Verdict::Accepted));
            }
        }
    }
}
