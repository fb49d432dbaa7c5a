//! A proof with all its parts, the well-formed cases that come from it, and
//! these cases for every number of variables up to 8 and every degree.

use super::growing::Inputs;
use crate::cases::Case;
use crate::field::P;
use crate::lists::List;
use crate::random::Random;
use crate::refusals::{messages_length, tables_length, MOST_DEGREE};
use crate::rounds::{true_messages, value};
use crate::tables::{corner_sum, f};

/// What prover and checker have in hand. The claim and the messages may lie.
#[derive(Clone)]
pub struct Proof {
    pub vars: u64,
    pub degree: u64,
    pub tables: List,
    pub claim: u64,
    pub challenges: Vec<u64>,
    pub messages: Vec<u64>,
    /// f at the challenges: what a closing should be given.
    pub last: u64,
}

/// Tables with edges of the field among them. A long one is made by the rule.
pub fn tables(random: &mut Random, vars: u64, degree: u64) -> List {
    let length = tables_length(vars, degree);
    if length <= 12 {
        return List::Plain(random.elements(length));
    }
    let modulus = random.pick(&[P, P, P, 2, 1]);
    let mut list = List::made(length, random.below(1 << 32), modulus);
    for _ in 0..4 {
        list.put(random.below(length), random.element());
    }
    list
}

/// Old contents for a lent list.
pub fn room(random: &mut Random, length: u64) -> List {
    if length <= 3 {
        List::Plain(random.anything(length))
    } else {
        List::made(length, random.below(1 << 32), 4294967295)
    }
}

/// A true proof over random tables.
pub fn proof(random: &mut Random, vars: u64, degree: u64) -> Proof {
    let tables = tables(random, vars, degree);
    let challenges = random.elements(vars);
    proof_of(vars, degree, tables, challenges)
}

/// The true proof over these tables.
pub fn proof_of(vars: u64, degree: u64, tables: List, challenges: Vec<u64>) -> Proof {
    let members = tables.members();
    Proof {
        vars,
        degree,
        claim: corner_sum(P, vars, degree, &members),
        messages: true_messages(P, vars, degree, &members, &challenges),
        last: f(P, degree, &members, &challenges),
        tables,
        challenges,
    }
}

impl Proof {
    fn start(&self, code: u64) -> Case {
        Case::new(code).number(self.vars).number(self.degree)
    }

    pub fn true_sum(&self) -> Case {
        self.start(10).list(self.tables.clone())
    }

    fn with_tables_and_challenges(&self, code: u64) -> Case {
        self.start(code).list(self.tables.clone()).plain(&self.challenges)
    }

    pub fn value_at(&self) -> Case {
        self.with_tables_and_challenges(11)
    }

    /// The prover, with this many places more than it needs.
    pub fn prove(&self, random: &mut Random, more: u64) -> Case {
        let messages = room(random, messages_length(self.vars, self.degree) + more);
        let scratch = room(random, tables_length(self.vars, self.degree) + more);
        self.with_tables_and_challenges(12).list(messages).list(scratch)
    }

    pub fn check(&self) -> Case {
        let case = self.start(20).list(self.tables.clone()).number(self.claim);
        case.plain(&self.challenges).plain(&self.messages)
    }

    pub fn check_rounds(&self) -> Case {
        let case = self.start(21).number(self.claim);
        case.plain(&self.challenges).plain(&self.messages)
    }

    pub fn message(&self, round: u64) -> &[u64] {
        let width = self.degree as usize + 1;
        let start = (round as usize - 1) * width;
        &self.messages[start..start + width]
    }

    /// The running claim after this many rounds, as far as they fit.
    pub fn running(&self, rounds: u64) -> u64 {
        if rounds == 0 {
            return self.claim;
        }
        value(P, self.message(rounds), self.challenges[rounds as usize - 1])
    }

    pub fn open(&self) -> Case {
        self.start(30).number(self.claim)
    }

    /// The step that takes this round.
    pub fn step(&self, round: u64) -> Case {
        let case = self.start(31).number(round - 1).number(self.running(round - 1)).number(0);
        case.plain(self.message(round)).number(self.challenges[round as usize - 1])
    }

    pub fn close(&self) -> Case {
        let case = self.start(32).number(self.vars).number(self.running(self.vars));
        case.number(0).number(self.last)
    }

    /// Any contents will do: a round part does not look at them.
    pub fn round_part(&self, random: &mut Random, j: u64) -> Case {
        let messages = room(random, messages_length(self.vars, self.degree));
        self.start(40).list(messages).number(j)
    }

    /// Every entry that works on a proof, one case each at least.
    pub fn cases(&self, random: &mut Random) -> Vec<Case> {
        let mut cases = vec![self.true_sum(), self.value_at()];
        let more = random.pick(&[0, 0, 1, 5]);
        cases.push(self.prove(random, more));
        cases.extend([self.check(), self.check_rounds(), self.open(), self.close()]);
        for round in 1..=self.vars {
            cases.push(self.step(round));
        }
        for j in 0..=self.vars + 1 {
            cases.push(self.round_part(random, j));
        }
        cases
    }
}

pub fn add(to: &mut Inputs) {
    to.comment("well formed: vars 0 to 8, degree 1 to 3, every entry");
    for vars in 0..=8 {
        for degree in 1..=MOST_DEGREE {
            for _ in 0..4 {
                let proof = proof(&mut to.random, vars, degree);
                let cases = proof.cases(&mut to.random);
                to.cases(&cases);
            }
        }
    }
    to.comment("well formed: vars 9 to 15, every entry");
    for vars in 9..16 {
        let proof = proof(&mut to.random, vars, 1 + vars % MOST_DEGREE);
        let cases = proof.cases(&mut to.random);
        to.cases(&cases);
    }
    to.comment("well formed: all elements at an edge of the field");
    for vars in [0, 1, 2, 3, 8] {
        for degree in 1..=MOST_DEGREE {
            for edge in [0, 1, P - 1] {
                edge_cases(to, vars, degree, edge);
            }
        }
    }
}

/// Tables all of one value, at the corners and beside them.
fn edge_cases(to: &mut Inputs, vars: u64, degree: u64, edge: u64) {
    for challenge in [0, 1, P - 1] {
        let tables = List::constant(tables_length(vars, degree), edge);
        let proof = proof_of(vars, degree, tables, vec![challenge; vars as usize]);
        let cases = proof.cases(&mut to.random);
        to.cases(&cases);
    }
}
