//! check, prove, show and sum.

use std::path::Path;

use sendurafi::{check_rounds, field, messages_len, true_sum, Refusal, Rounds, Verdict, P};

use crate::args::Options;
use crate::layout::columns;
use crate::proof::{self, Proof};
use crate::tables::{self, described, Tables};
use crate::{say, trouble, Answer, Outcome, Trouble};

impl From<Refusal> for Trouble {
    fn from(refusal: Refusal) -> Trouble {
        Trouble(format!("the library refuses: {}", refusal))
    }
}

pub fn check(options: &Options) -> Answer<Outcome> {
    let proof = proof::read(&options.proof)?;
    let tables = tables::read(options)?;
    same_shape(&options.proof, &proof, &tables)?;
    let challenges = tables::challenges(options, &tables)?;
    tables.progress("checking");
    match judge(&proof, &tables.list, &challenges)? {
        Judged::Accepted => {
            say(&format!(
                "accepted: the claim {} passed {} and the final check\n",
                modulo_p(proof.claim),
                rounds(&proof)
            ))?;
            Ok(Outcome::Done)
        }
        Judged::Sum(round) => {
            say(&format!(
                "rejected in round {}: its sum is not the running claim (claim {})\n",
                round,
                modulo_p(proof.claim)
            ))?;
            Ok(Outcome::Rejected)
        }
        Judged::Final(round) => {
            say(&format!(
                "rejected in round {}: the sums hold in {}, but the final check fails (claim {})\n",
                round,
                rounds(&proof),
                modulo_p(proof.claim)
            ))?;
            Ok(Outcome::Rejected)
        }
    }
}

/// A sum with its modulus, so that no one takes it for the plain sum.
fn modulo_p(sum: u32) -> String {
    format!("{} modulo {}", sum, P)
}

/// The verdict, with a failed sum told from a failed final check.
pub enum Judged {
    Accepted,
    Sum(u32),
    Final(u32),
}

pub fn judge(proof: &Proof, tables: &[u32], challenges: &[u32]) -> Result<Judged, Refusal> {
    let (vars, degree) = (proof.vars, proof.degree);
    let whole = sendurafi::check(vars, degree, tables, proof.claim, challenges, &proof.messages)?;
    let round = match whole {
        Verdict::Accepted => return Ok(Judged::Accepted),
        Verdict::Rejected { round } => round,
    };
    match check_rounds(vars, degree, proof.claim, challenges, &proof.messages)? {
        Rounds::Reached { .. } => Ok(Judged::Final(round)),
        Rounds::Rejected { .. } => Ok(Judged::Sum(round)),
    }
}

fn rounds(proof: &Proof) -> String {
    match proof.vars {
        1 => "1 round".to_string(),
        vars => format!("{} rounds", vars),
    }
}

fn same_shape(path: &Path, proof: &Proof, tables: &Tables) -> Answer<()> {
    if (proof.vars, proof.degree) == (tables.vars, tables.degree) {
        return Ok(());
    }
    trouble(format!(
        "{} is about {} (vars {}, degree {}), but given are {}",
        path.display(),
        described(proof.vars, proof.degree),
        proof.vars,
        proof.degree,
        tables.described()
    ))
}

pub fn prove(options: &Options) -> Answer<Outcome> {
    let tables = tables::read(options)?;
    let challenges = tables::challenges(options, &tables)?;
    tables.progress("proving");
    let proof = make(tables.vars, tables.degree, &tables.list, &challenges)?;
    let bytes = proof::write(&options.out, &proof)?;
    say(&format!(
        "claim {}, {}, {} bytes in {}\n",
        modulo_p(proof.claim),
        rounds(&proof),
        bytes,
        options.out.display()
    ))?;
    Ok(Outcome::Done)
}

/// The true sum and its proof.
pub fn make(vars: u32, degree: u32, tables: &[u32], challenges: &[u32]) -> Result<Proof, Refusal> {
    let claim = true_sum(vars, degree, tables)?;
    let mut messages = vec![0; messages_len(vars, degree)?];
    let mut scratch = vec![0; tables.len()];
    sendurafi::prove(vars, degree, tables, challenges, &mut messages, &mut scratch)?;
    Ok(Proof { vars, degree, claim, messages })
}

pub fn show(path: &Path) -> Answer<Outcome> {
    let proof = proof::read(path)?;
    let head = [
        ["vars".to_string(), proof.vars.to_string()],
        ["degree".to_string(), proof.degree.to_string()],
        ["claim".to_string(), modulo_p(proof.claim)],
    ];
    let mut text = columns(&head.map(Vec::from), &[]);
    if proof.vars > 0 {
        text.push_str(&format!("\n{}", rounds_shown(&proof)?));
    }
    say(&text)?;
    Ok(Outcome::Done)
}

/// Each round with s(0) + s(1), which must be the running claim.
fn rounds_shown(proof: &Proof) -> Result<String, Refusal> {
    let width = proof.degree as usize + 1;
    let mut title = vec!["round".to_string(), "s(0) + s(1)".to_string()];
    title.extend((0..width).map(|power| match power {
        0 => "1".to_string(),
        1 => "X".to_string(),
        _ => format!("X^{}", power),
    }));
    let mut rows = vec![title];
    for (index, message) in proof.rounds().enumerate() {
        let mut row = vec![(index + 1).to_string(), ends(message)?.to_string()];
        row.extend(message.iter().map(u32::to_string));
        rows.push(row);
    }
    let all: Vec<usize> = (0..width + 2).collect();
    Ok(columns(&rows, &all))
}

/// s(0) is the lowest coefficient, s(1) the sum of all.
fn ends(message: &[u32]) -> Result<u32, Refusal> {
    let mut total = message.first().copied().unwrap_or(0);
    for coefficient in message {
        total = field::sum(total, *coefficient)?;
    }
    Ok(total)
}

pub fn sum(options: &Options) -> Answer<Outcome> {
    let tables = tables::read(options)?;
    tables.progress("adding up");
    let total = true_sum(tables.vars, tables.degree, &tables.list)?;
    say(&format!("{}\n", modulo_p(total)))?;
    Ok(Outcome::Done)
}
