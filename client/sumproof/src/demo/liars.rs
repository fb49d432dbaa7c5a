//! Proofs that are wrong, each in its own way, and what the library answers.

use sendurafi::{check, field, Refusal, State, Verdict};

use super::VARS;
use crate::commands::{judge, Judged};
use crate::proof::Proof;

type Tried = (String, String);

fn in_words(answer: Result<Judged, Refusal>) -> String {
    match answer {
        Ok(Judged::Accepted) => "accepted".to_string(),
        Ok(Judged::Sum(round)) => format!("rejected in round {}: its sum is wrong", round),
        Ok(Judged::Final(round)) => {
            format!("rejected in round {}: the final value is wrong", round)
        }
        Err(refusal) => refused(refusal),
    }
}

fn refused(refusal: Refusal) -> String {
    format!("refused: {}", refusal)
}

/// Each file, state or proof with one sentence about it.
pub fn all(proof: &Proof, ledger: &[u32], challenges: &[u32]) -> Result<Vec<Tried>, Refusal> {
    let judged = |proof: &Proof| in_words(judge(proof, ledger, challenges));
    let mut tried = vec![("the honest proof".to_string(), judged(proof))];
    for (what, text) in files(proof) {
        let answer = match Proof::from_bytes(text.as_bytes()) {
            Ok(read) => judged(&read),
            Err(refusal) => refused(refusal),
        };
        tried.push((what.to_string(), answer));
    }
    for (what, bent) in bent(proof)? {
        tried.push((what.to_string(), judged(&bent)));
    }
    let mut other = ledger.to_vec();
    other[4711] += 1;
    tried.push((
        "the honest proof, but the client's ledger has one balance that is 1 higher".to_string(),
        in_words(judge(proof, &other, challenges)),
    ));
    tried.extend(states(proof));
    tried.push(lucky()?);
    Ok(tried)
}

fn files(proof: &Proof) -> Vec<(&'static str, String)> {
    let text = proof.text();
    let nine_rounds: String = text.lines().take(5 + 9).map(|line| format!("{}\n", line)).collect();
    let cut = text[..text.len() / 2].to_string();
    vec![
        ("a header that says sixteen, with nine rounds", format!("{}end={}\n", nine_rounds, VARS)),
        ("a file that stops in the middle of a line", cut),
        ("one byte after the last line", text.clone() + "0"),
        ("a claim with a leading zero", text.replace("claim=", "claim=0")),
        ("another field", text.replace("field=2147483647", "field=2147483629")),
    ]
}

/// False totals, told with more and more care.
fn bent(proof: &Proof) -> Result<Vec<(&'static str, Proof)>, Refusal> {
    let mut wrong = proof.clone();
    wrong.claim = field::sum(proof.claim, 1)?;
    let mut changed = proof.clone();
    let place = 4 * 2 + 1;
    changed.messages[place] = field::sum(changed.messages[place], 1)?;
    Ok(vec![
        ("a coefficient of round 5 is 1 higher", changed),
        ("a total that is 1 too high", wrong.clone()),
        ("the same, with round 1 bent so that its sum fits", fitted(&wrong, 1)?),
        ("the same, with all sixteen rounds bent", fitted(&wrong, 16)?),
    ])
}

/// A claim that is off by e fits a message whose lowest coefficient is e/2
/// higher. Its value at any challenge is then off by e/2.
fn fitted(wrong: &Proof, rounds: usize) -> Result<Proof, Refusal> {
    let half = field::inverse(2)?;
    let mut off = 1;
    let mut proof = wrong.clone();
    for message in proof.messages.chunks_mut(2).take(rounds) {
        off = field::product(off, half)?;
        message[0] = field::sum(message[0], off)?;
    }
    Ok(proof)
}

fn states(proof: &Proof) -> Vec<Tried> {
    let complete =
        State { vars: VARS, degree: 1, taken: VARS, claim: proof.claim, rejected: false };
    let closed = |what: &str, state: State| {
        let answer = match state.close(proof.claim) {
            Ok(Verdict::Accepted) => "accepted".to_string(),
            Ok(Verdict::Rejected { round }) => format!("rejected in round {}", round),
            Err(refusal) => refused(refusal),
        };
        (what.to_string(), answer)
    };
    vec![
        closed("a forged state with 17 rounds taken", State { taken: 17, ..complete }),
        closed("a forged state, complete and rejected", State { rejected: true, ..complete }),
        closed("a forged state of 4,000,000,000 rounds", State { vars: 4_000_000_000, ..complete }),
        closed("a state closed after nine rounds", State { taken: 9, ..complete }),
    ]
}

/// The specification's own case of a false total that is accepted.
fn lucky() -> Result<Tried, Refusal> {
    let verdict = check(2, 1, &[3, 4, 1, 2], 11, &[0, 9], &[7, 2147483644, 3, 1])?;
    let answer = match verdict {
        Verdict::Accepted => "accepted".to_string(),
        Verdict::Rejected { round } => format!("rejected in round {}", round),
    };
    let what =
        "the balances 3, 4, 1, 2 with the total 11 modulo 2,147,483,647, and a lucky challenge";
    Ok((what.to_string(), answer))
}
