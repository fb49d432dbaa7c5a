//! The honest server: the conversation round by round, and the proof file.

use sendurafi::{
    messages_len, prove, round_part, true_sum, value_at, Refusal, State, Step, Verdict, P,
};

use super::made::MOST_BALANCE;
use super::VARS;
use crate::commands::{judge, make, Judged};
use crate::layout::{columns, grouped};
use crate::proof::Proof;
use crate::{trouble, Answer};

fn shown(number: u32) -> String {
    grouped(u64::from(number))
}

/// The server's message of one round. It knows the challenges of the rounds
/// before; the others make no difference, and it puts zeros for them.
fn message(ledger: &[u32], known: &[u32], round: u32) -> Result<Vec<u32>, Refusal> {
    let mut challenges = known.to_vec();
    challenges.resize(VARS as usize, 0);
    let mut messages = vec![0; messages_len(VARS, 1)?];
    prove(VARS, 1, ledger, &challenges, &mut messages, &mut vec![0; ledger.len()])?;
    Ok(round_part(VARS, 1, &messages, round)?.to_vec())
}

/// What the server says, and why the client may read it as a plain total.
fn said(ledger: &[u32], total: u32) -> String {
    format!(
        "A ledger of {count} balances\n\n\
         The server says that they add up to {total} modulo {p}. As no\n\
         balance is over {most}, and {count} times {most} is below {p}, that is\n\
         the total itself. The client asks for a proof.\n\n",
        count = grouped(ledger.len() as u64),
        total = shown(total),
        most = shown(MOST_BALANCE),
        p = shown(P)
    )
}

/// The client takes each message, and only then draws the challenge.
pub fn conversation(ledger: &[u32], challenges: &[u32]) -> Answer<String> {
    let total = true_sum(VARS, 1, ledger)?;
    let mut text = said(ledger, total);
    let title = ["round", "server: message", "", "client: challenge", "running claim"];
    let mut rows = vec![title.map(str::to_string).to_vec()];
    let mut state = State::open(VARS, 1, total)?;
    for (index, challenge) in challenges.iter().enumerate() {
        let message = message(ledger, &challenges[..index], index as u32 + 1)?;
        match state.step(&message, *challenge)? {
            Step::Taken => (),
            Step::Rejected { round } => {
                return trouble(format!("an honest message was rejected in round {}", round))
            }
        }
        let mut row = vec![(index + 1).to_string()];
        row.extend(message.iter().copied().map(shown));
        row.extend([shown(*challenge), shown(state.claim)]);
        rows.push(row);
    }
    text.push_str(&columns(&rows, &[0, 1, 2, 3, 4]));
    let value = value_at(VARS, 1, ledger, challenges)?;
    let verdict = match state.close(value)? {
        Verdict::Accepted => "accepted",
        Verdict::Rejected { .. } => "rejected",
    };
    text.push_str(&format!(
        "\nThe client works out its own ledger's value at the challenges: {}.\nThe verdict: {}.\n",
        shown(value),
        verdict
    ));
    Ok(text)
}

/// The same proof as a file, read and checked in one call.
pub fn file(ledger: &[u32], challenges: &[u32]) -> Answer<(Proof, String)> {
    let sent = make(VARS, 1, ledger, challenges)?.text();
    let proof = Proof::from_bytes(sent.as_bytes())?;
    let verdict = match judge(&proof, ledger, challenges)? {
        Judged::Accepted => "accepted",
        _ => "rejected",
    };
    let text = format!(
        "\nThe same as a proof file of {} bytes: vars {}, degree {},\n\
         claim {} modulo {}; {}.\n",
        sent.len(),
        proof.vars,
        proof.degree,
        shown(proof.claim),
        shown(P),
        verdict
    );
    Ok((proof, text))
}
