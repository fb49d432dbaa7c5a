//! Proof files: read by the library, written here.

use std::fs::{self, File};
use std::io::Read;
use std::path::Path;

use sendurafi::{messages_len, Refusal, MAX_FILE_BYTES, MAX_MESSAGES_LEN, P};

use crate::{trouble, Answer};

/// A proof as a file has it.
#[derive(Clone, Debug, PartialEq)]
pub struct Proof {
    pub vars: u32,
    pub degree: u32,
    pub claim: u32,
    pub messages: Vec<u32>,
}

impl Proof {
    pub fn from_bytes(bytes: &[u8]) -> Result<Proof, Refusal> {
        let mut messages = vec![0; MAX_MESSAGES_LEN];
        let header = sendurafi::read(bytes, &mut messages)?;
        messages.truncate(messages_len(header.vars, header.degree)?);
        Ok(Proof { vars: header.vars, degree: header.degree, claim: header.claim, messages })
    }

    /// The file's text.
    pub fn text(&self) -> String {
        let mut text = format!(
            "sumproof=1\nfield={}\nvars={}\ndegree={}\nclaim={}\n",
            P, self.vars, self.degree, self.claim
        );
        for message in self.rounds() {
            let numbers: Vec<String> = message.iter().map(u32::to_string).collect();
            text.push_str(&format!("round={}\n", numbers.join(",")));
        }
        text + &format!("end={}\n", self.vars)
    }

    pub fn rounds(&self) -> impl Iterator<Item = &[u32]> {
        self.messages.chunks(self.degree as usize + 1)
    }
}

pub fn read(path: &Path) -> Answer<Proof> {
    match bytes(path) {
        Err(e) => trouble(format!("cannot read {}: {}", path.display(), e)),
        Ok(bytes) => match Proof::from_bytes(&bytes) {
            Ok(proof) => Ok(proof),
            Err(refusal) => trouble(format!("{}: {}", path.display(), refusal)),
        },
    }
}

/// One byte more than a proof file may have is enough to know.
fn bytes(path: &Path) -> std::io::Result<Vec<u8>> {
    let mut bytes = Vec::new();
    File::open(path)?.take(MAX_FILE_BYTES as u64 + 1).read_to_end(&mut bytes)?;
    Ok(bytes)
}

/// Written only after the library has read the text back as this proof.
pub fn write(path: &Path, proof: &Proof) -> Answer<usize> {
    let text = proof.text();
    match Proof::from_bytes(text.as_bytes()) {
        Ok(back) if back == *proof => (),
        Ok(_) => return trouble("the proof file would say something else".to_string()),
        Err(refusal) => return trouble(format!("the proof file would be wrong: {}", refusal)),
    }
    match fs::write(path, &text) {
        Ok(()) => Ok(text.len()),
        Err(e) => trouble(format!("cannot write {}: {}", path.display(), e)),
    }
}

#[cfg(test)]
mod tests {
    use super::*;

    #[test]
    fn text_of_the_specification() {
        let proof = Proof {
            vars: 2,
            degree: 2,
            claim: 6,
            messages: vec![4, 0, 2147483645, 2147483629, 30, 2147483639],
        };
        assert_eq!(
            proof.text(),
            "sumproof=1\nfield=2147483647\nvars=2\ndegree=2\nclaim=6\n\
             round=4,0,2147483645\nround=2147483629,30,2147483639\nend=2\n"
        );
        assert_eq!(Proof::from_bytes(proof.text().as_bytes()), Ok(proof));
    }

    /// The longest proof still fits into a file.
    #[test]
    fn longest() {
        let proof = Proof { vars: 16, degree: 3, claim: P - 1, messages: vec![P - 1; 64] };
        assert_eq!(Proof::from_bytes(proof.text().as_bytes()), Ok(proof));
    }
}
