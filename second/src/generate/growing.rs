//! The inputs while they grow. Every other module here adds to them.

use std::collections::HashSet;

use crate::cases::Case;
use crate::field::P;
use crate::random::Random;

/// The values at the edges: of the field, of 31 and of 32 bits.
pub const EDGES: [u64; 7] = [0, 1, P - 1, P, P + 1, 1 << 31, (1 << 32) - 1];

/// The inputs so far, and the numbers to come.
pub struct Inputs {
    pub text: String,
    seen: HashSet<String>,
    pub random: Random,
}

impl Inputs {
    pub fn new(seed: u64) -> Inputs {
        Inputs { text: String::new(), seen: HashSet::new(), random: Random::new(seed) }
    }

    pub fn comment(&mut self, words: &str) {
        self.text.push_str("# ");
        self.text.push_str(words);
        self.text.push('\n');
    }

    /// Adds a case, unless the same line is there already.
    pub fn case(&mut self, case: &Case) {
        let line = case.written();
        if self.seen.insert(line.clone()) {
            self.text.push_str(&line);
            self.text.push('\n');
        }
    }

    pub fn cases(&mut self, cases: &[Case]) {
        for case in cases {
            self.case(case);
        }
    }
}
