//! second inputs SEED
//! second answers < INPUTS
//! second fresh SEED PROGRAM [COUNT]

use std::io::{self, BufWriter, Write};
use std::process::exit;

use second::fresh::fresh;
use second::generate::inputs;
use second::run::answers;

const USAGE: &str = "second inputs SEED             writes test inputs
second answers                 reads inputs, writes their answers
second fresh SEED PROGRAM [COUNT]
                               compares PROGRAM's answers with its own, on
                               inputs of seeds SEED, SEED+1, ..";

fn number(text: &str) -> Result<u64, String> {
    text.parse().map_err(|_| format!("'{}' is no number", text))
}

fn start(words: &[&str]) -> Result<bool, String> {
    match words {
        ["inputs", seed] => {
            let text = inputs(number(seed)?);
            io::stdout().write_all(text.as_bytes()).map_err(|e| e.to_string())?;
            Ok(true)
        }
        ["answers"] => {
            let stdin = io::stdin();
            let out = BufWriter::new(io::stdout());
            answers(stdin.lock(), out)?;
            Ok(true)
        }
        ["fresh", seed, program] => fresh(number(seed)?, program, None),
        ["fresh", seed, program, count] => fresh(number(seed)?, program, Some(number(count)?)),
        _ => Err(USAGE.to_string()),
    }
}

fn main() {
    let words: Vec<String> = std::env::args().skip(1).collect();
    let words: Vec<&str> = words.iter().map(String::as_str).collect();
    match start(&words) {
        Ok(true) => (),
        Ok(false) => exit(1),
        Err(words) => {
            eprintln!("{}", words);
            exit(2);
        }
    }
}
