//! `sumproof`: proves sums over tables modulo p and checks the proofs.

mod args;
mod commands;
mod demo;
mod help;
mod layout;
mod lists;
mod proof;
mod tables;

use std::io::Write;
use std::process::exit;

use args::Request;

/// How a command ended, if it ended well.
pub enum Outcome {
    Done,
    Rejected,
}

/// A sentence that says what was wrong and where.
pub struct Trouble(pub String);

pub type Answer<T> = Result<T, Trouble>;

pub fn trouble<T>(sentence: String) -> Answer<T> {
    Err(Trouble(sentence))
}

/// To standard output. A reader that went away is no reason to panic.
pub fn say(text: &str) -> Answer<()> {
    let mut out = std::io::stdout();
    match out.write_all(text.as_bytes()).and_then(|()| out.flush()) {
        Ok(()) => Ok(()),
        Err(e) => trouble(format!("cannot write to standard output: {}", e)),
    }
}

/// To standard error, where nothing can be done if it fails.
pub fn note(text: &str) {
    let _ = writeln!(std::io::stderr(), "{}", text);
}

fn run() -> Answer<Outcome> {
    match args::parse(std::env::args_os().skip(1))? {
        Request::Help => say(&help::all()).map(|()| Outcome::Done),
        Request::Check(o) => commands::check(&o),
        Request::Prove(o) => commands::prove(&o),
        Request::Show(path) => commands::show(&path),
        Request::Sum(o) => commands::sum(&o),
        Request::Demo => demo::run(),
    }
}

fn main() {
    exit(match run() {
        Ok(Outcome::Done) => 0,
        Ok(Outcome::Rejected) => 1,
        Err(Trouble(sentence)) => {
            note(&format!("sumproof: {}", sentence));
            2
        }
    });
}
