//! The words of the command line.

use std::ffi::OsString;
use std::path::PathBuf;

use crate::{trouble, Answer};

pub enum Request {
    Help,
    Check(Options),
    Prove(Options),
    Show(PathBuf),
    Sum(Options),
    Demo,
}

/// What was given. Each command says which of these it takes.
#[derive(Default)]
pub struct Options {
    pub proof: PathBuf,
    pub tables: Vec<PathBuf>,
    pub challenges: PathBuf,
    pub out: PathBuf,
    pub binary: bool,
    pub pad: bool,
    pub quiet: bool,
}

/// The words as they came, each value under its option.
#[derive(Default)]
struct Words {
    proofs: Vec<PathBuf>,
    tables: Vec<PathBuf>,
    challenges: Vec<PathBuf>,
    outs: Vec<PathBuf>,
    binary: bool,
    pad: bool,
    quiet: bool,
    help: bool,
}

/// Where a word that is no option goes.
#[derive(Clone, Copy, PartialEq)]
enum Place {
    Proof,
    Table,
    Challenges,
    Out,
}

pub fn parse(mut words: impl Iterator<Item = OsString>) -> Answer<Request> {
    let command = match words.next() {
        None => return trouble("no command is given; `sumproof --help` shows them".to_string()),
        Some(word) => word.to_string_lossy().into_owned(),
    };
    if ["help", "--help", "-h"].contains(&command.as_str()) {
        return Ok(Request::Help);
    }
    if !["check", "prove", "show", "sum", "demo"].contains(&command.as_str()) {
        return trouble(format!("there is no command {:?}; `sumproof --help` shows them", command));
    }
    let given = sort(words)?;
    if given.help {
        return Ok(Request::Help);
    }
    request(&command, given)
}

/// Puts each word under its option. Several tables may follow one `--table`.
fn sort(words: impl Iterator<Item = OsString>) -> Answer<Words> {
    let mut given = Words::default();
    let mut place = Place::Proof;
    let mut waiting: Option<&'static str> = None;
    for word in words {
        let text = word.to_string_lossy().into_owned();
        if !text.starts_with('-') {
            let list = match place {
                Place::Proof => &mut given.proofs,
                Place::Table => &mut given.tables,
                Place::Challenges => &mut given.challenges,
                Place::Out => &mut given.outs,
            };
            list.push(PathBuf::from(word));
            waiting = None;
            if place != Place::Table {
                place = Place::Proof;
            }
            continue;
        }
        no_file_after(waiting)?;
        waiting = None;
        match text.as_str() {
            "--table" => (place, waiting) = (Place::Table, Some("--table")),
            "--challenges" => (place, waiting) = (Place::Challenges, Some("--challenges")),
            "--out" => (place, waiting) = (Place::Out, Some("--out")),
            "--binary" => given.binary = true,
            "--pad" => given.pad = true,
            "--quiet" => given.quiet = true,
            "--help" | "-h" => given.help = true,
            _ => {
                return trouble(format!(
                    "there is no option {:?}; `sumproof --help` shows them (a file of this name is ./{})",
                    text, text
                ))
            }
        }
    }
    no_file_after(waiting)?;
    Ok(given)
}

fn no_file_after(option: Option<&str>) -> Answer<()> {
    match option {
        None => Ok(()),
        Some(option) => trouble(format!("{} must be followed by a file", option)),
    }
}

fn request(command: &str, given: Words) -> Answer<Request> {
    let tables = ["check", "prove", "sum"].contains(&command);
    let challenges = ["check", "prove"].contains(&command);
    let proof = ["check", "show"].contains(&command);
    if !tables && (given.binary || given.pad) {
        return trouble(format!("{} takes no --binary and no --pad", command));
    }
    let options = Options {
        proof: one(command, "a proof file", proof, given.proofs)?,
        tables: some(command, tables, given.tables)?,
        challenges: one(command, "--challenges", challenges, given.challenges)?,
        out: one(command, "--out", command == "prove", given.outs)?,
        binary: given.binary,
        pad: given.pad,
        quiet: given.quiet,
    };
    Ok(match command {
        "check" => Request::Check(options),
        "prove" => Request::Prove(options),
        "show" => Request::Show(options.proof),
        "sum" => Request::Sum(options),
        _ => Request::Demo,
    })
}

/// Exactly one file where the command wants it, else none.
fn one(command: &str, what: &str, wanted: bool, mut list: Vec<PathBuf>) -> Answer<PathBuf> {
    match (wanted, list.len()) {
        (true, 1) => Ok(list.remove(0)),
        (false, 0) => Ok(PathBuf::new()),
        (true, 0) => trouble(format!("{} needs {}; `sumproof --help` shows how", command, what)),
        (true, _) => trouble(format!(
            "{} takes {} once, and {:?} is given beside {:?}",
            command, what, list[1], list[0]
        )),
        (false, _) => trouble(format!("{} takes no {:?}", command, list[0])),
    }
}

fn some(command: &str, wanted: bool, list: Vec<PathBuf>) -> Answer<Vec<PathBuf>> {
    match (wanted, list.len()) {
        (true, 0) => trouble(format!("{} needs --table; `sumproof --help` shows how", command)),
        (false, n) if n > 0 => trouble(format!("{} takes no --table", command)),
        _ => Ok(list),
    }
}
