//! Fresh inputs without end: made from one seed after the other, given to
//! another program, its answers compared with the ones made here. The first
//! difference is made small and told.

use std::io::{Read, Write};
use std::process::{Command, Stdio};
use std::thread;

use crate::cases::{parse, spaced, Case};
use crate::generate::inputs;
use crate::run::{answer, answers};
use crate::shrink::{candidates, plain};

/// What the other program writes when it is given this text. A program that
/// stops early has written what it has written; its complaints are not kept.
fn run(program: &str, text: &str) -> Result<Vec<String>, String> {
    let mut child = Command::new(program)
        .stdin(Stdio::piped())
        .stdout(Stdio::piped())
        .stderr(Stdio::null())
        .spawn()
        .map_err(|e| format!("{}: {}", program, e))?;
    let mut input = child.stdin.take().ok_or("no way into the program")?;
    let text = text.as_bytes().to_vec();
    // Written beside the reading, so that neither side waits for the other.
    let writer = thread::spawn(move || {
        // A program that stopped reading shows in its answers.
        let _ = input.write_all(&text);
    });
    let mut bytes = Vec::new();
    let mut output = child.stdout.take().ok_or("no way out of the program")?;
    output.read_to_end(&mut bytes).map_err(|e| e.to_string())?;
    let _ = writer.join();
    child.wait().map_err(|e| e.to_string())?;
    Ok(String::from_utf8_lossy(&bytes).lines().map(str::to_string).collect())
}

fn own(text: &str) -> Result<Vec<String>, String> {
    let mut bytes = Vec::new();
    answers(text.as_bytes(), &mut bytes)?;
    Ok(String::from_utf8_lossy(&bytes).lines().map(str::to_string).collect())
}

/// The first line where the two differ, from 0. A missing line differs.
fn first_difference(ours: &[String], theirs: &[String]) -> Option<usize> {
    let longer = ours.len().max(theirs.len());
    (0..longer).find(|i| ours.get(*i) != theirs.get(*i))
}

fn differs(program: &str, case: &Case) -> Result<bool, String> {
    let theirs = run(program, &(case.written() + "\n"))?;
    let ours = vec![format!("1 {}", spaced(&answer(case)))];
    Ok(ours != theirs)
}

/// The first candidate that still differs. All are given at once; the one
/// that is found is asked again alone, as an early stop hides later answers.
fn smaller(program: &str, case: &Case) -> Result<Option<Case>, String> {
    let all = candidates(case);
    let text: String = all.iter().map(|c| c.written() + "\n").collect();
    let theirs = run(program, &text)?;
    for (i, candidate) in all.iter().enumerate() {
        let ours = format!("{} {}", i + 1, spaced(&answer(candidate)));
        if theirs.get(i) != Some(&ours) && differs(program, candidate)? {
            return Ok(Some(candidate.clone()));
        }
    }
    Ok(None)
}

fn shrunk(program: &str, first: Case) -> Result<Case, String> {
    let mut case = plain(&first);
    while let Some(next) = smaller(program, &case)? {
        case = plain(&next);
    }
    Ok(case)
}

fn tell(program: &str, seed: u64, index: usize, line: Option<&str>) -> Result<(), String> {
    println!("seed {}: answer {} differs", seed, index + 1);
    let line = match line {
        Some(line) => line,
        None => {
            println!("there are more answers than cases");
            return Ok(());
        }
    };
    let first = parse(line)?;
    if !differs(program, &first)? {
        println!("alone the case gets the same answer; the line is");
        println!("{}", line);
        return Ok(());
    }
    let case = shrunk(program, first)?;
    println!("case   {}", case.written());
    println!("second 1 {}", spaced(&answer(&case)));
    let theirs = run(program, &(case.written() + "\n"))?;
    println!(
        "other  {}",
        if theirs.is_empty() { "gave no answer".to_string() } else { theirs.join("\n") }
    );
    Ok(())
}

/// `count` rounds, or without end. False when a difference was found.
pub fn fresh(seed: u64, program: &str, count: Option<u64>) -> Result<bool, String> {
    let mut done = 0;
    while count.map_or(true, |count| done < count) {
        let now = seed.wrapping_add(done);
        let text = inputs(now);
        let ours = own(&text)?;
        let theirs = run(program, &text)?;
        if let Some(index) = first_difference(&ours, &theirs) {
            let line = text.lines().filter(|line| !line.starts_with('#')).nth(index);
            tell(program, now, index, line)?;
            return Ok(false);
        }
        done += 1;
        println!("seed {}: {} answers, all the same", now, ours.len());
    }
    Ok(true)
}
