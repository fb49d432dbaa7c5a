//! Reads cases on standard input and answers them through the crate, in the
//! form that second/FORMAT.md fixes. tools/test-client compares the answers
//! with the committed ones and, on fresh cases, with the second program's.

use std::io::{self, BufRead, BufWriter, Write};

use sendurafi::{
    check, check_rounds, field, prove, read, round_part, true_sum, value_at, Refusal, Rounds,
    State, Step, Verdict,
};

type Answered = Result<Vec<u64>, String>;

/// The numbers of a case, taken one after the other.
struct Case {
    numbers: std::vec::IntoIter<u64>,
}

impl Case {
    fn wide(&mut self) -> Result<u64, String> {
        self.numbers.next().ok_or_else(|| "the line is too short".to_string())
    }

    fn number(&mut self) -> Result<u32, String> {
        let number = self.wide()?;
        u32::try_from(number).map_err(|_| format!("{} is too large", number))
    }

    /// A list by its members, or made by its rule.
    fn list(&mut self) -> Result<Vec<u32>, String> {
        match self.number()? {
            u32::MAX => self.made(),
            length => (0..length).map(|_| self.number()).collect(),
        }
    }

    fn made(&mut self) -> Result<Vec<u32>, String> {
        let length = self.number()?;
        let (mut s, modulus, lowest) = (self.wide()?, self.wide()?, self.wide()?);
        if modulus == 0 || s > u64::from(u32::MAX) {
            return Err("no such made list".to_string());
        }
        let mut list = Vec::new();
        for _ in 0..length {
            s = (s * 1103515245 + 12345) % 4294967291;
            let member = lowest + s % modulus;
            list.push(u32::try_from(member).map_err(|_| "a made list is too high".to_string())?);
        }
        for _ in 0..self.number()? {
            let (index, value) = (self.number()? as usize, self.number()?);
            *list.get_mut(index).ok_or("a change outside of its list")? = value;
        }
        Ok(list)
    }

    fn state(&mut self) -> Result<State, String> {
        Ok(State {
            vars: self.number()?,
            degree: self.number()?,
            taken: self.number()?,
            claim: self.number()?,
            rejected: self.number()? != 0,
        })
    }
}

fn refused(refusal: Refusal) -> Vec<u64> {
    let number = u64::from(refusal.number());
    match refusal.line() {
        None => vec![2, number],
        Some(line) => vec![3, number, u64::from(line)],
    }
}

fn given(answer: Result<u32, Refusal>) -> Vec<u64> {
    answer.map_or_else(refused, |value| vec![0, u64::from(value)])
}

fn judged(answer: Result<Verdict, Refusal>) -> Vec<u64> {
    answer.map_or_else(refused, |verdict| match verdict {
        Verdict::Accepted => vec![0],
        Verdict::Rejected { round } => vec![1, u64::from(round)],
    })
}

fn reached(answer: Result<Rounds, Refusal>) -> Vec<u64> {
    answer.map_or_else(refused, |rounds| match rounds {
        Rounds::Reached { value } => vec![0, u64::from(value)],
        Rounds::Rejected { round } => vec![1, u64::from(round)],
    })
}

fn five(state: &State) -> Vec<u64> {
    let numbers = [state.vars, state.degree, state.taken, state.claim, u32::from(state.rejected)];
    numbers.iter().map(|x| u64::from(*x)).collect()
}

/// A lent list afterwards: its members, or their checksum where it is long.
fn lent(list: &[u32]) -> Vec<u64> {
    let mut said = vec![list.len() as u64];
    if list.len() <= 64 {
        said.extend(list.iter().map(|x| u64::from(*x)));
    } else {
        said.push(list.iter().fold(0, |h, x| (h * 257 + u64::from(*x) + 1) % 4294967291));
    }
    said
}

fn stepped(state: &mut State, message: &[u32], challenge: u32) -> Vec<u64> {
    let answer = state.step(message, challenge);
    let mut said = answer.map_or_else(refused, |step| match step {
        Step::Taken => vec![0],
        Step::Rejected { round } => vec![1, u64::from(round)],
    });
    said.extend(five(state));
    said
}

fn opened(answer: &Result<State, Refusal>) -> Vec<u64> {
    match answer {
        Ok(state) => [vec![0], five(state)].concat(),
        Err(refusal) => refused(*refusal),
    }
}

fn sequence(c: &mut Case) -> Answered {
    let opening = State::open(c.number()?, c.number()?, c.number()?);
    let (lengths, challenges) = (c.list()?, c.list()?);
    let (coefficients, value) = (c.list()?, c.number()?);
    let mut said = opened(&opening);
    let mut state = match opening {
        Ok(state) => state,
        Err(_) => return Ok(said),
    };
    let mut rest = coefficients.as_slice();
    for (length, challenge) in lengths.iter().zip(challenges) {
        let message = rest.get(..*length as usize).ok_or("too few coefficients")?;
        rest = &rest[message.len()..];
        said.extend(stepped(&mut state, message, challenge));
    }
    said.extend(judged(state.close(value)));
    Ok(said)
}

fn proved(c: &mut Case) -> Answered {
    let (vars, degree, tables, challenges) = (c.number()?, c.number()?, c.list()?, c.list()?);
    let (mut messages, mut scratch) = (c.list()?, c.list()?);
    let answer = prove(vars, degree, &tables, &challenges, &mut messages, &mut scratch);
    let said = answer.map_or_else(refused, |()| vec![0]);
    Ok([said, lent(&messages), lent(&scratch)].concat())
}

/// The part as its place in the caller's list. Refused, it is empty.
fn part(c: &mut Case) -> Answered {
    let (vars, degree, messages, round) = (c.number()?, c.number()?, c.list()?, c.number()?);
    Ok(match round_part(vars, degree, &messages, round) {
        Err(refusal) => vec![0, 0, 0, u64::from(refusal.number())],
        Ok(part) => {
            let bytes = part.as_ptr() as usize - messages.as_ptr() as usize;
            vec![0, (bytes / 4) as u64, part.len() as u64, 0]
        }
    })
}

fn file(c: &mut Case) -> Answered {
    let bytes: Vec<u8> = c.list()?.iter().map(|b| *b as u8).collect();
    let mut messages = c.list()?;
    let said = read(&bytes, &mut messages).map_or_else(refused, |h| {
        vec![0, u64::from(h.vars), u64::from(h.degree), u64::from(h.claim)]
    });
    Ok([said, lent(&messages)].concat())
}

fn answer(code: u64, c: &mut Case) -> Answered {
    Ok(match code {
        1 => given(field::sum(c.number()?, c.number()?)),
        2 => given(field::difference(c.number()?, c.number()?)),
        3 => given(field::negative(c.number()?)),
        4 => given(field::product(c.number()?, c.number()?)),
        5 => given(field::power(c.number()?, c.wide()?)),
        6 => given(field::inverse(c.number()?)),
        10 => given(true_sum(c.number()?, c.number()?, &c.list()?)),
        11 => given(value_at(c.number()?, c.number()?, &c.list()?, &c.list()?)),
        12 => proved(c)?,
        20 => {
            let (vars, degree, tables) = (c.number()?, c.number()?, c.list()?);
            judged(check(vars, degree, &tables, c.number()?, &c.list()?, &c.list()?))
        }
        21 => {
            let (vars, degree, claim) = (c.number()?, c.number()?, c.number()?);
            reached(check_rounds(vars, degree, claim, &c.list()?, &c.list()?))
        }
        30 => opened(&State::open(c.number()?, c.number()?, c.number()?)),
        31 => stepped(&mut c.state()?, &c.list()?, c.number()?),
        32 => judged(c.state()?.close(c.number()?)),
        33 => sequence(c)?,
        40 => part(c)?,
        50 => file(c)?,
        _ => return Err(format!("there is no entry {}", code)),
    })
}

fn answered(line: &str) -> Answered {
    let numbers: Result<Vec<u64>, _> = line.split(' ').map(str::parse).collect();
    let numbers = numbers.map_err(|e| e.to_string())?;
    let mut case = Case { numbers: numbers.into_iter() };
    let code = case.wide()?;
    answer(code, &mut case)
}

fn main() -> Result<(), Box<dyn std::error::Error>> {
    let mut out = BufWriter::new(io::stdout());
    let mut number = 0;
    for (index, line) in io::stdin().lock().lines().enumerate() {
        let line = line?;
        if line.starts_with('#') {
            continue;
        }
        number += 1;
        let said = answered(&line).map_err(|e| format!("line {}: {}", index + 1, e))?;
        let words: Vec<String> = said.iter().map(u64::to_string).collect();
        writeln!(out, "{} {}", number, words.join(" "))?;
    }
    out.flush()?;
    Ok(())
}
