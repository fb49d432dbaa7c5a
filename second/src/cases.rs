//! A case: an entry's code and what it is given. Reading a case from a line
//! of the inputs and writing it, as FORMAT.md says.

use crate::lists::{List, Made, LONGEST, MARKER, MOST_CHANGES};

/// A sequence has no more steps.
pub const MOST_STEPS: usize = 64;

/// What a field of a case is. A list kind also tells which length is right.
#[derive(Clone, Copy, Debug, PartialEq)]
pub enum Kind {
    Vars,
    Degree,
    Element,
    Exponent,
    /// Round number j of a round part.
    Round,
    /// A state's rounds taken and its rejected mark.
    Taken,
    Mark,
    /// Lists that must have the exact length.
    Tables,
    Challenges,
    Messages,
    Message,
    /// Lists lent to be written into.
    Room,
    Scratch,
    /// A sequence's steps: their messages' lengths, challenges, coefficients.
    Lengths,
    StepChallenges,
    Coefficients,
    Bytes,
}

use Kind::*;

impl Kind {
    pub fn is_list(self) -> bool {
        !matches!(self, Vars | Degree | Element | Exponent | Round | Taken | Mark)
    }

    /// The greatest number that may stand in this field, or in this list.
    fn most(self) -> u64 {
        match self {
            Exponent => u64::MAX,
            Bytes => 255,
            Mark => 1,
            Lengths => LONGEST,
            _ => 4294967295,
        }
    }
}

/// The fields of each entry, in the order of the line.
pub const ENTRIES: &[(u64, &[Kind])] = &[
    (1, &[Element, Element]),
    (2, &[Element, Element]),
    (3, &[Element]),
    (4, &[Element, Element]),
    (5, &[Element, Exponent]),
    (6, &[Element]),
    (10, &[Vars, Degree, Tables]),
    (11, &[Vars, Degree, Tables, Challenges]),
    (12, &[Vars, Degree, Tables, Challenges, Room, Scratch]),
    (20, &[Vars, Degree, Tables, Element, Challenges, Messages]),
    (21, &[Vars, Degree, Element, Challenges, Messages]),
    (30, &[Vars, Degree, Element]),
    (31, &[Vars, Degree, Taken, Element, Mark, Message, Element]),
    (32, &[Vars, Degree, Taken, Element, Mark, Element]),
    (33, &[Vars, Degree, Element, Lengths, StepChallenges, Coefficients, Element]),
    (40, &[Vars, Degree, Messages, Round]),
    (50, &[Bytes, Room]),
];

pub fn kinds(code: u64) -> Option<&'static [Kind]> {
    ENTRIES.iter().find(|entry| entry.0 == code).map(|entry| entry.1)
}

#[derive(Clone, Debug, PartialEq)]
pub enum Field {
    Number(u64),
    List(List),
}

#[derive(Clone, Debug, PartialEq)]
pub struct Case {
    pub code: u64,
    pub fields: Vec<Field>,
}

impl Case {
    pub fn new(code: u64) -> Case {
        Case { code, fields: Vec::new() }
    }

    /// The case with one more number.
    pub fn number(mut self, value: u64) -> Case {
        self.fields.push(Field::Number(value));
        self
    }

    /// The case with one more list.
    pub fn list(mut self, list: List) -> Case {
        self.fields.push(Field::List(list));
        self
    }

    pub fn plain(self, members: &[u64]) -> Case {
        self.list(List::Plain(members.to_vec()))
    }

    pub fn number_at(&self, index: usize) -> u64 {
        match &self.fields[index] {
            Field::Number(value) => *value,
            Field::List(_) => panic!("field {} is a list", index),
        }
    }

    pub fn list_at(&self, index: usize) -> Vec<u64> {
        match &self.fields[index] {
            Field::List(list) => list.members(),
            Field::Number(_) => panic!("field {} is a number", index),
        }
    }

    pub fn written(&self) -> String {
        let mut numbers = vec![self.code];
        for field in &self.fields {
            match field {
                Field::Number(value) => numbers.push(*value),
                Field::List(list) => numbers.extend(list.written()),
            }
        }
        spaced(&numbers)
    }

    /// FORMAT.md's rules for a sequence: not too many steps, one challenge for
    /// each, and as many coefficients as the lengths say.
    pub fn fits_together(&self) -> bool {
        if self.code != 33 {
            return true;
        }
        let lengths = self.list_at(3);
        lengths.len() <= MOST_STEPS
            && lengths.len() == self.list_at(4).len()
            && lengths.iter().sum::<u64>() == self.list_at(5).len() as u64
    }
}

/// Numbers separated by single spaces.
pub fn spaced(numbers: &[u64]) -> String {
    let texts: Vec<String> = numbers.iter().map(|x| x.to_string()).collect();
    texts.join(" ")
}

/// The numbers of a line that are not read yet.
struct Reader {
    numbers: Vec<u64>,
    next: usize,
}

impl Reader {
    fn take(&mut self, most: u64) -> Result<u64, String> {
        let value = *self.numbers.get(self.next).ok_or("line ends too soon")?;
        if value > most {
            return Err(format!("number {} is {}, over {}", self.next + 1, value, most));
        }
        self.next += 1;
        Ok(value)
    }

    fn list(&mut self, most: u64) -> Result<List, String> {
        let length = self.take(MARKER)?;
        if length == MARKER {
            return self.made(most);
        }
        if length > LONGEST {
            return Err(format!("a list of {} members", length));
        }
        let members: Result<Vec<u64>, String> = (0..length).map(|_| self.take(most)).collect();
        Ok(List::Plain(members?))
    }

    fn made(&mut self, most: u64) -> Result<List, String> {
        let length = self.take(LONGEST)?;
        let seed = self.take(4294967295)?;
        let modulus = self.take(4294967295)?;
        let lowest = self.take(most)?;
        if modulus == 0 || lowest + modulus - 1 > most {
            return Err(format!("modulus {} from {}", modulus, lowest));
        }
        // An empty list has no place to change.
        let count = self.take(if length == 0 { 0 } else { MOST_CHANGES })?;
        let mut changes = Vec::new();
        for _ in 0..count {
            let index = self.take(length - 1)?;
            changes.push((index, self.take(most)?));
        }
        Ok(List::Made(Made { length, seed, modulus, lowest, changes }))
    }
}

/// The case that a line of the inputs says, or what is wrong with the line.
pub fn parse(line: &str) -> Result<Case, String> {
    let mut numbers = Vec::new();
    for text in line.split(' ') {
        numbers.push(text.parse::<u64>().map_err(|_| format!("'{}' is no number", text))?);
    }
    let mut reader = Reader { numbers, next: 0 };
    let mut case = Case::new(reader.take(u64::MAX)?);
    for kind in kinds(case.code).ok_or("no such entry")? {
        case = if kind.is_list() {
            case.list(reader.list(kind.most())?)
        } else {
            case.number(reader.take(kind.most())?)
        };
    }
    if reader.next != reader.numbers.len() {
        return Err("line goes on after the case".to_string());
    }
    if !case.fits_together() {
        return Err("the sequence's lists don't fit together".to_string());
    }
    Ok(case)
}
