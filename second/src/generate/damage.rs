//! Damaged proof files: bytes cut, changed, removed, doubled and put in;
//! lines removed, doubled and swapped; numbers written in other ways.

use super::files::{any_file, bytes, documents_file, read, Lines};
use super::growing::Inputs;
use crate::random::Random;
use crate::refusals::MOST_DEGREE;

/// One byte of each of document 01's classes, and the neighbours of digits
/// and small letters.
const BYTES: [u64; 14] = [48, 57, 44, 61, 10, 97, 122, 0, 13, 32, 47, 58, 96, 255];

/// Numbers of the wrong form, and numbers of the right form at the edges.
const NUMBERS: [&str; 30] = [
    "",
    "0",
    "1",
    "2",
    "3",
    "4",
    "15",
    "16",
    "17",
    "00",
    "01",
    "06",
    "007",
    "2147483646",
    "2147483647",
    "2147483648",
    "4294967294",
    "4294967295",
    "4294967296",
    "9999999999",
    "0000000001",
    "10000000000",
    "18446744073709551617",
    "-1",
    "+1",
    " 1",
    "1 ",
    "1,",
    ",1",
    "1.0",
];

/// For two numbers at once: two of the wrong form, two that are not allowed.
const FEW: [&str; 4] = ["", "01", "4294967296", "2147483647"];

pub fn add(to: &mut Inputs) {
    let small = any_file(&mut to.random, 0, 1);
    let other = any_file(&mut to.random, 3, 1);
    to.comment("damaged files: cut at every byte, every byte changed, removed, doubled");
    bytes_damaged(to, &documents_file(), 6, &BYTES);
    bytes_damaged(to, &small, 0, &BYTES);
    bytes_damaged(to, &other, 6, &[49, 44]);
    to.comment("damaged files: lines removed, doubled, swapped, put in");
    for file in [&documents_file(), &small, &other] {
        lines_damaged(to, file);
    }
    to.comment("damaged files: every number written in other ways, then two numbers");
    for file in [&documents_file(), &small] {
        numbers_damaged(to, file);
    }
    more_bytes(to);
    random_damage(to);
}

fn more_bytes(to: &mut Inputs) {
    to.comment("damaged files: bytes after the last line");
    for after in ["\n", "x", "end=2", "end=2\n", "\n\n", "round=1,2\n", "0", " "] {
        let mut file = bytes(&documents_file());
        file.extend(after.bytes().map(|b| b as u64));
        for room in [6, 5] {
            let case = read(&mut to.random, &file, room);
            to.case(&case);
        }
    }
}

fn random_damage(to: &mut Inputs) {
    to.comment("damaged files: random files with one to three random damages");
    for _ in 0..800 {
        let (vars, degree) = (to.random.below(5), 1 + to.random.below(MOST_DEGREE));
        let mut file = bytes(&any_file(&mut to.random, vars, degree));
        for _ in 0..=to.random.below(3) {
            damage_once(&mut to.random, &mut file);
        }
        let room = vars * (degree + 1) + to.random.pick(&[0, 0, 1]);
        let case = read(&mut to.random, &file, room);
        to.case(&case);
    }
}

fn bytes_damaged(to: &mut Inputs, lines: &[String], room: u64, values: &[u64]) {
    let whole = bytes(lines);
    let mut files = Vec::new();
    for at in 0..whole.len() {
        files.push(whole[..at].to_vec());
        let mut removed = whole.clone();
        removed.remove(at);
        files.push(removed);
        let mut doubled = whole.clone();
        doubled.insert(at, whole[at]);
        files.push(doubled);
        for value in values {
            let mut changed = whole.clone();
            changed[at] = *value;
            files.push(changed);
        }
        let mut put_in = whole.clone();
        put_in.insert(at, values[at % values.len()]);
        files.push(put_in);
    }
    for file in files {
        let case = read(&mut to.random, &file, room);
        to.case(&case);
    }
}

fn lines_damaged(to: &mut Inputs, lines: &[String]) {
    let mut files: Vec<Lines> = Vec::new();
    for i in 0..lines.len() {
        let mut removed = lines.to_vec();
        removed.remove(i);
        files.push(removed);
        let mut doubled = lines.to_vec();
        doubled.insert(i, lines[i].clone());
        files.push(doubled);
        for other in ["", "round=1,2,3", "end=2", " "] {
            let mut put_in = lines.to_vec();
            put_in.insert(i, other.to_string());
            files.push(put_in);
        }
        for j in 0..i {
            let mut swapped = lines.to_vec();
            swapped.swap(i, j);
            files.push(swapped);
        }
        for text in [lines[i].to_uppercase(), lines[i].clone() + "\r", lines[i].replace('=', "")] {
            let mut changed = lines.to_vec();
            changed[i] = text;
            files.push(changed);
        }
    }
    for file in files {
        for room in [6, 0] {
            let case = read(&mut to.random, &bytes(&file), room);
            to.case(&case);
        }
    }
}

/// The places of numbers: line, and which number of the line.
fn places(lines: &[String]) -> Vec<(usize, usize)> {
    let mut result = Vec::new();
    for (i, line) in lines.iter().enumerate() {
        for j in 0..line.split(',').count() {
            result.push((i, j));
        }
    }
    result
}

/// The lines with another text in the place of one number.
fn with_number(lines: &[String], place: (usize, usize), text: &str) -> Lines {
    let mut result = lines.to_vec();
    let line = &lines[place.0];
    let start = line.find('=').unwrap() + 1;
    let mut numbers: Vec<&str> = line[start..].split(',').collect();
    if place.1 < numbers.len() {
        numbers[place.1] = text;
    }
    result[place.0] = format!("{}{}", &line[..start], numbers.join(","));
    result
}

fn numbers_damaged(to: &mut Inputs, lines: &[String]) {
    let places = places(lines);
    for (index, place) in places.iter().enumerate() {
        for text in NUMBERS {
            let case = read(&mut to.random, &bytes(&with_number(lines, *place, text)), 6);
            to.case(&case);
        }
        for other in &places[index + 1..] {
            for (first, second) in [(0, 1), (1, 2), (2, 1), (2, 3), (3, 2), (3, 0)] {
                let once = with_number(lines, *place, FEW[first]);
                let twice = with_number(&once, *other, FEW[second]);
                let room = 6 * to.random.below(2);
                let case = read(&mut to.random, &bytes(&twice), room);
                to.case(&case);
            }
        }
    }
}

fn damage_once(random: &mut Random, file: &mut Vec<u64>) {
    if file.is_empty() {
        return;
    }
    let at = random.below(file.len() as u64) as usize;
    let value = if random.below(2) == 0 { random.pick(&BYTES) } else { random.below(256) };
    match random.below(5) {
        0 => file.truncate(at),
        1 => file[at] = value,
        2 => file.insert(at, value),
        3 => {
            file.remove(at);
        }
        _ => {
            // A piece of the file once more.
            let end = (at + random.below(30) as usize).min(file.len());
            let piece = file[at..end].to_vec();
            file.splice(at..at, piece);
        }
    }
}
