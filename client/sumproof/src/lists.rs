//! Lists of elements, read from text or from little-endian 4-byte numbers.

use std::fs;
use std::path::Path;

use sendurafi::P;

use crate::{trouble, Answer};

/// Binary if asked for, or if the file's name ends in .u32.
pub fn read(path: &Path, binary: bool) -> Answer<Vec<u32>> {
    let bytes = match fs::read(path) {
        Ok(bytes) => bytes,
        Err(e) => return trouble(format!("cannot read {}: {}", path.display(), e)),
    };
    let by_name = path.extension().map_or(false, |e| e == "u32");
    let list = if binary || by_name { from_binary(&bytes) } else { from_text(&bytes) };
    list.or_else(|(place, sentence)| trouble(format!("{}{}: {}", path.display(), place, sentence)))
}

/// What was wrong: the place, as it follows a file's name, and a sentence.
type Wrong = (String, String);

fn from_binary(bytes: &[u8]) -> Result<Vec<u32>, Wrong> {
    if bytes.len() % 4 != 0 {
        let sentence =
            format!("the file has {} bytes, which are no whole 4-byte numbers", bytes.len());
        return Err((String::new(), sentence));
    }
    let mut list = Vec::new();
    for (index, b) in bytes.chunks(4).enumerate() {
        let number = u32::from_le_bytes([b[0], b[1], b[2], b[3]]);
        if number >= P {
            let place = format!(", number {} at byte {}", index + 1, index * 4);
            return Err((place, not_below(&number.to_string())));
        }
        list.push(number);
    }
    Ok(list)
}

fn from_text(bytes: &[u8]) -> Result<Vec<u32>, Wrong> {
    let mut list = Vec::new();
    for (index, line) in bytes.split(|b| *b == b'\n').enumerate() {
        let line = line.split(|b| *b == b'#').next().unwrap_or(&[]);
        for word in line.split(|b| b" \t\r,".contains(b)).filter(|word| !word.is_empty()) {
            match number(word) {
                Ok(number) => list.push(number),
                Err(sentence) => return Err((format!(", line {}", index + 1), sentence)),
            }
        }
    }
    Ok(list)
}

fn number(word: &[u8]) -> Result<u32, String> {
    if !word.iter().all(|b| b.is_ascii_digit()) {
        return Err(format!("{} is not a number; numbers have only digits", shown(word)));
    }
    // Saturating, so that a number of any length is simply too large.
    let value = word
        .iter()
        .fold(0u64, |value, b| value.saturating_mul(10).saturating_add(u64::from(*b - b'0')));
    match u32::try_from(value) {
        Ok(value) if value < P => Ok(value),
        _ => Err(not_below(&shown(word))),
    }
}

fn not_below(number: &str) -> String {
    format!("{} is not below {}, so it is no element (refusal 5)", number, P)
}

/// A word as it can be shown: not too long, and only plain characters.
fn shown(word: &[u8]) -> String {
    let plain: String =
        word.iter().take(24).map(|b| if b.is_ascii_graphic() { *b as char } else { '?' }).collect();
    if word.len() > 24 {
        plain + ".."
    } else {
        plain
    }
}

#[cfg(test)]
mod tests {
    use super::*;

    #[test]
    fn text() {
        let text = b"1, 2\t3\r\n# none\n4 # 9\n\n2147483646";
        assert_eq!(from_text(text), Ok(vec![1, 2, 3, 4, P - 1]));
        assert_eq!(from_text(b""), Ok(vec![]));
        for (text, place) in
            [("1\n-2", 2), ("1\n\n1.5", 3), ("2147483647", 1), ("99999999999999999999999", 1)]
        {
            let wrong = from_text(text.as_bytes()).unwrap_err();
            assert_eq!(wrong.0, format!(", line {}", place));
        }
        assert_eq!(shown(b"a\xff\x1b"), "a??");
    }

    #[test]
    fn binary() {
        assert_eq!(from_binary(&[1, 0, 0, 0, 0, 1, 0, 0]), Ok(vec![1, 256]));
        assert!(from_binary(&[1, 0, 0]).is_err());
        let wrong = from_binary(&[0, 0, 0, 0, 255, 255, 255, 127]).unwrap_err();
        assert_eq!(wrong.0, ", number 2 at byte 4");
    }
}
