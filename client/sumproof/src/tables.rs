//! Tables from their files, and the challenges that belong to them.

use std::path::{Path, PathBuf};

use sendurafi::{tables_len, MAX_VARS};

use crate::args::Options;
use crate::{lists, note, trouble, Answer};

/// Work on this many numbers is worth a word on standard error.
const LONG: usize = 1 << 14;

pub struct Tables {
    pub vars: u32,
    pub degree: u32,
    pub list: Vec<u32>,
    quiet: bool,
}

impl Tables {
    /// "2 tables of 4 numbers"
    pub fn described(&self) -> String {
        described(self.vars, self.degree)
    }

    /// Says on standard error what is being done, where it may take a while.
    pub fn progress(&self, doing: &str) {
        if !self.quiet && self.list.len() >= LONG {
            note(&format!("{} {} ..", doing, self.described()));
        }
    }
}

pub fn described(vars: u32, degree: u32) -> String {
    let tables = if degree == 1 { "table" } else { "tables" };
    format!("{} {} of {}", degree, tables, numbers(1 << vars))
}

fn numbers(count: usize) -> String {
    if count == 1 {
        "1 number".to_string()
    } else {
        format!("{} numbers", count)
    }
}

pub fn read(options: &Options) -> Answer<Tables> {
    let mut read = Vec::new();
    for path in &options.tables {
        let list = lists::read(path, options.binary)?;
        if !options.quiet && list.len() >= LONG {
            note(&format!("read {}: {}", path.display(), numbers(list.len())));
        }
        read.push((path, list));
    }
    let vars = vars(&read, options.pad)?;
    let degree = u32::try_from(read.len()).unwrap_or(u32::MAX);
    if let Err(refusal) = tables_len(vars, degree) {
        return trouble(format!("{} tables are given: {}", degree, refusal));
    }
    let mut list = Vec::new();
    for (_, mut table) in read {
        table.resize(1 << vars, 0);
        list.extend(table);
    }
    Ok(Tables { vars, degree, list, quiet: options.quiet })
}

/// The number of variables: all tables have 2^vars numbers, or are filled up.
fn vars(read: &[(&PathBuf, Vec<u32>)], pad: bool) -> Answer<u32> {
    let mut longest = 0;
    for (path, list) in read {
        if list.is_empty() {
            return trouble(format!("{} has no numbers", path.display()));
        }
        if list.len() > 1 << MAX_VARS {
            return trouble(format!(
                "{} has {}, and a table has at most {} (refusal 1)",
                path.display(),
                numbers(list.len()),
                1 << MAX_VARS
            ));
        }
        longest = longest.max(list.len());
    }
    if !pad {
        equal_and_whole(read)?;
    }
    Ok(longest.next_power_of_two().trailing_zeros())
}

fn equal_and_whole(read: &[(&PathBuf, Vec<u32>)]) -> Answer<()> {
    let (first, list) = &read[0];
    let length = list.len();
    for (path, list) in read {
        if list.len() != length {
            return trouble(format!(
                "{} has {}, but {} has {}; tables have the same length, and --pad fills them up with zeros",
                path.display(),
                numbers(list.len()),
                first.display(),
                length
            ));
        }
    }
    if !length.is_power_of_two() {
        return trouble(format!(
            "{} has {}, which is not 1, 2, 4, .. or {}; --pad fills it up with zeros to {}",
            first.display(),
            numbers(length),
            1 << MAX_VARS,
            length.next_power_of_two()
        ));
    }
    Ok(())
}

pub fn challenges(options: &Options, tables: &Tables) -> Answer<Vec<u32>> {
    let path: &Path = &options.challenges;
    let list = lists::read(path, options.binary)?;
    if list.len() != tables.vars as usize {
        return trouble(format!(
            "{} has {}, but {} needs {}, one challenge for each variable",
            path.display(),
            numbers(list.len()),
            tables.described(),
            tables.vars
        ));
    }
    Ok(list)
}

#[cfg(test)]
mod tests {
    use super::*;

    #[test]
    fn words() {
        assert_eq!(described(0, 1), "1 table of 1 number");
        assert_eq!(described(2, 3), "3 tables of 4 numbers");
    }
}
