//! A list of a case: written member by member, or made by a rule, so that a
//! long list takes one short line. FORMAT.md, "Lists".

/// No list of a case has more members: 3·2^16, and some room for defects.
pub const LONGEST: u64 = 3 * 65536 + 8;
/// In the place of a length it says that a made list follows.
pub const MARKER: u64 = 4294967295;

/// A made list has no more places changed.
pub const MOST_CHANGES: u64 = 64;

#[derive(Clone, Debug, PartialEq)]
pub enum List {
    Plain(Vec<u64>),
    Made(Made),
}

#[derive(Clone, Debug, PartialEq)]
pub struct Made {
    pub length: u64,
    pub seed: u64,
    pub modulus: u64,
    pub lowest: u64,
    /// Single places that hold something else: (index, value).
    pub changes: Vec<(u64, u64)>,
}

impl List {
    pub fn made(length: u64, seed: u64, modulus: u64) -> List {
        List::Made(Made { length, seed, modulus, lowest: 0, changes: Vec::new() })
    }

    /// A list with the same value in every place.
    pub fn constant(length: u64, value: u64) -> List {
        List::Made(Made { length, seed: 0, modulus: 1, lowest: value, changes: Vec::new() })
    }

    pub fn length(&self) -> u64 {
        match self {
            List::Plain(members) => members.len() as u64,
            List::Made(made) => made.length,
        }
    }

    pub fn members(&self) -> Vec<u64> {
        match self {
            List::Plain(members) => members.clone(),
            List::Made(made) => made.members(),
        }
    }

    /// The same list cut, or made longer with what `more` gives.
    pub fn resize(&mut self, length: u64, more: u64) {
        match self {
            List::Plain(members) => members.resize(length as usize, more),
            List::Made(made) => {
                made.length = length;
                made.changes.retain(|change| change.0 < length);
            }
        }
    }

    /// Another value in one place, which must be there.
    pub fn put(&mut self, index: u64, value: u64) {
        match self {
            List::Plain(members) => members[index as usize] = value,
            List::Made(made) => made.changes.push((index, value)),
        }
    }

    /// The numbers that stand for it in a line.
    pub fn written(&self) -> Vec<u64> {
        match self {
            List::Plain(members) => {
                let mut result = vec![members.len() as u64];
                result.extend(members);
                result
            }
            List::Made(made) => {
                let count = made.changes.len() as u64;
                let mut result =
                    vec![MARKER, made.length, made.seed, made.modulus, made.lowest, count];
                for (index, value) in &made.changes {
                    result.push(*index);
                    result.push(*value);
                }
                result
            }
        }
    }
}

impl Made {
    /// The rule: s is the seed; for each place s = (s·1103515245 + 12345)
    /// modulo 4294967291, and the place holds lowest + (s modulo the modulus).
    /// Then the changes, in their order.
    fn members(&self) -> Vec<u64> {
        let mut s = self.seed;
        let mut result = Vec::new();
        for _ in 0..self.length {
            s = (s * 1103515245 + 12345) % 4294967291;
            result.push(self.lowest + s % self.modulus);
        }
        for (index, value) in &self.changes {
            result[*index as usize] = *value;
        }
        result
    }
}

#[cfg(test)]
mod tests {
    use super::*;

    #[test]
    fn made_by_the_rule() {
        let mut list = List::made(3, 1, 4294967295);
        // 1103515245 + 12345; then twice more by the rule.
        assert_eq!(list.members()[0], 1103527590);
        let second = (1103527590u64 * 1103515245 + 12345) % 4294967291;
        assert_eq!(list.members()[1], second);
        list.put(1, 7);
        assert_eq!(list.members()[1], 7);
        assert_eq!(list.written(), [MARKER, 3, 1, 4294967295, 0, 1, 1, 7]);
        list.resize(1, 0);
        assert_eq!(list.written(), [MARKER, 1, 1, 4294967295, 0, 0]);
        assert_eq!(List::constant(3, 9).members(), [9, 9, 9]);
    }
}
