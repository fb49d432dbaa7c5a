//! Document 01, "When a call is turned down": the limits, and the refusals
//! that more than one entry gives. An entry asks them in the document's order
//! with `?`, so that its first lines read like the document.

/// Refusal 1: "vars over 16".
pub const MOST_VARS: u64 = 16;
/// Refusal 2: "degree 0 or over 3".
pub const MOST_DEGREE: u64 = 3;
/// Refusal 9: "file over 4,096 bytes".
pub const MOST_FILE_BYTES: usize = 4096;

/// Refusals 1 and 2, in this order.
pub fn limits(vars: u64, degree: u64) -> Result<(), u64> {
    if vars > MOST_VARS {
        return Err(1);
    }
    if degree == 0 || degree > MOST_DEGREE {
        return Err(2);
    }
    Ok(())
}

/// Refusal 3: "not of the exact length".
pub fn exact(list: &[u64], length: u64) -> Result<(), u64> {
    if list.len() as u64 == length {
        Ok(())
    } else {
        Err(3)
    }
}

/// Refusal 4: "a lent message list or scratch too short".
pub fn room(list: &[u64], length: u64) -> Result<(), u64> {
    if list.len() as u64 >= length {
        Ok(())
    } else {
        Err(4)
    }
}

/// Refusal 5: "an element not below p".
pub fn element(n: u64, value: u64) -> Result<(), u64> {
    if value < n {
        Ok(())
    } else {
        Err(5)
    }
}

/// Refusal 5 for a list. Only the number is returned, so the place found
/// first does not show in the answer.
pub fn elements(n: u64, list: &[u64]) -> Result<(), u64> {
    for value in list {
        element(n, *value)?;
    }
    Ok(())
}

/// The number of corners of a cube with this many variables.
/// Asked only after refusal 1, so the shift is small.
pub fn corners(vars: u64) -> u64 {
    1 << vars
}

/// "one lent list of k·2^m elements"
pub fn tables_length(vars: u64, degree: u64) -> u64 {
    degree * corners(vars)
}

/// "one lent list of m(k+1) elements"
pub fn messages_length(vars: u64, degree: u64) -> u64 {
    vars * (degree + 1)
}

#[cfg(test)]
mod tests {
    use super::*;

    #[test]
    fn limits_of_document_01() {
        assert_eq!(limits(16, 3), Ok(()));
        assert_eq!(limits(17, 3), Err(1));
        assert_eq!(limits(16, 0), Err(2));
        assert_eq!(limits(16, 4), Err(2));
        // "Both wrong: 1."
        assert_eq!(limits(17, 4), Err(1));
        assert_eq!(limits(4294967295, 4294967295), Err(1));
    }
}
