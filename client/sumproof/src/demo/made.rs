//! The ledger and the challenges of the demonstration.

use sendurafi::P;

use super::VARS;

/// A linear generator, as plain as they come. No one should draw challenges
/// with it outside of a demonstration.
fn numbers(mut state: u64) -> impl Iterator<Item = u32> {
    std::iter::repeat_with(move || {
        state = state.wrapping_mul(6364136223846793005).wrapping_add(1442695040888963407);
        (state >> 33) as u32
    })
}

/// So low that the total stays below p and is the total itself, not only its
/// remainder.
pub const MOST_BALANCE: u32 = 29_999;

pub fn ledger() -> Vec<u32> {
    numbers(1).map(|x| x % (MOST_BALANCE + 1)).take(1 << VARS).collect()
}

pub fn challenges() -> Vec<u32> {
    numbers(2).filter(|x| *x < P).take(VARS as usize).collect()
}

#[cfg(test)]
mod tests {
    use super::*;

    #[test]
    fn the_total_stays_below_p() {
        assert!(ledger().iter().all(|x| *x <= MOST_BALANCE));
        assert!(u64::from(MOST_BALANCE) << VARS < u64::from(P));
        let total: u64 = ledger().iter().map(|x| u64::from(*x)).sum();
        assert_eq!(sendurafi::true_sum(VARS, 1, &ledger()), Ok(total as u32));
    }
}
