//! The part of the messages that one round has.

use crate::{ffi, Refusal};

/// Round `round`, from 1, of a message list: a part of the caller's own list.
/// The numbers in it are not judged.
///
/// # Errors
///
/// Refusals 1, 2, 3, 8, in this order.
///
/// ```
/// use sendurafi::round_part;
/// let messages = [4, 0, 2147483645, 2147483629, 30, 2147483639];
/// assert_eq!(round_part(2, 2, &messages, 2), Ok(&messages[3..]));
/// assert_eq!(round_part(2, 2, &messages, 3).unwrap_err().number(), 8);
/// ```
pub fn round_part(vars: u32, degree: u32, messages: &[u32], round: u32) -> Result<&[u32], Refusal> {
    // Safety: see ffi.
    let (number, part) = unsafe {
        let (list, len) = (messages.as_ptr(), messages.len());
        (
            ffi::sendurafi_round_part_refusal(vars, degree, list, len, round),
            ffi::sendurafi_round_part(vars, degree, list, len, round),
        )
    };
    if number != 0 {
        return Err(Refusal::new(number, 0));
    }
    // The library promises a part of the list; `get` keeps it that way even
    // with an archive that breaks its promise.
    let end = part.start.saturating_add(part.length);
    messages.get(part.start..end).ok_or(Refusal::new(Refusal::ROUND, 0))
}
