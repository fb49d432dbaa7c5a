//! The prover.

use crate::{ffi, Refusal};

/// Proves the sum of f over all corners, modulo [`P`](crate::P): writes the true
/// polynomials of all rounds to the first m(k+1) places of `messages`.
///
/// It works in `scratch`, whose first k·2^m places are 0 afterwards. Both
/// lists may be longer, and what is behind stays as it was. Round j does not
/// depend on challenge j or later ones, so a server that is given one
/// challenge at a time puts any elements for the rest.
///
/// # Errors
///
/// Refusals 1, 2, 3, 4, 5, in this order. Then both lists are unchanged.
///
/// ```
/// use sendurafi::prove;
/// let tables = [0, 1, 2, 0, 3, 4, 1, 2];
/// let (mut messages, mut scratch) = ([5; 7], [5; 8]);
/// prove(2, 2, &tables, &[3, 1], &mut messages, &mut scratch)?;
/// assert_eq!(messages, [4, 0, 2147483645, 2147483629, 30, 2147483639, 5]);
/// assert_eq!(scratch, [0; 8]);
/// # Ok::<(), sendurafi::Refusal>(())
/// ```
pub fn prove(
    vars: u32,
    degree: u32,
    tables: &[u32],
    challenges: &[u32],
    messages: &mut [u32],
    scratch: &mut [u32],
) -> Result<(), Refusal> {
    // Safety: see ffi.
    unsafe {
        ffi::sendurafi_prove(
            vars,
            degree,
            tables.as_ptr(),
            tables.len(),
            challenges.as_ptr(),
            challenges.len(),
            messages.as_mut_ptr(),
            messages.len(),
            scratch.as_mut_ptr(),
            scratch.len(),
        )
    }
    .value()
    .map(|_| ())
}
