//! Sums and values of f, the product of the tables' extensions, modulo p.

use crate::{ffi, Refusal};

/// f summed over all 2^m corners, modulo [`P`](crate::P).
///
/// # Errors
///
/// Refusals 1, 2, 3, 5, in this order.
///
/// ```
/// use sendurafi::{true_sum, P};
/// assert_eq!(true_sum(2, 2, &[0, 1, 2, 0, 3, 4, 1, 2]), Ok(6));
/// assert_eq!(true_sum(1, 1, &[P - 1, 5]), Ok(4));
/// ```
pub fn true_sum(vars: u32, degree: u32, tables: &[u32]) -> Result<u32, Refusal> {
    // Safety: see ffi.
    unsafe { ffi::sendurafi_true_sum(vars, degree, tables.as_ptr(), tables.len()) }.value()
}

/// f at a point of m elements, modulo [`P`](crate::P).
///
/// # Errors
///
/// Refusals 1, 2, 3, 5, in this order.
///
/// ```
/// let tables = [0, 1, 2, 0, 3, 4, 1, 2];
/// assert_eq!(sendurafi::value_at(2, 2, &tables, &[3, 1]), Ok(4));
/// ```
pub fn value_at(vars: u32, degree: u32, tables: &[u32], point: &[u32]) -> Result<u32, Refusal> {
    // Safety: see ffi.
    unsafe {
        ffi::sendurafi_value_at(
            vars,
            degree,
            tables.as_ptr(),
            tables.len(),
            point.as_ptr(),
            point.len(),
        )
    }
    .value()
}
