//! Arithmetic modulo [`P`](crate::P). Operands are elements, and so is the
//! result.

use crate::{ffi, Refusal};

/// a + b.
///
/// # Errors
///
/// Refusal 5.
///
/// ```
/// use sendurafi::{field, P};
/// assert_eq!(field::sum(P - 1, 1), Ok(0));
/// assert_eq!(field::sum(P, 1).unwrap_err().number(), 5);
/// ```
pub fn sum(a: u32, b: u32) -> Result<u32, Refusal> {
    // Safety: only numbers are passed.
    unsafe { ffi::sendurafi_sum(a, b) }.value()
}

/// a - b.
///
/// # Errors
///
/// Refusal 5.
///
/// ```
/// use sendurafi::{field, P};
/// assert_eq!(field::difference(0, 1), Ok(P - 1));
/// ```
pub fn difference(a: u32, b: u32) -> Result<u32, Refusal> {
    // Safety: only numbers are passed.
    unsafe { ffi::sendurafi_difference(a, b) }.value()
}

/// -a.
///
/// # Errors
///
/// Refusal 5.
///
/// ```
/// use sendurafi::{field, P};
/// assert_eq!(field::negative(1), Ok(P - 1));
/// assert_eq!(field::negative(0), Ok(0));
/// ```
pub fn negative(a: u32) -> Result<u32, Refusal> {
    // Safety: only numbers are passed.
    unsafe { ffi::sendurafi_negative(a) }.value()
}

/// a times b.
///
/// # Errors
///
/// Refusal 5.
///
/// ```
/// use sendurafi::{field, P};
/// assert_eq!(field::product(P - 1, P - 1), Ok(1));
/// ```
pub fn product(a: u32, b: u32) -> Result<u32, Refusal> {
    // Safety: only numbers are passed.
    unsafe { ffi::sendurafi_product(a, b) }.value()
}

/// a to the power e. 0 to the power 0 is 1.
///
/// # Errors
///
/// Refusal 5.
///
/// ```
/// use sendurafi::field;
/// assert_eq!(field::power(2, 31), Ok(1));
/// assert_eq!(field::power(0, 0), Ok(1));
/// ```
pub fn power(a: u32, e: u64) -> Result<u32, Refusal> {
    // Safety: only numbers are passed.
    unsafe { ffi::sendurafi_power(a, e) }.value()
}

/// The element that times a is 1.
///
/// # Errors
///
/// Refusals 5, 6.
///
/// ```
/// use sendurafi::field;
/// let half = field::inverse(2)?;
/// assert_eq!(field::product(half, 2), Ok(1));
/// assert_eq!(field::inverse(0).unwrap_err().number(), 6);
/// # Ok::<(), sendurafi::Refusal>(())
/// ```
pub fn inverse(a: u32) -> Result<u32, Refusal> {
    // Safety: only numbers are passed.
    unsafe { ffi::sendurafi_inverse(a) }.value()
}
