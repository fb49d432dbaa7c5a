//! The reader of proof files.

use crate::{ffi, Refusal};

/// What a proof file says, beside its coefficients.
#[derive(Clone, Copy, Debug, PartialEq, Eq, Hash)]
pub struct Header {
    /// The number of variables.
    pub vars: u32,
    /// The number of tables.
    pub degree: u32,
    /// The claimed sum, modulo p.
    pub claim: u32,
}

/// Reads a proof file. Its coefficients go to the first m(k+1) places of
/// `messages`, m and k being the file's; what is behind stays as it was. A
/// list of [`MAX_MESSAGES_LEN`](crate::MAX_MESSAGES_LEN) places has room for
/// any file.
///
/// # Errors
///
/// Refusal 9, then the lines in order, in each 11, 10, 12, after the last line
/// 13, at the end 4. Then `messages` is unchanged.
///
/// ```
/// use sendurafi::{messages_len, read, MAX_MESSAGES_LEN};
/// let file = b"sumproof=1\nfield=2147483647\nvars=1\ndegree=1\nclaim=3\nround=1,1\nend=1\n";
/// let mut messages = [0; MAX_MESSAGES_LEN];
/// let header = read(file, &mut messages)?;
/// assert_eq!((header.vars, header.degree, header.claim), (1, 1, 3));
/// assert_eq!(messages[..messages_len(1, 1)?], [1, 1]);
///
/// let cut = read(&file[..62], &mut messages).unwrap_err();
/// assert_eq!((cut.number(), cut.line()), (11, Some(7)));
/// # Ok::<(), sendurafi::Refusal>(())
/// ```
pub fn read(bytes: &[u8], messages: &mut [u32]) -> Result<Header, Refusal> {
    // Safety: see ffi.
    unsafe {
        ffi::sendurafi_read(bytes.as_ptr(), bytes.len(), messages.as_mut_ptr(), messages.len())
    }
    .header()
}
