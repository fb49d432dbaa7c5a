//! Sums over large tables modulo p, proved by sumcheck and checked.
//!
//! A server adds up a table and sends the total with a proof; a client checks
//! it. Every total is modulo p = 2147483647, which is [`P`].
//!
//! This crate is a safe face over a library whose functions are proved, and
//! adds nothing of its own to their answers. Every input gets an answer:
//! nothing here panics, and a call that is turned down says why with a
//! [`Refusal`].
//!
//! # Terms
//!
//! An *element* is a number below [`P`]. *vars* is the number of variables m,
//! 0 to 16; *degree* is the number of tables k, 1 to 3. The *tables* are one
//! list of k·2^m elements, table after table; the value at (x1, .., xm) stands
//! at index x1·2^(m-1) + .. + xm. f is the product of the tables' extensions.
//! The *messages* are m rounds of k+1 coefficients, lowest power first, and
//! there are m *challenges*.
//!
//! # What a total modulo p says
//!
//! What is claimed, proved and checked is the sum's remainder. That is the sum
//! itself if the sum is below p, which is sure if 2^m times the greatest number
//! of the table is below p; with k tables, 2^m times the product of their
//! greatest numbers. Otherwise only the remainder is proved.
//!
//! A negative balance -b, with 0 < b < p, is written as p - b, which is what
//! [`field::negative`] gives. To read the total as a signed number one must
//! know bounds: if each amount that is added up (with k tables, each product)
//! lies between -B and B, and 2^m·B is below p/2, then a total above p/2 stands
//! for total - p, and any other for itself.
//!
//! ```
//! use sendurafi::{field, true_sum, P};
//! // 3 - 10 + 4 + 1 is -2.
//! assert_eq!(true_sum(2, 1, &[3, field::negative(10)?, 4, 1])?, P - 2);
//! # Ok::<(), sendurafi::Refusal>(())
//! ```
//!
//! # What acceptance means
//!
//! The challenges are the caller's to choose, each after its message is seen
//! and so that the prover cannot foresee it. Even then acceptance does not
//! mean that the sum is true: in each round at most k of the 2147483647
//! challenges are lucky ones that let a false sum pass.
//!
//! # Example
//!
//! ```
//! use sendurafi::{check, prove, read, true_sum, Verdict};
//!
//! // The server: two tables over two variables.
//! let tables = [0, 1, 2, 0, 3, 4, 1, 2];
//! let challenges = [3, 1];
//! let (mut messages, mut scratch) = ([0; 6], [0; 8]);
//! assert_eq!(true_sum(2, 2, &tables)?, 6);
//! prove(2, 2, &tables, &challenges, &mut messages, &mut scratch)?;
//!
//! // The client: the same proof as a file.
//! let file = b"sumproof=1\nfield=2147483647\nvars=2\ndegree=2\nclaim=6\n\
//!     round=4,0,2147483645\nround=2147483629,30,2147483639\nend=2\n";
//! let mut read_messages = [0; 6];
//! let header = read(file, &mut read_messages)?;
//! assert_eq!(read_messages, messages);
//! let verdict = check(2, 2, &tables, header.claim, &challenges, &read_messages)?;
//! assert_eq!(verdict, Verdict::Accepted);
//! # Ok::<(), sendurafi::Refusal>(())
//! ```

#![no_std]
#![warn(missing_docs)]

#[cfg(feature = "std")]
extern crate std;

mod checker;
mod ffi;
pub mod field;
mod file;
mod limits;
mod messages;
mod prover;
mod refusal;
mod steps;
mod tables;

pub use checker::{check, check_rounds, Rounds, Verdict};
pub use file::{read, Header};
pub use limits::{
    messages_len, tables_len, MAX_DEGREE, MAX_FILE_BYTES, MAX_MESSAGES_LEN, MAX_TABLES_LEN,
    MAX_VARS, P,
};
pub use messages::round_part;
pub use prover::prove;
pub use refusal::Refusal;
pub use steps::{State, Step};
pub use tables::{true_sum, value_at};
