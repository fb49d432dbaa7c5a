//! The second program: sums, extensions, prover, checker, steps, round part
//! and file reader, written from document 01 by definition. It shares no code
//! with the library and is made to be compared with it.
//!
//! The mathematics (field, tables, rounds, checker, steps, part, file) takes
//! the modulus n as its first parameter, so that the small examples of source
//! document 002 run through the same code. Every number is held in a u64.

pub mod answers;
pub mod cases;
pub mod checker;
pub mod field;
pub mod file;
pub mod fresh;
pub mod generate;
pub mod lists;
pub mod part;
pub mod random;
pub mod refusals;
pub mod rounds;
pub mod run;
pub mod shrink;
pub mod steps;
pub mod tables;
