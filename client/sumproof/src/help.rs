//! What `--help` prints.

use sendurafi::{MAX_DEGREE, MAX_VARS, P};

/// With the library's limits put in.
pub fn all() -> String {
    TEXT.replace("MOST_TABLES", &MAX_DEGREE.to_string())
        .replace("MOST_NUMBERS", &(1u64 << MAX_VARS).to_string())
        .replace("MOST_VARS", &MAX_VARS.to_string())
        .replace("MODULUS", &P.to_string())
}

const TEXT: &str = "\
sumproof proves sums over tables, modulo p = MODULUS, and checks the proofs.

  sumproof check PROOF --table FILE.. --challenges FILE
  sumproof prove --table FILE.. --challenges FILE --out PROOF
  sumproof show PROOF
  sumproof sum --table FILE..
  sumproof demo

check   reads the proof file PROOF and checks its claim against the tables
prove   adds up the tables modulo p and writes the proof file PROOF
show    prints what a proof file says
sum     prints the sum modulo p
demo    shows an honest server, and some that lie

1 to MOST_TABLES tables of equal length may be given. The sum is that of the
products of the numbers that stand at the same place of each table, modulo p.
A table has 1, 2, 4, .. MOST_NUMBERS numbers, each below p. There is one
challenge for each doubling: MOST_VARS for MOST_NUMBERS numbers.

What is claimed, proved and checked is the sum's remainder modulo p. That is
the sum itself if the sum is below p, which is sure if the length of a table
times the product of the tables' greatest numbers is below p. Otherwise only
the remainder is proved.

A negative balance -b, with 0 < b < p, is written as p - b. To read the sum as
a signed number one must know bounds: if each amount that is added up (with
several tables, each product) lies between -B and B, and the length times B is
below p/2, then a sum above p/2 stands for sum - p, and any other for itself.

Options
  --table FILE..     the tables; the option may be repeated
  --challenges FILE  the challenges
  --out PROOF        where the proof file is written
  --binary           all tables and challenges are little-endian 4-byte numbers;
                     without it that holds for files whose name ends in .u32,
                     and all others are text
  --pad              fill tables up with zeros to the next of these lengths
  --quiet            no progress on standard error
  --help             this text

In text, numbers are parted by blanks, commas or line ends, and # starts a
comment that ends with its line.

Choose challenges so that the prover cannot foresee them: round j's challenge
after round j's message is seen. A proof whose challenges the prover knew
beforehand shows nothing.

Exit status: 0 accepted or done, 1 rejected, 2 refused or bad usage.

Examples
  sumproof prove --table ledger.txt --challenges drawn.txt --out total.proof
  sumproof show total.proof
  sumproof check total.proof --table ledger.txt --challenges drawn.txt
  sumproof sum --pad --table amounts.u32 prices.u32
";
