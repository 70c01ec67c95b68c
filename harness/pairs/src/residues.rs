//! Arithmetic modulo p on the numbers of a row.

use fields::{Plain, Residue};

fn residue(n: u64) -> Plain {
    Plain::reduced(n.into())
}

pub fn add(a: u64, b: u64) -> u64 {
    (residue(a) + residue(b)).canonical()
}

pub fn sub(a: u64, b: u64) -> u64 {
    (residue(a) - residue(b)).canonical()
}

pub fn mul(a: u64, b: u64) -> u64 {
    (residue(a) * residue(b)).canonical()
}

/// The quotient; a division by 0 gives 0.
pub fn div(a: u64, b: u64) -> u64 {
    (residue(a) * residue(b).inverse()).canonical()
}
