//! The signed form of a residue, over 128-bit numbers.

use crate::P;

/// The greatest signed number; the least is its negative.
pub const GREATEST: i128 = 9223372034707292160;

/// "A residue up to 9223372034707292160 is printed as it is, a larger one as itself minus p."
pub fn signed(residue: u64) -> i128 {
    let residue = i128::from(residue);
    if residue <= GREATEST {
        residue
    } else {
        residue - i128::from(P)
    }
}

/// The residue of a signed number.
pub fn unsigned(signed: i128) -> u64 {
    let residue = signed.rem_euclid(i128::from(P));
    residue.try_into().expect("a residue is below p")
}
