//! Impostors of the maps to the signed form of a residue and back.

use compare::{Entries, FelmugoResidue, FelmugoSigned};
use fields::P;

use crate::actors::{is_found, Faithful};

/// The greatest signed number.
const GREATEST: i64 = 9223372034707292160;

fn is_missigning_found(answer: impl Fn(&Faithful, u64) -> FelmugoSigned) -> bool {
    is_found(|impostor| impostor.signed = Some(&answer))
}

fn is_misreading_found(answer: impl Fn(&Faithful, i64) -> FelmugoResidue) -> bool {
    is_found(|impostor| impostor.unsigned = Some(&answer))
}

/// An accepted signed number.
fn signed(value: i128) -> FelmugoSigned {
    FelmugoSigned {
        number: 0,
        value: value as i64,
    }
}

#[test]
fn a_bound_that_is_off_by_one_is_found() {
    let (greatest, p) = (GREATEST as u64, i128::from(P));
    assert!(is_missigning_found(|faithful, residue| {
        match residue {
            _ if residue == greatest => signed(i128::from(residue) - p),
            _ => faithful.signed(residue),
        }
    }));
    assert!(is_missigning_found(|faithful, residue| {
        match residue {
            _ if residue == greatest + 1 => signed(i128::from(residue)),
            _ => faithful.signed(residue),
        }
    }));
}

#[test]
fn the_sign_of_the_top_bit_is_found() {
    assert!(is_missigning_found(|faithful, residue| {
        match residue < 1 << 63 {
            true => signed(residue.into()),
            false => faithful.signed(residue),
        }
    }));
}

#[test]
fn a_word_read_as_signed_is_found() {
    assert!(is_missigning_found(|faithful, residue| FelmugoSigned {
        value: residue as i64,
        ..faithful.signed(residue)
    }));
}

#[test]
fn a_lost_sign_is_found() {
    assert!(is_missigning_found(|faithful, residue| {
        let FelmugoSigned { number, value } = faithful.signed(residue);
        let value = value.abs();
        FelmugoSigned { number, value }
    }));
}

#[test]
fn a_reduced_word_is_found() {
    assert!(is_missigning_found(
        |faithful, residue| faithful.signed(residue % P)
    ));
}

#[test]
fn a_value_in_a_refusal_is_found() {
    assert!(is_missigning_found(|faithful, residue| {
        match faithful.signed(residue) {
            FelmugoSigned { number: 7, .. } => FelmugoSigned {
                number: 7,
                value: residue as i64,
            },
            accepted => accepted,
        }
    }));
    assert!(is_misreading_found(|faithful, value| {
        match faithful.unsigned(value) {
            FelmugoResidue { number: 7, .. } => FelmugoResidue {
                number: 7,
                value: value as u64,
            },
            accepted => accepted,
        }
    }));
}

#[test]
fn a_number_outside_the_range_that_is_accepted_is_found() {
    let reduced = |value: i64| FelmugoResidue {
        number: 0,
        value: i128::from(value).rem_euclid(P.into()) as u64,
    };
    for outside in [GREATEST + 1, -GREATEST - 1, i64::MIN, i64::MAX] {
        assert!(is_misreading_found(|faithful, value| {
            match value {
                _ if value == outside => reduced(value),
                _ => faithful.unsigned(value),
            }
        }));
    }
}

#[test]
fn an_end_of_the_range_that_is_refused_is_found() {
    for end in [GREATEST, -GREATEST] {
        assert!(is_misreading_found(|faithful, value| {
            match value {
                _ if value == end => faithful.unsigned(i64::MAX),
                _ => faithful.unsigned(value),
            }
        }));
    }
}

#[test]
fn a_negative_number_plus_2_to_the_64_is_found() {
    assert!(is_misreading_found(|faithful, value| {
        match faithful.unsigned(value) {
            FelmugoResidue { number: 0, .. } => FelmugoResidue {
                number: 0,
                value: value as u64,
            },
            refused => refused,
        }
    }));
}
