//! Residues of various sorts for rows and weights.

use fields::P;
use olavm::Row;

use crate::residues::{add, sub};
use crate::rng::Rng;

/// The ends of the range, and 1.
const LIMITS: [u64; 3] = [0, 1, P - 1];

/// Where the reduction of a product or a sum changes its course.
const EDGES: [u64; 6] = [
    (1 << 32) - 1,
    1 << 32,
    (1 << 32) + 1,
    1 << 63,
    P - (1 << 32),
    P - 2,
];

/// One of 0, 1 and p − 1.
pub fn limit(rng: &mut Rng) -> u64 {
    rng.pick(&LIMITS)
}

/// A residue of any sort: random, a limit, an edge or small.
pub fn any(rng: &mut Rng) -> u64 {
    match rng.below(8) {
        0..=3 => rng.residue(),
        4 | 5 => limit(rng),
        6 => rng.pick(&EDGES),
        _ => rng.below(16) as u64,
    }
}

/// A residue that is not 0.
pub fn nonzero(rng: &mut Rng) -> u64 {
    any(rng).max(1)
}

/// The weight of a pair: 0, 1 or random.
pub fn weight(rng: &mut Rng) -> u64 {
    match rng.below(3) {
        0 => 0,
        1 => 1,
        _ => rng.residue(),
    }
}

/// Puts another residue in the place of one, mostly a near one.
pub fn alter(rng: &mut Rng, cell: &mut u64) {
    *cell = match rng.below(4) {
        0 => add(*cell, 1),
        1 => sub(*cell, 1),
        2 => sub(1, *cell),
        _ => any(rng),
    };
}

/// A row of residues of one sort.
pub fn row(rng: &mut Rng, sort: impl Fn(&mut Rng) -> u64) -> Row {
    std::array::from_fn(|_| sort(rng))
}
