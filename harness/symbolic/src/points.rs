//! What the listed Rust answers at points: pairs of rows with alphas and accumulators, as numbers.

use fields::{Plain, Residue};
use olavm::{Pair, Reference};
use plonky2::field::types::Field;

/// A pair with two alphas and accumulators.
pub struct Point {
    pair: Pair,
    alphas: [u64; 2],
    accs: [u64; 2],
}

impl Point {
    /// The point of as many residues as it takes.
    pub fn draw(mut residue: impl FnMut() -> u64) -> Self {
        Self {
            pair: Pair {
                masks: std::array::from_fn(|_| residue()),
                lv: std::array::from_fn(|_| residue()),
                nv: std::array::from_fn(|_| residue()),
                z_last: residue(),
                lagrange_basis_first: residue(),
            },
            alphas: std::array::from_fn(|_| residue()),
            accs: std::array::from_fn(|_| residue()),
        }
    }

    /// The values of the pair, and what they make of the accumulators and of new ones.
    pub fn answers(&self, rust: Reference) -> Vec<u64> {
        let pair = &self.pair;
        let folds = rust.fold::<Plain>(pair, &self.alphas, &self.accs);
        let of = Plain::from_canonical_u64;
        let from_new = rust.fold_rows(
            &pair.masks,
            [&pair.lv.map(of), &pair.nv.map(of)],
            [pair.z_last, pair.lagrange_basis_first, 0].map(of),
            &self.alphas.map(of),
            None,
        );
        let from_new = from_new.into_iter().map(Plain::canonical);
        let folds = folds.into_iter().chain(from_new);
        rust.values(pair).into_iter().chain(folds).collect()
    }
}
