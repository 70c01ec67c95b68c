//! Calls that are spoiled on purpose.

use fields::P;
use olavm::{Pair, COLUMNS, MASKS, VALUES};
use pairs::masks::ARITHMETIC;
use pairs::Rng;

use crate::Call;

/// The numbers that a call for the values of a pair may be refused with.
pub(crate) const NUMBERS: [u64; 6] = [1, 2, 3, 5, 6, 7];

/// Counts of masks that are refused.
pub(crate) const MASK_COUNTS: [usize; 4] = [0, 4, MASKS - 1, MASKS + 1];

/// The numbers about which a content begins to be refused.
pub(crate) const LIMITS: [u64; 4] = [P - 1, P, P + 1, u64::MAX];

/// The inputs of a call, and the length of its buffer.
#[derive(Clone, Debug)]
pub(crate) struct Inputs {
    pub(crate) masks: Vec<u64>,
    pub(crate) lv: Vec<u64>,
    pub(crate) nv: Vec<u64>,
    pub(crate) z_last: u64,
    pub(crate) lagrange_basis_first: u64,
    pub(crate) buffer: usize,
}

impl From<&Pair> for Inputs {
    fn from(pair: &Pair) -> Self {
        Self {
            masks: pair.masks.to_vec(),
            lv: pair.lv.to_vec(),
            nv: pair.nv.to_vec(),
            z_last: pair.z_last,
            lagrange_basis_first: pair.lagrange_basis_first,
            buffer: VALUES,
        }
    }
}

impl Inputs {
    pub(crate) fn call(&self) -> Call<'_> {
        Call {
            masks: &self.masks,
            lv: &self.lv,
            nv: &self.nv,
            z_last: self.z_last,
            lagrange_basis_first: self.lagrange_basis_first,
        }
    }

    /// Makes the condition of each number of the set hold; bit i stands for `NUMBERS[i]`.
    pub(crate) fn spoil(&mut self, rng: &mut Rng, set: u64) {
        // Contents come first, while the lengths are right.
        for (i, number) in NUMBERS.into_iter().enumerate().rev() {
            if set >> i & 1 == 1 {
                self.spoil_one(rng, number);
            }
        }
    }

    /// Makes the condition of one number hold.
    pub(crate) fn spoil_one(&mut self, rng: &mut Rng, number: u64) {
        let not_canonical = not_canonical(rng);
        let row = match rng.flip() {
            true => &mut self.lv,
            false => &mut self.nv,
        };
        match number {
            1 => row.resize(rng.pick(&[0, 1, COLUMNS - 1, COLUMNS + 1]), 0),
            2 => self.masks.resize(rng.pick(&MASK_COUNTS), 0),
            3 => self.buffer = rng.pick(&[0, 1, VALUES - 1]),
            5 => spoil_masks(rng, &mut self.masks),
            6 => row[rng.below(COLUMNS)] = not_canonical,
            _ if rng.flip() => self.z_last = not_canonical,
            _ => self.lagrange_basis_first = not_canonical,
        }
    }
}

/// Makes one of 25 masks not canonical, or two of the first five equal.
pub(crate) fn spoil_masks(rng: &mut Rng, masks: &mut [u64]) {
    if rng.flip() {
        masks[rng.below(MASKS)] = not_canonical(rng);
    } else {
        let place = 1 + rng.below(ARITHMETIC - 1);
        masks[place] = masks[rng.below(place)];
    }
}

/// A number that is not below p.
pub(crate) fn not_canonical(rng: &mut Rng) -> u64 {
    P + rng.word() % (u64::MAX - P + 1)
}
