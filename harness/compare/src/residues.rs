//! Compares the operations on residues with their meaning.

use fields::P;
use pairs::Rng;
use tally::{same, With};

use crate::model::{self, Operation};
use crate::{Comparison, FelmugoResidue};

/// Where a carry, a borrow, the reduction or a refusal begins.
const LIMITS: [u64; 16] = [
    0,
    1,
    2,
    0xffff_fffe,
    0xffff_ffff,
    0x1_0000_0000,
    0x1_0000_0001,
    1 << 63,
    P / 2,
    P - (1 << 32),
    P - 2,
    P - 1,
    P,
    P + 1,
    u64::MAX - 1,
    u64::MAX,
];

impl Comparison<'_> {
    /// Tries all pairs of limits and `count` pairs of other numbers, by all three operations.
    pub(crate) fn residues(&mut self, seed: u64, count: u64) {
        let mut rng = Rng::new(seed);
        for a in LIMITS {
            for b in LIMITS {
                self.operands(a, b);
            }
        }
        for _ in 0..count {
            let (shift_a, shift_b) = (rng.below(64), rng.below(64));
            let (a, b) = (rng.word(), rng.word());
            self.operands(a % P, b % P);
            self.operands(a >> shift_a, !(b >> shift_b));
            self.operands(!(a >> shift_a), b >> shift_b);
        }
    }

    fn operands(&mut self, a: u64, b: u64) {
        let mut compare_one = |sign: &str, ours: FelmugoResidue, meant: Operation| {
            let outcome = same(ours, model::operation(a, b, meant));
            let told = |difference| format!("{a} {sign} {b}: {difference}");
            let outcome = outcome.map_err(told);
            self.tally
                .note("residue operations", With::TheHarness, outcome);
        };
        compare_one("+", self.entries.add(a, b), |a, b| a + b);
        compare_one("-", self.entries.sub(a, b), |a, b| a - b);
        compare_one("*", self.entries.mul(a, b), |a, b| a * b);
    }
}
