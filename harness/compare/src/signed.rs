//! Compares the maps to the signed form of a residue and back with their meaning.

use fields::{signed, GREATEST, P};
use pairs::Rng;
use tally::{same, With};

use crate::{model, Comparison, FelmugoResidue};

/// Where the sign changes, a top bit does, or a refusal begins.
const RESIDUES: [u64; 5] = [0, 9223372034707292160, 1 << 63, P, u64::MAX];
/// The same of signed numbers.
const SIGNED: [i64; 6] = [
    0,
    i64::MIN,
    i64::MAX,
    GREATEST as i64,
    -GREATEST as i64,
    1 << 32,
];

/// How far about an edge every number is tried.
const ABOUT: i128 = 300;

impl Comparison<'_> {
    /// Tries every number about the edges, and `count` random ones of either sort.
    pub(crate) fn signed(&mut self, seed: u64, count: u64) {
        for edge in RESIDUES.map(i128::from) {
            let about = (edge - ABOUT..=edge + ABOUT).filter_map(|n| n.try_into().ok());
            about.for_each(|residue| self.form(residue));
        }
        for edge in SIGNED.map(i128::from) {
            let about = (edge - ABOUT..=edge + ABOUT).filter_map(|n| n.try_into().ok());
            about.for_each(|value| self.residue(value));
        }
        let mut rng = Rng::new(seed);
        for _ in 0..count {
            self.there_and_back(rng.residue());
            // Numbers of any size, from either end of what a word holds.
            let (word, top) = (rng.word() >> rng.below(64), 1 << 63);
            for word in [word, !word] {
                self.form(word);
                self.residue(word as i64);
                self.residue((word ^ top) as i64);
            }
        }
    }

    /// Compares the signed form of a number, which may be no residue.
    fn form(&mut self, residue: u64) {
        let outcome = same(self.entries.signed(residue), model::signed(residue));
        let told = |difference| format!("{residue}: {difference}");
        let outcome = outcome.map_err(told);
        self.tally.note("signed forms", With::TheHarness, outcome);
    }

    /// Compares the residue of a signed number, which may be outside the range.
    fn residue(&mut self, value: i64) {
        let outcome = same(self.entries.unsigned(value), model::unsigned(value));
        let told = |difference| format!("{value}: {difference}");
        let outcome = outcome.map_err(told);
        self.tally
            .note("residues of signed forms", With::TheHarness, outcome);
    }

    /// Compares the signed form of a residue, and what that is mapped back to.
    fn there_and_back(&mut self, residue: u64) {
        let form = self.entries.signed(residue);
        let back = self.entries.unsigned(form.value);
        let due = FelmugoResidue {
            number: 0,
            value: residue,
        };
        let outcome = same(form, model::signed(residue)).and_then(|()| same(back, due));
        let told = |difference| format!("{residue}, {}: {difference}", signed(residue));
        let outcome = outcome.map_err(told);
        self.tally
            .note("signed forms and back", With::TheHarness, outcome);
    }
}
