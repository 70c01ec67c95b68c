//! Compares the folds of pairs of every class, and calls with one fault or several.

use fields::P;
use pairs::{Class, Rng};
use tally::{same, With};

use crate::comparison::seeds;
use crate::faults::{Inputs, LIMITS};
use crate::{model, Call, Comparison};

/// More alphas than are accepted.
const MANY: usize = 10;

impl Comparison<'_> {
    /// Compares `count` folds.
    pub(crate) fn folds(&mut self, first_seed: u64, count: u64) {
        for seed in seeds(first_seed, count) {
            let mut rng = Rng::new(seed);
            let pair = Class::in_turn(seed).draw(&mut rng);
            let alphas = residues(&mut rng, 1 + (seed / 16 % 8) as usize);
            let accs = residues(&mut rng, alphas.len());
            let class = format!("folds, {} alphas", alphas.len());
            let call = Call::from(&pair);
            let (with, outcome) = self.fold(call, &alphas, &accs);
            let told = |difference| format!("seed {seed}: {difference}");
            self.tally.note(&class, with, outcome.map_err(told));
        }
    }

    /// Compares calls that are spoiled: every count of alphas and of accumulators, every place of
    /// both, and `rounds` times every set of faults.
    pub(crate) fn fold_refusals(&mut self, seed: u64, rounds: u64) {
        let mut rng = Rng::new(seed);
        for alphas in 0..=MANY {
            for accs in 0..=MANY {
                let pair = Class::any(&mut rng);
                let (alphas, accs) = (residues(&mut rng, alphas), residues(&mut rng, accs));
                let (with, outcome) = self.fold(Call::from(&pair), &alphas, &accs);
                self.tally.note("alpha counts", with, outcome);
            }
        }
        for word in LIMITS {
            self.fold_words(&mut rng, word);
        }
        for _ in 0..rounds {
            self.fold_sets(&mut rng);
        }
    }

    /// Compares folds in which one alpha, then one accumulator, is `word`.
    fn fold_words(&mut self, rng: &mut Rng, word: u64) {
        for place in 0..8 {
            for count in place + 1..=8 {
                let pair = Class::any(rng);
                let (mut alphas, mut accs) = (residues(rng, count), residues(rng, count));
                alphas[place] = word;
                let (with, outcome) = self.fold(Call::from(&pair), &alphas, &accs);
                self.tally.note("alphas", with, outcome);
                alphas[place] = 0;
                accs[place] = word;
                let (with, outcome) = self.fold(Call::from(&pair), &alphas, &accs);
                self.tally.note("accumulators", with, outcome);
            }
        }
    }

    /// Compares every set of faults: one bit for each number of a call for values, one for the
    /// count, one for an alpha.
    fn fold_sets(&mut self, rng: &mut Rng) {
        for set in 0u64..1 << 8 {
            let mut inputs = Inputs::from(&Class::any(rng));
            inputs.spoil(rng, set % 64);
            let mut alphas = residues(rng, 3);
            if set >> 6 & 1 == 1 {
                alphas[rng.below(3)] = P;
            }
            let accs = residues(rng, if set >> 7 == 1 { 2 } else { 3 });
            let (with, outcome) = self.fold(inputs.call(), &alphas, &accs);
            self.tally.note("sets of faults, folded", with, outcome);
        }
    }

    /// Compares one fold, of which a refused call may alter nothing, and says with what.
    fn fold(&self, call: Call, alphas: &[u64], accs: &[u64]) -> (With, Result<(), String>) {
        let due = match model::pair_fold(self.rust, call, alphas, accs) {
            Ok(folded) => (0, folded),
            Err(number) => (number, accs.to_vec()),
        };
        let mut found = accs.to_vec();
        let number = self.entries.pair_fold(call, alphas, &mut found);
        let with = With::answer(due.0);
        let told = |difference| format!("{difference}\n{call:?}\n{alphas:?}\n{accs:?}");
        (with, same((number, found), due).map_err(told))
    }
}

fn residues(rng: &mut Rng, count: usize) -> Vec<u64> {
    (0..count).map(|_| rng.residue()).collect()
}
