//! Compares calls with one fault or several.

use olavm::{COLUMNS, MASKS, VALUES};
use pairs::{Class, Rng};
use tally::{same, With};

use crate::faults::{Inputs, LIMITS, NUMBERS};
use crate::{calls, model, Comparison};

impl Comparison<'_> {
    /// Tries every length, every content at every place and every two equal masks, then
    /// `rounds` times every set of faults.
    pub(crate) fn refusals(&mut self, seed: u64, rounds: u64) {
        let mut rng = Rng::new(seed);
        let mut attempt = |class: &str, spoil: &dyn Fn(&mut Inputs, &mut Rng)| {
            let mut inputs = Inputs::from(&Class::any(&mut rng));
            spoil(&mut inputs, &mut rng);
            self.attempt(class, &inputs, &mut rng);
        };

        for length in 0..=2 * COLUMNS {
            attempt("row lengths", &|inputs, _| inputs.lv.resize(length, 0));
            attempt("row lengths", &|inputs, _| inputs.nv.resize(length, 0));
        }
        for length in 0..=2 * MASKS {
            attempt("mask counts", &|inputs, _| inputs.masks.resize(length, 0));
        }
        for length in 0..=VALUES + 4 {
            attempt("buffer lengths", &|inputs, _| inputs.buffer = length);
        }
        for word in LIMITS {
            for place in 0..COLUMNS {
                attempt("row contents", &|inputs, _| inputs.lv[place] = word);
                attempt("row contents", &|inputs, _| inputs.nv[place] = word);
            }
            for place in 0..MASKS {
                attempt("mask contents", &|inputs, _| inputs.masks[place] = word);
            }
            attempt("weights", &|inputs, _| inputs.z_last = word);
            attempt("weights", &|inputs, _| inputs.lagrange_basis_first = word);
        }
        for place in 0..MASKS {
            for other in 0..place {
                attempt("equal masks", &|inputs, _| {
                    inputs.masks[place] = inputs.masks[other];
                });
            }
        }
        for _ in 0..rounds {
            for set in 0u64..1 << NUMBERS.len() {
                attempt("sets of faults", &|inputs, rng| inputs.spoil(rng, set));
            }
        }
    }

    /// Compares a call for values and the verdict on the same inputs.
    fn attempt(&mut self, class: &str, inputs: &Inputs, rng: &mut Rng) {
        let (call, buffer) = (inputs.call(), inputs.buffer);
        let told = |difference| format!("{difference}\n{inputs:?}");
        let expected = model::pair_values(self.rust, call, buffer);
        let outcome = calls::compare(self.entries, call, &expected, buffer, rng);
        let with = With::answer(expected.err().unwrap_or(0));
        self.tally.note(class, with, outcome.map_err(told));
        let expected = model::pair_judge(self.rust, call);
        let outcome = same(self.entries.pair_judge(call), expected);
        let class = format!("{class}, judged");
        let with = With::answer(expected.number);
        self.tally.note(&class, with, outcome.map_err(told));
    }
}
