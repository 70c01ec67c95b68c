//! Compares the values of pairs of every class.

use olavm::{Values, VALUES};
use pairs::{Class, Rng};
use tally::With;

use crate::comparison::seeds;
use crate::{calls, model, Call, Comparison};

/// The lengths of the buffer that are tried.
const BUFFERS: [usize; 2] = [VALUES, VALUES + 4];

impl Comparison<'_> {
    /// Compares the values of `count` pairs.
    pub(crate) fn values(&mut self, first_seed: u64, count: u64) {
        for seed in seeds(first_seed, count) {
            let class = Class::in_turn(seed);
            let mut rng = Rng::new(seed);
            let pair = class.draw(&mut rng);
            let call = Call::from(&pair);
            let buffer = rng.pick(&BUFFERS);
            let expected = model::pair_values(self.rust, call, buffer);
            let outcome = is_kept_as_meant(class, &expected)
                .and_then(|()| calls::compare(self.entries, call, &expected, buffer, &mut rng))
                .map_err(|difference| format!("seed {seed}: {difference}\n{call:?}"));
            let with = With::answer(expected.err().unwrap_or(0));
            self.tally.note(&format!("pairs, {class}"), with, outcome);
        }
    }
}

/// A pair that is made to keep every rule has to have only values that are 0.
fn is_kept_as_meant(class: Class, expected: &Result<Values, u64>) -> Result<(), String> {
    match (class, expected) {
        (Class::Kept(_) | Class::Run, Ok(values)) if values.iter().any(|v| *v != 0) => {
            Err("the Rust does not find this pair kept".into())
        }
        _ => Ok(()),
    }
}
