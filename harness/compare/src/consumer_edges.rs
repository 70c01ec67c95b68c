//! Compares calls of a consumer at the edges: counts, contents, the greatest count of values, and
//! calls with one fault or several.

use fields::P;
use olavm::{Form, VALUES};
use pairs::{cells, Class, Rng};
use tally::With;

use crate::consumers::numbers;
use crate::faults::{not_canonical, Inputs, LIMITS};
use crate::model::{self, MAX_FOLDED};
use crate::{Comparison, FelmugoConsumer, Yielded};

/// More places than a consumer has.
const MANY: usize = 10;

/// Counts of places that no consumer has; the bytes of some wrap.
const COUNTS: [usize; 5] = [0, 9, 1 << 61, (1 << 61) + 1, usize::MAX];

/// Counts of values about the greatest, for one value and for a pair's, and where a sum would wrap.
const FOLDED: [u64; 11] = [
    0,
    MAX_FOLDED - PAIR - 1,
    MAX_FOLDED - PAIR,
    MAX_FOLDED - PAIR + 1,
    MAX_FOLDED - 1,
    MAX_FOLDED,
    MAX_FOLDED + 1,
    u64::MAX - PAIR,
    u64::MAX - PAIR + 1,
    u64::MAX - 1,
    u64::MAX,
];

/// The values of a pair.
const PAIR: u64 = VALUES as u64;

/// The numbers beside 9 that a pair folded into a consumer may be refused with.
const NUMBERS: [u64; 6] = [1, 2, 4, 5, 6, 7];

impl Comparison<'_> {
    /// Tries every count of places, every content at every place, and `rounds` times every set of
    /// faults at each count of values.
    pub(crate) fn consumer_refusals(&mut self, seed: u64, rounds: u64) {
        let mut rng = Rng::new(seed);
        self.made_counts(&mut rng);
        self.counts_of_places(&mut rng);
        for word in LIMITS {
            for count in 1..=8 {
                self.made_words(&mut rng, count, word);
                self.words(&mut rng, count, word);
            }
        }
        for _ in 0..rounds {
            for folded in FOLDED {
                self.consumer_sets(&mut rng, folded);
            }
        }
    }

    /// Compares the making of consumers of every two counts, with a fault of 7 and without.
    fn made_counts(&mut self, rng: &mut Rng) {
        for alphas in 0..=MANY {
            for accs in 0..=MANY {
                let (alphas, accs) = (numbers(rng, alphas), numbers(rng, accs));
                for z_last in [cells::any(rng), P] {
                    let weights = [z_last, cells::any(rng), cells::any(rng)];
                    self.consumer_made("consumers made, counts", &alphas, &accs, weights);
                }
            }
        }
    }

    /// Compares the making of consumers of which one place, or one weight, is `word`.
    fn made_words(&mut self, rng: &mut Rng, count: usize, word: u64) {
        let class = "consumers made, contents";
        let (alphas, accs) = (numbers(rng, count), numbers(rng, count));
        let weights = [0; 3].map(|_| cells::any(rng));
        for place in 0..count {
            self.consumer_made(class, &altered(&alphas, place, word), &accs, weights);
            self.consumer_made(class, &alphas, &altered(&accs, place, word), weights);
        }
        for place in 0..weights.len() {
            let mut weights = weights;
            weights[place] = word;
            self.consumer_made(class, &alphas, &accs, weights);
        }
    }

    /// Compares every call of a consumer with a count of places, and buffers of every length.
    fn counts_of_places(&mut self, rng: &mut Rng) {
        let class = "consumers, counts of places";
        for count in (0..=MANY).chain(COUNTS) {
            for folded in [0, MAX_FOLDED + 1] {
                let record = FelmugoConsumer {
                    folded,
                    ..record(rng, count)
                };
                self.every_fold(class, rng, record);
                for length in 0..=MANY {
                    self.accumulators(class, record, length);
                }
                let record = FelmugoConsumer {
                    z_last: P,
                    ..record
                };
                self.every_fold(class, rng, record);
                for length in 0..=MANY {
                    self.accumulators(class, record, length);
                }
            }
        }
    }

    /// Compares every call of a consumer of which one place, in use or past the count, or one
    /// weight is `word`, and of a value that is.
    fn words(&mut self, rng: &mut Rng, count: usize, word: u64) {
        let drawn = record(rng, count);
        let alter: [fn(&mut FelmugoConsumer, usize, u64); 5] = [
            |record, place, word| record.alphas[place] = word,
            |record, place, word| record.constraint_accs[place] = word,
            |record, _, word| record.z_last = word,
            |record, _, word| record.lagrange_basis_first = word,
            |record, _, word| record.lagrange_basis_last = word,
        ];
        let class = "consumers, contents";
        for alter in alter {
            for place in 0..8 {
                let mut record = drawn;
                alter(&mut record, place, word);
                self.every_fold(class, rng, record);
                self.accumulators(class, record, count);
            }
        }
        for form in Form::ALL {
            self.fold_into(class, drawn, Yielded::Value(form, word));
        }
    }

    /// Compares every set of faults at a count of values: for a pair one bit for each of `NUMBERS`,
    /// for a value of each form only those of 4 and 7.
    fn consumer_sets(&mut self, rng: &mut Rng, folded: u64) {
        let class = "consumers, sets of faults";
        for set in 0u64..1 << NUMBERS.len() {
            let mut inputs = Inputs::from(&Class::any(rng));
            let mut record = one(rng, folded);
            // Contents come first, while the lengths are right.
            for (i, number) in NUMBERS.into_iter().enumerate().rev() {
                match number {
                    _ if set >> i & 1 == 0 => {}
                    4 | 7 => spoil(rng, &mut record, number),
                    _ => inputs.spoil_one(rng, number),
                }
            }
            self.fold_into(class, record, Yielded::Pair(inputs.call().rows()));
        }
        for form in Form::ALL {
            for numbers in [&[][..], &[4], &[7], &[7, 4]] {
                let mut record = one(rng, folded);
                numbers
                    .iter()
                    .for_each(|number| spoil(rng, &mut record, *number));
                self.fold_into(class, record, Yielded::Value(form, cells::any(rng)));
                self.fold_into(class, record, Yielded::Value(form, not_canonical(rng)));
                self.accumulators(class, record, record.count.min(MANY));
            }
        }
    }

    /// Compares all that folds into a consumer.
    fn every_fold(&mut self, class: &str, rng: &mut Rng, record: FelmugoConsumer) {
        for form in Form::ALL {
            self.fold_into(class, record, Yielded::Value(form, cells::any(rng)));
        }
        let inputs = Inputs::from(&Class::any(rng));
        self.fold_into(class, record, Yielded::Pair(inputs.call().rows()));
    }

    /// Compares a fold with what the model says of it.
    fn fold_into(&mut self, class: &str, record: FelmugoConsumer, yielded: Yielded) {
        let due = model::consumer_fold(self.rust, record, yielded);
        self.folded(class, record, yielded, due);
    }

    /// Compares the accumulators that are handed over to a buffer of a length.
    fn accumulators(&mut self, class: &str, record: FelmugoConsumer, length: usize) {
        let due = model::consumer_accumulators(&record, length);
        self.handed_over(class, With::TheHarness, &record, length, due);
    }
}

/// The numbers with another at a place.
fn altered(numbers: &[u64], place: usize, word: u64) -> Vec<u64> {
    let mut numbers = numbers.to_vec();
    numbers[place] = word;
    numbers
}

/// A consumer that may be called, but for its count; past that nothing is canonical.
fn record(rng: &mut Rng, count: usize) -> FelmugoConsumer {
    let mut place = |i| match i < count {
        true => cells::any(rng),
        false => not_canonical(rng),
    };
    FelmugoConsumer {
        alphas: std::array::from_fn(&mut place),
        constraint_accs: std::array::from_fn(&mut place),
        count,
        z_last: cells::any(rng),
        lagrange_basis_first: cells::any(rng),
        lagrange_basis_last: cells::any(rng),
        folded: 0,
    }
}

/// A consumer that may be called, with a count of values.
fn one(rng: &mut Rng, folded: u64) -> FelmugoConsumer {
    let count = 1 + rng.below(8);
    FelmugoConsumer {
        folded,
        ..record(rng, count)
    }
}

/// Makes the condition of 4 or 7 hold; 7 has to come first.
fn spoil(rng: &mut Rng, record: &mut FelmugoConsumer, number: u64) {
    let not_canonical = not_canonical(rng);
    let place = rng.below(record.count.clamp(1, 8));
    match (number, rng.below(5)) {
        (4, _) => record.count = rng.pick(&COUNTS),
        (_, 0) => record.alphas[place] = not_canonical,
        (_, 1) => record.constraint_accs[place] = not_canonical,
        (_, 2) => record.z_last = not_canonical,
        (_, 3) => record.lagrange_basis_first = not_canonical,
        _ => record.lagrange_basis_last = not_canonical,
    }
}
