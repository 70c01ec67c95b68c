//! Compares sequences of calls of a consumer with the listed Rust's consumer, to which the same is
//! yielded.

use olavm::{Consumer, Form};
use pairs::{cells, Class, Rng};
use tally::{same, With};

use crate::comparison::seeds;
use crate::faults::{not_canonical, Inputs};
use crate::model::{self, MAX_FOLDED};
use crate::{Comparison, FelmugoConsumer, Yielded};

/// A sequence has fewer calls than this.
const CALLS: usize = 24;

/// About so many values may be left before the greatest count, where a sequence is to meet it.
const LEFT: usize = 800;

/// The faults of a pair that are no matter of the consumer: 1, 2, 5 and 6, as `Inputs` has them.
const OF_PAIR: u64 = 0b01_1011;

/// What is yielded next.
enum Drawn {
    Value(Form, u64),
    Pair(Inputs),
}

impl Comparison<'_> {
    /// Compares `count` consumers and what is yielded to them.
    pub(crate) fn consumers(&mut self, first_seed: u64, count: u64) {
        for seed in seeds(first_seed, count) {
            let mut rng = Rng::new(seed);
            let made = self.made(&mut rng);
            let record = handed_in(&mut rng, made);
            let mut theirs = model::lend(self.rust, &record);
            let mut last = record;
            for _ in 0..rng.below(CALLS) {
                last = self.yielded(&mut rng, last, &mut theirs);
            }
            let accs = theirs.accumulators();
            let class = "consumers, at the end";
            self.handed_over(class, With::TheRust, &last, last.count, Ok(accs));
        }
    }

    /// Makes a consumer, as its call has to.
    fn made(&mut self, rng: &mut Rng) -> FelmugoConsumer {
        let count = 1 + rng.below(8);
        let (alphas, accs) = (numbers(rng, count), numbers(rng, count));
        let weights = std::array::from_fn(|_| cells::any(rng));
        self.consumer_made("consumers, made", &alphas, &accs, weights);
        model::consumer_new(&alphas, &accs, weights).consumer
    }

    /// Compares one call with the Rust's consumer, and gives the record that it has to leave.
    fn yielded(
        &mut self,
        rng: &mut Rng,
        record: FelmugoConsumer,
        theirs: &mut Consumer,
    ) -> FelmugoConsumer {
        let drawn = Drawn::any(rng);
        let yielded = drawn.yielded();
        let number = model::consumer_refusal(&record, yielded);
        let mut due = record;
        if number == 0 {
            model::yield_to(theirs, yielded);
            due = model::left(record, yielded, &theirs.folded());
        }
        let class = match drawn {
            Drawn::Value(..) => "consumers, values",
            Drawn::Pair(_) => "consumers, pairs",
        };
        self.folded(class, record, yielded, (number, due));
        due
    }

    /// Compares what a fold answers and leaves. Demand 2 leaves out the count and number 9, which
    /// the harness says alone: the count is tallied by itself, as a refusal is.
    pub(crate) fn folded(
        &mut self,
        class: &str,
        record: FelmugoConsumer,
        yielded: Yielded,
        due: (u64, FelmugoConsumer),
    ) {
        let mut found = record;
        let number = self.entries.consumer_fold(&mut found, yielded);
        let (due_number, due) = due;
        let told = |difference| format!("{difference}\n{record:?}\n{yielded:?}");
        let outcome = same((number, uncounted(found)), (due_number, uncounted(due)));
        let with = With::answer(due_number);
        self.tally.note(class, with, outcome.map_err(told));
        let outcome = same(found.folded, due.folded);
        self.tally
            .note("consumers, counts", With::TheHarness, outcome.map_err(told));
    }

    /// Compares the making of a consumer.
    pub(crate) fn consumer_made(
        &mut self,
        class: &str,
        alphas: &[u64],
        accs: &[u64],
        weights: [u64; 3],
    ) {
        let due = model::consumer_new(alphas, accs, weights);
        let outcome = same(self.entries.consumer_new(alphas, accs, weights), due);
        let told = |difference| format!("{difference}\n{alphas:?}\n{accs:?}\n{weights:?}");
        self.tally
            .note(class, With::TheHarness, outcome.map_err(told));
    }

    /// Compares what is handed over to a buffer of a length, which a refusal leaves as it was.
    pub(crate) fn handed_over(
        &mut self,
        class: &str,
        with: With,
        record: &FelmugoConsumer,
        length: usize,
        due: Result<Vec<u64>, u64>,
    ) {
        let mut found = vec![u64::MAX; length];
        let due = match due {
            Ok(accs) => (0, accs),
            Err(number) => (number, found.clone()),
        };
        let number = self.entries.consumer_accumulators(record, &mut found);
        let told = |difference| format!("{difference}\n{record:?}");
        self.tally
            .note(class, with, same((number, found), due).map_err(told));
    }
}

impl Drawn {
    /// A value that is mostly canonical, or a pair that is mostly accepted.
    fn any(rng: &mut Rng) -> Self {
        if rng.one_in(4) {
            let mut inputs = Inputs::from(&Class::any(rng));
            if rng.one_in(4) {
                let set = rng.word() & OF_PAIR;
                inputs.spoil(rng, set);
            }
            return Self::Pair(inputs);
        }
        let value = match rng.one_in(8) {
            true => not_canonical(rng),
            false => cells::any(rng),
        };
        Self::Value(rng.pick(&Form::ALL), value)
    }

    fn yielded(&self) -> Yielded<'_> {
        match self {
            Self::Value(form, value) => Yielded::Value(*form, *value),
            Self::Pair(inputs) => Yielded::Pair(inputs.call().rows()),
        }
    }
}

/// A consumer as it was made, or as it may be handed in later: other words stand past its count,
/// and its count of values is about the greatest.
fn handed_in(rng: &mut Rng, mut record: FelmugoConsumer) -> FelmugoConsumer {
    if rng.one_in(3) {
        record.alphas[record.count..].fill_with(|| not_canonical(rng));
        record.constraint_accs[record.count..].fill_with(|| not_canonical(rng));
    }
    if rng.one_in(3) {
        let left = rng.pick(&[4, LEFT]);
        record.folded = MAX_FOLDED - rng.below(left) as u64;
    }
    record
}

/// Residues of any sort.
pub(crate) fn numbers(rng: &mut Rng, count: usize) -> Vec<u64> {
    (0..count).map(|_| cells::any(rng)).collect()
}

/// A record without its count of values.
fn uncounted(record: FelmugoConsumer) -> FelmugoConsumer {
    FelmugoConsumer {
        folded: 0,
        ..record
    }
}
