//! Compares the reports on runs, and calls with one fault or several.

use fields::{Plain, Plonky2Style, Residue, P};
use olavm::{COLUMNS, MASKS};
use pairs::{Rng, Run, MAX_ROWS};
use tally::{same, With};

use crate::comparison::seeds;
use crate::faults::{not_canonical, spoil_masks, LIMITS, MASK_COUNTS};
use crate::{model, Comparison};

/// The least share of runs that are damaged so that a pair fails.
const LEAST_SHARE: u64 = 4;

/// The numbers that a call for a report may be refused with.
const NUMBERS: [u64; 4] = [1, 2, 5, 6];

impl Comparison<'_> {
    /// Compares the reports on `count` runs of 1 to `rows` rows, kept and damaged in turn.
    pub(crate) fn reports(&mut self, first_seed: u64, count: u64, rows: usize) {
        let mut failing = 0;
        for seed in seeds(first_seed, count) {
            let mut rng = Rng::new(seed);
            let most = rng.pick(&[1, 2, 3, 16, rows.min(256), rows]);
            let length = 1 + rng.below(most);
            let mut run = Run::draw(&mut rng, length);
            let is_damaged = seed % 2 == 1;
            if is_damaged {
                run.damage(&mut rng);
            }
            let class = if is_damaged { "damaged" } else { "kept" };
            let class = format!("runs, {class}");
            let found = self.report_over::<Plonky2Style>(&class, &run);
            failing += u64::from(found > 0);
            if !is_damaged {
                self.tally
                    .note("runs, kept as meant", With::TheHarness, same(found, 0));
            }
        }
        if count >= 100 {
            let told = || format!("{failing} of {count} runs have a failing pair");
            let outcome = (failing >= count / LEAST_SHARE)
                .then_some(())
                .ok_or_else(told);
            self.tally
                .note("runs, both reports", With::TheHarness, outcome);
        }
    }

    /// Compares calls that are spoiled: every length of a few rows, words at every place, masks
    /// of every count and with every fault, and `rounds` times every set of faults.
    pub(crate) fn report_refusals(&mut self, seed: u64, rounds: u64) {
        let mut rng = Rng::new(seed);
        let run = Run::draw(&mut rng, 3);
        let (words, masks) = (run.words(), run.masks.to_vec());
        for length in 0..=words.len() {
            self.report::<Plain>("run lengths", &words[..length], &masks);
        }
        for word in LIMITS {
            for place in 0..words.len() {
                let mut words = words.clone();
                words[place] = word;
                self.report::<Plain>("run contents", &words, &masks);
            }
            for place in 0..MASKS {
                let mut masks = masks.clone();
                masks[place] = word;
                self.report::<Plain>("run mask contents", &words, &masks);
            }
        }
        for count in 0..=2 * MASKS {
            let mut masks = masks.clone();
            masks.resize(count, 0);
            self.report::<Plain>("run mask counts", &words, &masks);
        }
        for place in 0..MASKS {
            for other in 0..place {
                let mut masks = masks.clone();
                masks[place] = masks[other];
                self.report::<Plain>("run equal masks", &words, &masks);
            }
        }
        for _ in 0..rounds {
            for set in 0u64..1 << NUMBERS.len() {
                self.report_set(&mut rng, set);
            }
        }
    }

    /// Compares a run with a set of faults; bit i stands for `NUMBERS[i]`.
    fn report_set(&mut self, rng: &mut Rng, set: u64) {
        let length = 1 + rng.below(4);
        let mut run = Run::draw(rng, length);
        run.damage(rng);
        let (mut words, mut masks) = (run.words(), run.masks.to_vec());
        // Contents come first, while the lengths are right.
        for (i, number) in NUMBERS.into_iter().enumerate().rev() {
            match number {
                _ if set >> i & 1 == 0 => {}
                1 => words.resize(words.len() - 1 - rng.below(COLUMNS - 1), 0),
                2 => masks.resize(rng.pick(&MASK_COUNTS), 0),
                5 => spoil_masks(rng, &mut masks),
                _ => {
                    let place = rng.below(words.len());
                    words[place] = not_canonical(rng);
                }
            }
        }
        self.report::<Plain>("sets of faults, reported", &words, &masks);
    }

    /// Compares runs of 65,536 rows and of one row or one value more or less.
    pub(crate) fn reports_at_the_limit(&mut self, seed: u64) {
        let class = "runs, 65,536 rows";
        let mut rng = Rng::new(seed);
        let mut run = Run::draw(&mut rng, MAX_ROWS);
        let found = self.report_over::<Plonky2Style>(class, &run);
        self.tally
            .note("runs, kept as meant", With::TheHarness, same(found, 0));
        let column = rng.below(COLUMNS);
        run.rows[MAX_ROWS - 1][column] = P - 1;
        self.report_over::<Plonky2Style>(class, &run);
        run.damage(&mut rng);
        self.report_over::<Plonky2Style>(class, &run);

        let (mut words, masks) = (run.words(), run.masks.to_vec());
        let whole = words.len();
        let last = words[whole - 1];
        words[whole - 1] = P;
        self.report::<Plonky2Style>(class, &words, &masks);
        words[whole - 1] = last;
        for length in [whole + 1, whole + COLUMNS, whole - 1] {
            words.resize(length, 0);
            self.report::<Plonky2Style>("run lengths", &words, &masks);
            self.report::<Plonky2Style>("run lengths", &words, &[]);
        }
    }

    /// Compares the report on a run; the answer is the number of its failing pairs.
    fn report_over<F: Residue>(&mut self, class: &str, run: &Run) -> u64 {
        self.report::<F>(class, &run.words(), &run.masks)
    }

    /// Compares the report on any numbers, over the field `F`.
    fn report<F: Residue>(&mut self, class: &str, run: &[u64], masks: &[u64]) -> u64 {
        let expected = model::run_report::<F>(self.rust, run, masks);
        let outcome = same(self.entries.run_report(run, masks), expected);
        let told = |difference| format!("{difference}, {} values", run.len());
        let with = With::answer(expected.number);
        self.tally.note(class, with, outcome.map_err(told));
        expected.failing
    }
}
