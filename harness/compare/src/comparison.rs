//! Who is compared with the listed Rust, and how much.

use olavm::Reference;
use tally::Tally;

use crate::Entries;

/// How much is compared.
#[derive(Clone, Copy, Debug)]
pub struct Amounts {
    /// Pairs of operands of the operations on residues.
    pub operands: u64,
    /// Residues, for the maps to the signed form and back.
    pub signed: u64,
    /// Rounds of every set of faults.
    pub rounds: u64,
    /// Pairs of rows, for values, for folds and for verdicts each.
    pub pairs: u64,
    /// Consumers, each with what is yielded to it.
    pub consumers: u64,
    /// Runs.
    pub runs: u64,
    /// The most rows of such a run.
    pub rows: usize,
    /// Whether runs at the limit of 65,536 rows are compared too.
    pub limits: bool,
}

/// A comparison under way. Each module has the methods for one family of functions.
pub struct Comparison<'a> {
    pub(crate) entries: &'a dyn Entries,
    pub(crate) rust: Reference,
    pub(crate) tally: Tally,
}

impl<'a> Comparison<'a> {
    /// Compares everything; each input follows from its seed, and the seeds from the first.
    pub fn everything(
        entries: &'a dyn Entries,
        rust: Reference,
        seed: u64,
        amounts: Amounts,
    ) -> Tally {
        let tally = Tally::default();
        let mut comparison = Self {
            entries,
            rust,
            tally,
        };
        comparison.residues(seed, amounts.operands);
        comparison.signed(seed, amounts.signed);
        comparison.refusals(seed, amounts.rounds);
        comparison.values(seed, amounts.pairs);
        comparison.fold_refusals(seed, amounts.rounds);
        comparison.folds(seed, amounts.pairs);
        comparison.consumer_refusals(seed, amounts.rounds);
        comparison.consumers(seed, amounts.consumers);
        comparison.verdicts(seed, amounts.pairs);
        comparison.report_refusals(seed, amounts.rounds);
        comparison.reports(seed, amounts.runs, amounts.rows);
        if amounts.limits {
            comparison.reports_at_the_limit(seed);
        }
        comparison.tally
    }
}

/// The seeds of a series, from the first on.
pub(crate) fn seeds(first: u64, count: u64) -> impl Iterator<Item = u64> {
    (0..count).map(move |n| first.wrapping_add(n))
}
