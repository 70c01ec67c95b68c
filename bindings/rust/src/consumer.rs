//! The consumer that takes constraint values one by one.

use crate::flat::{self, FelmugoConsumer};
use crate::Refusal;

/// Alphas with an accumulator each, the three weights, and the count of the values folded since the
/// accumulators were lent.
///
/// A value that is yielded makes a · alpha + value · weight of each accumulator a. A pair's values
/// are yielded together, by [`pair`](Self::pair), all or none.
///
/// Its record ([`FelmugoConsumer`]) may be taken out, stored and handed in again. Every call tests
/// the record, whatever was handed in, and refuses by number; places past the count are neither
/// tested nor altered.
#[derive(Clone, Debug, PartialEq, Eq)]
pub struct ConstraintConsumer(FelmugoConsumer);

impl ConstraintConsumer {
    /// A consumer of the alphas and of accumulators to begin with, into which nothing is folded.
    ///
    /// Refuses, in this order:
    /// 1. alphas that are not 1 to 8, or accumulators that differ in count
    ///    ([`Refusal::AlphaCount`]);
    /// 2. a weight, an alpha or an accumulator not below p ([`Refusal::NotBelowP`]).
    pub fn new(
        alphas: &[u64],
        accs: &[u64],
        z_last: u64,
        lagrange_basis_first: u64,
        lagrange_basis_last: u64,
    ) -> Result<Self, Refusal> {
        flat::consumer_new(
            alphas,
            accs,
            z_last,
            lagrange_basis_first,
            lagrange_basis_last,
        )
        .into()
    }

    /// Folds a value that holds on every row: its weight is 1.
    ///
    /// Refuses, in this order:
    /// 1. a record whose count is not 1 to 8 ([`Refusal::AlphaCount`]);
    /// 2. a value, a weight, or an alpha or accumulator in use not below p
    ///    ([`Refusal::NotBelowP`]);
    /// 3. a value by which the count would pass [`MAX_FOLDED`](crate::MAX_FOLDED)
    ///    ([`Refusal::FoldCount`]).
    ///
    /// A refused call leaves the consumer as it was.
    pub fn constraint(&mut self, value: u64) -> Result<(), Refusal> {
        Refusal::or(flat::consumer_constraint(&mut self.0, value), ())
    }

    /// Folds a value that holds on every row but the last: its weight is `z_last`.
    ///
    /// Refuses as [`constraint`](Self::constraint) does.
    pub fn constraint_transition(&mut self, value: u64) -> Result<(), Refusal> {
        Refusal::or(flat::consumer_constraint_transition(&mut self.0, value), ())
    }

    /// Folds a value that holds on the first row: its weight is `lagrange_basis_first`.
    ///
    /// Refuses as [`constraint`](Self::constraint) does.
    pub fn constraint_first_row(&mut self, value: u64) -> Result<(), Refusal> {
        Refusal::or(flat::consumer_constraint_first_row(&mut self.0, value), ())
    }

    /// Folds a value that holds on the last row: its weight is `lagrange_basis_last`. None of the
    /// 226 values of a pair is of this kind.
    ///
    /// Refuses as [`constraint`](Self::constraint) does.
    pub fn constraint_last_row(&mut self, value: u64) -> Result<(), Refusal> {
        Refusal::or(flat::consumer_constraint_last_row(&mut self.0, value), ())
    }

    /// Folds the 226 values of the pair of rows `lv` (current) and `nv` (next), those of
    /// [`pair_values`](crate::pair_values) under this consumer's weights.
    ///
    /// Refuses, in this order:
    /// 1. a row that is not 94 values ([`Refusal::RowLength`]);
    /// 2. masks that are not 25 ([`Refusal::MaskCount`]);
    /// 3. a record whose count is not 1 to 8 ([`Refusal::AlphaCount`]);
    /// 4. a mask not below p, or two of the first five equal ([`Refusal::MaskContents`]);
    /// 5. a value of a row not below p ([`Refusal::RowContents`]);
    /// 6. a weight, or an alpha or accumulator in use not below p ([`Refusal::NotBelowP`]);
    /// 7. a pair by which the count would pass [`MAX_FOLDED`](crate::MAX_FOLDED)
    ///    ([`Refusal::FoldCount`]).
    ///
    /// A refused call folds none of them, and leaves the consumer as it was.
    pub fn pair(&mut self, masks: &[u64], lv: &[u64], nv: &[u64]) -> Result<(), Refusal> {
        Refusal::or(flat::consumer_pair(&mut self.0, masks, lv, nv), ())
    }

    /// Writes the accumulators to `out`, in the order of the alphas.
    ///
    /// Refuses, in this order:
    /// 1. a record whose count is not 1 to 8, or an `out` that differs in count
    ///    ([`Refusal::AlphaCount`]);
    /// 2. a weight, or an alpha or accumulator in use not below p ([`Refusal::NotBelowP`]).
    ///
    /// A refused call leaves `out` as it was.
    pub fn accumulators(&self, out: &mut [u64]) -> Result<(), Refusal> {
        Refusal::or(flat::consumer_accumulators(&self.0, out), ())
    }

    /// How many values were folded since the accumulators were lent.
    pub fn folded(&self) -> u64 {
        self.0.folded
    }

    /// How many alphas there are, each with its accumulator.
    pub fn count(&self) -> usize {
        self.0.count
    }
}

/// Takes any record; the calls test it.
impl From<FelmugoConsumer> for ConstraintConsumer {
    fn from(record: FelmugoConsumer) -> Self {
        Self(record)
    }
}

impl From<ConstraintConsumer> for FelmugoConsumer {
    fn from(consumer: ConstraintConsumer) -> Self {
        consumer.0
    }
}
