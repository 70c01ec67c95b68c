//! The functions that are compared, whoever answers them.

use felmugo::flat::{FelmugoConsumer, FelmugoOutcome};
use felmugo::flat::{FelmugoReport, FelmugoResidue, FelmugoSigned, FelmugoVerdict};
use olavm::{Form, Pair};

/// The inputs of a call for the values of a pair, of any lengths.
#[derive(Clone, Copy, Debug)]
#[allow(missing_docs)]
pub struct Call<'a> {
    pub masks: &'a [u64],
    pub lv: &'a [u64],
    pub nv: &'a [u64],
    pub z_last: u64,
    pub lagrange_basis_first: u64,
}

impl<'a> From<&'a Pair> for Call<'a> {
    fn from(pair: &'a Pair) -> Self {
        Self {
            masks: &pair.masks,
            lv: &pair.lv,
            nv: &pair.nv,
            z_last: pair.z_last,
            lagrange_basis_first: pair.lagrange_basis_first,
        }
    }
}

impl<'a> Call<'a> {
    /// The same without the weights.
    pub fn rows(self) -> Rows<'a> {
        let Self { masks, lv, nv, .. } = self;
        Rows { masks, lv, nv }
    }

    /// The current row is first in its run, as the weights tell.
    pub fn is_first(self) -> bool {
        self.lagrange_basis_first != 0
    }

    /// The current row is last in its run, as the weights tell.
    pub fn is_last(self) -> bool {
        self.z_last == 0
    }
}

/// The masks and rows of a pair, of any lengths.
#[derive(Clone, Copy, Debug)]
#[allow(missing_docs)]
pub struct Rows<'a> {
    pub masks: &'a [u64],
    pub lv: &'a [u64],
    pub nv: &'a [u64],
}

/// What is folded into a consumer: a value in one of its forms, or the values of a pair, which have
/// the consumer's weights.
#[derive(Clone, Copy, Debug)]
#[allow(missing_docs)]
pub enum Yielded<'a> {
    Value(Form, u64),
    Pair(Rows<'a>),
}

/// The exported functions.
pub trait Entries {
    /// `a + b` modulo p.
    fn add(&self, a: u64, b: u64) -> FelmugoResidue;
    /// `a − b` modulo p.
    fn sub(&self, a: u64, b: u64) -> FelmugoResidue;
    /// `a · b` modulo p.
    fn mul(&self, a: u64, b: u64) -> FelmugoResidue;
    /// The signed form of a residue.
    fn signed(&self, residue: u64) -> FelmugoSigned;
    /// The residue of a signed number.
    fn unsigned(&self, value: i64) -> FelmugoResidue;
    /// Writes the values of a pair to `out`; the answer is 0 or the refusal's number.
    fn pair_values(&self, call: Call, out: &mut [u64]) -> u64;
    /// Folds the values of a pair into the accumulators; the answer is 0 or the refusal's number.
    fn pair_fold(&self, call: Call, alphas: &[u64], accs: &mut [u64]) -> u64;
    /// Judges a pair, for a row that is first and last as the call's weights tell.
    fn pair_judge(&self, call: Call) -> FelmugoVerdict;
    /// Reports on a run.
    fn run_report(&self, run: &[u64], masks: &[u64]) -> FelmugoReport;
    /// Makes a consumer of the weights `z_last`, `lagrange_basis_first` and `lagrange_basis_last`.
    fn consumer_new(&self, alphas: &[u64], accs: &[u64], weights: [u64; 3]) -> FelmugoOutcome;
    /// Folds into a consumer by the function for what is yielded; the answer is 0 or the refusal's
    /// number.
    fn consumer_fold(&self, consumer: &mut FelmugoConsumer, yielded: Yielded) -> u64;
    /// Writes a consumer's accumulators to `out`; the answer is 0 or the refusal's number.
    fn consumer_accumulators(&self, consumer: &FelmugoConsumer, out: &mut [u64]) -> u64;
}
