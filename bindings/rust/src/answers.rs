//! The answers in types.

use crate::flat::{FelmugoOutcome, FelmugoReport, FelmugoResidue, FelmugoSigned, FelmugoVerdict};
use crate::{ConstraintConsumer, Refusal};

/// What the judge says of a pair.
#[derive(Clone, Copy, Debug, PartialEq, Eq)]
pub enum Verdict {
    /// The pair keeps every rule for such a row.
    Keeps,
    /// It breaks at least one.
    Breaks,
}

/// The report of a run.
#[derive(Clone, Copy, Debug, PartialEq, Eq)]
pub struct Report {
    /// The pairs of the run, as many as its rows.
    pub pairs: u64,
    /// The pairs of which a value is not 0.
    pub failing: u64,
    /// The lowest failing pair and its lowest nonzero value, if a pair fails.
    pub spot: Option<Spot>,
}

/// A place in a run's values.
#[derive(Clone, Copy, Debug, PartialEq, Eq)]
pub struct Spot {
    /// The pair's index, counted from 0: rows `pair` and `pair + 1`; the last pair returns to row 0.
    pub pair: u64,
    /// The value's number, 1 to 226; docs/ROWS.md tells what each says.
    pub value: u64,
}

impl From<FelmugoResidue> for Result<u64, Refusal> {
    fn from(flat: FelmugoResidue) -> Self {
        Refusal::or(flat.number, flat.value)
    }
}

impl From<FelmugoSigned> for Result<i64, Refusal> {
    fn from(flat: FelmugoSigned) -> Self {
        Refusal::or(flat.number, flat.value)
    }
}

impl From<FelmugoVerdict> for Result<Verdict, Refusal> {
    fn from(flat: FelmugoVerdict) -> Self {
        let verdict = match flat.keeps {
            0 => Verdict::Breaks,
            _ => Verdict::Keeps,
        };
        Refusal::or(flat.number, verdict)
    }
}

impl From<FelmugoReport> for Result<Report, Refusal> {
    fn from(flat: FelmugoReport) -> Self {
        let spot = Spot {
            pair: flat.pair,
            value: flat.value,
        };
        let report = Report {
            pairs: flat.pairs,
            failing: flat.failing,
            spot: (flat.found != 0).then_some(spot),
        };
        Refusal::or(flat.number, report)
    }
}

impl From<FelmugoOutcome> for Result<ConstraintConsumer, Refusal> {
    fn from(flat: FelmugoOutcome) -> Self {
        Refusal::or(flat.number, flat.consumer.into())
    }
}
