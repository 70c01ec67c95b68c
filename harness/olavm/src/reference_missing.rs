//! The answers where there is no source: none.

use fields::Residue;
use plonky2::field::types::Field;

use crate::{Form, Masks, Pair, Row, Values, COLUMNS};

/// The listed Rust; without its source no value of this type exists.
#[derive(Clone, Copy, Debug)]
pub enum Reference {}

impl Reference {
    /// Nothing: the source was not there when this was built.
    pub fn find() -> Option<Self> {
        None
    }

    /// Never run.
    pub fn values(self, _pair: &Pair) -> Values {
        match self {}
    }

    /// Never run.
    pub fn values_over<F: Residue>(self, _pair: &Pair) -> Values {
        match self {}
    }

    /// Never run.
    pub fn fold<F: Residue>(self, _pair: &Pair, _alphas: &[u64], _accs: &[u64]) -> Vec<u64> {
        match self {}
    }

    /// Never run.
    pub fn fold_rows<F: Field>(
        self,
        _masks: &Masks,
        _rows: [&[F; COLUMNS]; 2],
        _weights: [F; 3],
        _alphas: &[F],
        _accs: Option<&[F]>,
    ) -> Vec<F> {
        match self {}
    }

    /// Never run.
    pub fn consumer_calls<F: Field>(
        self,
        _weights: [F; 3],
        _alphas: &[F],
        _accs: &[F],
        _value: F,
    ) -> [Vec<F>; 4] {
        match self {}
    }

    /// Never run.
    pub fn consumer(self, _weights: [u64; 3], _alphas: &[u64], _accs: &[u64]) -> Consumer {
        match self {}
    }

    /// Never run.
    pub fn column_names(self) -> Vec<String> {
        match self {}
    }
}

/// The listed consumer; without its source no value of this type exists.
pub struct Consumer(Reference);

impl Consumer {
    /// Never run.
    pub fn yield_value(&mut self, _form: Form, _value: u64) {
        match self.0 {}
    }

    /// Never run.
    pub fn yield_pair(&mut self, _masks: &Masks, _lv: &Row, _nv: &Row) {
        match self.0 {}
    }

    /// Never run.
    pub fn folded(&self) -> Vec<u64> {
        match self.0 {}
    }

    /// Never run.
    pub fn accumulators(self) -> Vec<u64> {
        match self.0 {}
    }
}
