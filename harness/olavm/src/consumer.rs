//! The listed consumer, to which values are yielded from without.

use fields::{Plain, Residue};
use plonky2::field::types::Field;

use crate::reference::{evaluate, new_consumer};
use crate::stark::constraint_consumer::ConstraintConsumer;
use crate::{Form, Masks, Reference, Row};

/// The listed `ConstraintConsumer` with one lane over the base field, and accumulators that were
/// lent to it.
pub struct Consumer(ConstraintConsumer<Plain>);

impl Reference {
    /// A consumer of the weights `z_last`, `lagrange_basis_first` and `lagrange_basis_last`.
    pub fn consumer(self, weights: [u64; 3], alphas: &[u64], accs: &[u64]) -> Consumer {
        let mut consumer = new_consumer(weights.map(of), &all(alphas));
        consumer.constraint_accs.copy_from_slice(&all(accs));
        Consumer(consumer)
    }
}

impl Consumer {
    /// Yields a value by the call of its form.
    pub fn yield_value(&mut self, form: Form, value: u64) {
        call(form)(&mut self.0, of(value));
    }

    /// Yields the values of a pair, by the evaluation of the table.
    pub fn yield_pair(&mut self, masks: &Masks, lv: &Row, nv: &Row) {
        evaluate(masks, [&lv.map(of), &nv.map(of)], &mut self.0);
    }

    /// What the accumulators are by now.
    pub fn folded(&self) -> Vec<u64> {
        canonical(&self.0.constraint_accs)
    }

    /// What the Rust's `accumulators` hands over at the end.
    pub fn accumulators(self) -> Vec<u64> {
        canonical(&self.0.accumulators())
    }
}

/// The consumer's call for a form.
pub(crate) fn call<F: Field>(form: Form) -> fn(&mut ConstraintConsumer<F>, F) {
    match form {
        Form::Plain => ConstraintConsumer::constraint,
        Form::Transition => ConstraintConsumer::constraint_transition,
        Form::FirstRow => ConstraintConsumer::constraint_first_row,
        Form::LastRow => ConstraintConsumer::constraint_last_row,
    }
}

fn of(n: u64) -> Plain {
    Plain::from_canonical_u64(n)
}

fn all(numbers: &[u64]) -> Vec<Plain> {
    numbers.iter().copied().map(of).collect()
}

fn canonical(elements: &[Plain]) -> Vec<u64> {
    elements.iter().copied().map(Plain::canonical).collect()
}
