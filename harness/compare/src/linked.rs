//! The exported functions of the linked library.

use felmugo::flat::{self, FelmugoConsumer, FelmugoOutcome};
use felmugo::flat::{FelmugoReport, FelmugoResidue, FelmugoSigned, FelmugoVerdict};
use olavm::Form;

use crate::{Call, Entries, Rows, Yielded};

/// The linked library.
pub struct Linked;

impl Entries for Linked {
    fn add(&self, a: u64, b: u64) -> FelmugoResidue {
        flat::add(a, b)
    }

    fn sub(&self, a: u64, b: u64) -> FelmugoResidue {
        flat::sub(a, b)
    }

    fn mul(&self, a: u64, b: u64) -> FelmugoResidue {
        flat::mul(a, b)
    }

    fn signed(&self, residue: u64) -> FelmugoSigned {
        flat::signed(residue)
    }

    fn unsigned(&self, value: i64) -> FelmugoResidue {
        flat::unsigned(value)
    }

    fn pair_values(&self, call: Call, out: &mut [u64]) -> u64 {
        let Call { masks, lv, nv, .. } = call;
        flat::pair_values(masks, lv, nv, call.z_last, call.lagrange_basis_first, out)
    }

    fn pair_fold(&self, call: Call, alphas: &[u64], accs: &mut [u64]) -> u64 {
        let Call { masks, lv, nv, .. } = call;
        let (z_last, lagrange_basis_first) = (call.z_last, call.lagrange_basis_first);
        flat::pair_fold(masks, lv, nv, z_last, lagrange_basis_first, alphas, accs)
    }

    fn pair_judge(&self, call: Call) -> FelmugoVerdict {
        flat::pair_judge(
            call.masks,
            call.lv,
            call.nv,
            call.is_first(),
            call.is_last(),
        )
    }

    fn run_report(&self, run: &[u64], masks: &[u64]) -> FelmugoReport {
        flat::run_report(run, masks)
    }

    fn consumer_new(&self, alphas: &[u64], accs: &[u64], weights: [u64; 3]) -> FelmugoOutcome {
        let [z_last, lagrange_basis_first, lagrange_basis_last] = weights;
        flat::consumer_new(
            alphas,
            accs,
            z_last,
            lagrange_basis_first,
            lagrange_basis_last,
        )
    }

    fn consumer_fold(&self, consumer: &mut FelmugoConsumer, yielded: Yielded) -> u64 {
        let (form, value) = match yielded {
            Yielded::Value(form, value) => (form, value),
            Yielded::Pair(Rows { masks, lv, nv }) => {
                return flat::consumer_pair(consumer, masks, lv, nv)
            }
        };
        match form {
            Form::Plain => flat::consumer_constraint(consumer, value),
            Form::Transition => flat::consumer_constraint_transition(consumer, value),
            Form::FirstRow => flat::consumer_constraint_first_row(consumer, value),
            Form::LastRow => flat::consumer_constraint_last_row(consumer, value),
        }
    }

    fn consumer_accumulators(&self, consumer: &FelmugoConsumer, out: &mut [u64]) -> u64 {
        flat::consumer_accumulators(consumer, out)
    }
}
