//! The answers of the listed Rust.

use std::marker::PhantomData;

use core::vm::opcodes::supply_masks;
use fields::{Plain, Residue};
use plonky2::field::{packed::PackedField, types::Field};

use crate::consumer::call;
pub use crate::consumer::Consumer;
use crate::cpu::{columns::get_cpu_col_name_map, cpu_stark::CpuStark};
use crate::recording::{recorded, Recording};
use crate::stark::{
    constraint_consumer::ConstraintConsumer, stark::Stark, vars::StarkEvaluationVars,
};
use crate::{Form, Masks, Pair, Values, COLUMNS};

/// The listed Rust, `eval_packed_generic` of `CpuStark` with one lane over the base field.
#[derive(Clone, Copy, Debug)]
pub struct Reference(());

impl Reference {
    /// The listed Rust, if its source was there when this was built.
    pub fn find() -> Option<Self> {
        Some(Self(()))
    }

    /// The values of a pair, each with its weight applied.
    pub fn values(self, pair: &Pair) -> Values {
        self.values_over::<Plain>(pair)
    }

    /// The same, computed over the field `F`.
    pub fn values_over<F: Residue>(self, pair: &Pair) -> Values {
        let of = |n| Recording(F::from_canonical_u64(n));
        let mut consumer = ConstraintConsumer::new(
            vec![F::ZERO],
            of(pair.z_last),
            of(pair.lagrange_basis_first),
            Recording::ZEROS,
        );
        let (lv, nv) = (pair.lv.map(of), pair.nv.map(of));
        recorded(|| evaluate(&pair.masks, [&lv, &nv], &mut consumer))
    }

    /// What the values of a pair, folded over the field `F`, make of each alpha's accumulator.
    pub fn fold<F: Residue>(self, pair: &Pair, alphas: &[u64], accs: &[u64]) -> Vec<u64> {
        let of = F::from_canonical_u64;
        let alphas: Vec<F> = alphas.iter().copied().map(of).collect();
        let accs: Vec<F> = accs.iter().copied().map(of).collect();
        let folded = self.fold_rows(
            &pair.masks,
            [&pair.lv.map(of), &pair.nv.map(of)],
            [of(pair.z_last), of(pair.lagrange_basis_first), F::ZERO],
            &alphas,
            Some(&accs),
        );
        folded.into_iter().map(F::canonical).collect()
    }

    /// The same with everything but the masks given as elements of any field: the rows are the
    /// current and the next, the weights `z_last`, `lagrange_basis_first` and
    /// `lagrange_basis_last`. Where no accumulators are given, they start from what the Rust's
    /// `new` gives them.
    pub fn fold_rows<F: Field>(
        self,
        masks: &Masks,
        rows: [&[F; COLUMNS]; 2],
        weights: [F; 3],
        alphas: &[F],
        accs: Option<&[F]>,
    ) -> Vec<F> {
        let mut consumer = new_consumer(weights, alphas);
        if let Some(accs) = accs {
            consumer.constraint_accs.copy_from_slice(accs);
        }
        evaluate(masks, rows, &mut consumer);
        consumer.accumulators()
    }

    /// What each of the consumer's calls makes of the accumulators, given one value, in the order
    /// of the forms.
    pub fn consumer_calls<F: Field>(
        self,
        weights: [F; 3],
        alphas: &[F],
        accs: &[F],
        value: F,
    ) -> [Vec<F>; 4] {
        Form::ALL.map(|form| {
            let mut consumer = new_consumer(weights, alphas);
            consumer.constraint_accs.copy_from_slice(accs);
            call(form)(&mut consumer, value);
            consumer.accumulators()
        })
    }

    /// The names that the listed `columns.rs` gives to the columns, in their order.
    pub fn column_names(self) -> Vec<String> {
        get_cpu_col_name_map().into_values().collect()
    }
}

pub(crate) fn new_consumer<F: Field>(
    [z_last, lagrange_basis_first, lagrange_basis_last]: [F; 3],
    alphas: &[F],
) -> ConstraintConsumer<F> {
    ConstraintConsumer::new(
        alphas.to_vec(),
        z_last,
        lagrange_basis_first,
        lagrange_basis_last,
    )
}

pub(crate) fn evaluate<F: Field, P: PackedField<Scalar = F>>(
    masks: &Masks,
    [lv, nv]: [&[P; COLUMNS]; 2],
    consumer: &mut ConstraintConsumer<P>,
) {
    supply_masks(masks);
    let vars = StarkEvaluationVars {
        local_values: lv,
        next_values: nv,
    };
    CpuStark::<F, 1> { f: PhantomData }.eval_packed_generic::<F, P, 1>(vars, consumer);
}
