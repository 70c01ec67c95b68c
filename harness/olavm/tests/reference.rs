//! The answers of the listed Rust, by the recording lane and by ordinary ones.

use fields::{Plain, Plonky2Style, Residue, P};
use olavm::{Form, Pair, Reference, COLUMNS, MASKS, VALUES};
use pairs::{masks, Class, Rng};
use plonky2::field::types::Field;

/// The pair of zero rows that document 01 works out.
fn zero_pair() -> Pair {
    Pair {
        masks: masks::plain(),
        lv: [0; COLUMNS],
        nv: [0; COLUMNS],
        z_last: 0,
        lagrange_basis_first: 1,
    }
}

/// Pairs of every class, with some alphas and accumulators.
fn inputs() -> impl Iterator<Item = (Pair, Vec<u64>, Vec<u64>)> {
    (0..2000).map(|seed| {
        let mut rng = Rng::new(seed);
        let pair = Class::in_turn(seed).draw(&mut rng);
        let mut residues = |n: usize| (0..n).map(|_| rng.residue()).collect();
        let count = 1 + seed as usize % 8;
        (pair, residues(count), residues(count))
    })
}

fn fold(values: &[u64], alpha: u64, acc: u64) -> u64 {
    let of = Plain::from_canonical_u64;
    let folded = values
        .iter()
        .fold(of(acc), |acc, value| acc * of(alpha) + of(*value));
    folded.canonical()
}

#[test]
fn the_zero_row_has_two_values() {
    let Some(rust) = Reference::find() else {
        return;
    };
    let mut expected = [0; VALUES];
    expected[104 - 1] = 1;
    expected[148 - 1] = P - 1;
    assert_eq!(rust.values(&zero_pair()), expected);
}

#[test]
fn the_zero_row_folds_as_worked_out() {
    let Some(rust) = Reference::find() else {
        return;
    };
    let folded = rust.fold::<Plain>(&zero_pair(), &[0, 1, 2], &[0, 0, 0]);
    assert_eq!(folded, [0, 0, 18446673700603314177]);
}

/// The output of the gate's program edge_consumer is what the Rust's consumer leaves.
#[test]
fn the_lent_consumer_holds_what_the_rust_folds() {
    let Some(rust) = Reference::find() else {
        return;
    };
    let mut masks = [0; MASKS];
    masks[..5].copy_from_slice(&[0, 1, 2, 3, 4]);
    let pair = Pair {
        masks,
        lv: [7; COLUMNS],
        nv: [11; COLUMNS],
        z_last: 3,
        lagrange_basis_first: 2,
    };
    let folded = rust.fold::<Plain>(&pair, &[0, 1, P - 2], &[5, 6, P - 1]);
    let told = ["0 folds 5", "1 folds 6", "p - 2 folds p - 1"];
    let lines: String = std::iter::zip(told, folded)
        .map(|(told, acc)| format!("alpha {told} to {acc}, a consumer to {acc}\n"))
        .collect();
    let at_once: String = lines.lines().map(|line| format!("at once: {line}\n")).collect();
    let stored = include_str!("../../../crates/edge_consumer/stdout");
    assert!(stored.starts_with(&format!("three alphas: accepted\n{lines}{at_once}")));
}

#[test]
fn the_recorded_values_fold_to_what_an_ordinary_lane_folds() {
    let Some(rust) = Reference::find() else {
        return;
    };
    for (pair, alphas, accs) in inputs() {
        let values = rust.values(&pair);
        let folded: Vec<u64> = std::iter::zip(&alphas, &accs)
            .map(|(alpha, acc)| fold(&values, *alpha, *acc))
            .collect();
        assert_eq!(rust.fold::<Plain>(&pair, &alphas, &accs), folded);
    }
}

#[test]
fn both_fields_give_the_same_answers() {
    let Some(rust) = Reference::find() else {
        return;
    };
    for (pair, alphas, accs) in inputs() {
        assert_eq!(rust.values(&pair), rust.values_over::<Plonky2Style>(&pair));
        assert_eq!(
            rust.fold::<Plain>(&pair, &alphas, &accs),
            rust.fold::<Plonky2Style>(&pair, &alphas, &accs)
        );
    }
}

#[test]
fn a_consumer_takes_a_pair_as_its_values_one_by_one() {
    let Some(rust) = Reference::find() else {
        return;
    };
    for (pair, alphas, accs) in inputs() {
        let weights = [pair.z_last, pair.lagrange_basis_first, 2];
        let mut whole = rust.consumer(weights, &alphas, &accs);
        whole.yield_pair(&pair.masks, &pair.lv, &pair.nv);
        let mut one_by_one = rust.consumer(weights, &alphas, &accs);
        for value in rust.values(&pair) {
            one_by_one.yield_value(Form::Plain, value);
        }
        let folded = rust.fold::<Plain>(&pair, &alphas, &accs);
        assert_eq!(whole.folded(), folded);
        assert_eq!(whole.accumulators(), folded);
        assert_eq!(one_by_one.accumulators(), folded);
    }
}

#[test]
fn a_consumer_applies_the_weight_of_the_form() {
    let Some(rust) = Reference::find() else {
        return;
    };
    let folded = Form::ALL.map(|form| {
        let mut consumer = rust.consumer([3, 11, 13], &[2], &[5]);
        consumer.yield_value(form, 7);
        consumer.accumulators()
    });
    assert_eq!(folded, [7, 21, 77, 91].map(|weighted| [10 + weighted]));
}
