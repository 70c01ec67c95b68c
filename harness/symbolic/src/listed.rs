//! What the listed Rust computes, as expressions.
//!
//! Nothing is recorded on the way: rows, weights, alphas and accumulators are variables, and what
//! the unchanged consumer leaves in an accumulator,
//! `(..((acc · alpha + value 1) · alpha + value 2)..) · alpha + value n`, is taken apart. A consumer
//! that is new leaves the same with 0 for `acc`.

use fields::P;
use olavm::{Masks, Reference, COLUMNS};
use plonky2::field::types::Field;

use crate::expr::{with_mask_tokens, Cell, Expr};
use crate::{folded, Exprs};

/// How many alphas the consumer is given: the most that the fold takes.
const ALPHAS: usize = 8;

/// A consumer's weights, alphas and accumulators.
struct Consumer {
    weights: [Expr; 3],
    alphas: [Expr; ALPHAS],
    accs: [Expr; ALPHAS],
}

impl Consumer {
    fn of_variables() -> Self {
        let weights = [
            Cell::ZLast,
            Cell::LagrangeBasisFirst,
            Cell::LagrangeBasisLast,
        ];
        Self {
            weights: weights.map(Expr::cell),
            alphas: std::array::from_fn(|i| Expr::cell(Cell::Alpha(i))),
            accs: std::array::from_fn(|i| Expr::cell(Cell::Accumulator(i))),
        }
    }
}

/// The constraints in their order, each with its weight applied, if every accumulator is their fold.
pub fn constraints(rust: Reference) -> Exprs {
    // The masks come as 64-bit numbers. Were one computed with, two lists of numbers would show it.
    let rising = std::array::from_fn(|i| P + 1_234_567 * (1 + i as u64));
    let falling = std::array::from_fn(|i| P + 9_999_999 * (30 - i as u64));
    let (first, second) = (with_masks(rust, &rising)?, with_masks(rust, &falling)?);
    match first == second {
        true => Ok(first),
        false => Err("the expressions depend on the numbers that stand for masks".into()),
    }
}

/// The same, where these numbers stand for the masks.
fn with_masks(rust: Reference, tokens: &Masks) -> Exprs {
    let [lv, nv]: [[Expr; COLUMNS]; 2] =
        [Cell::Local, Cell::Next].map(|row| std::array::from_fn(|column| Expr::cell(row(column))));
    let Consumer {
        weights,
        alphas,
        accs: starts,
    } = Consumer::of_variables();
    let fold = |accs| rust.fold_rows(tokens, [&lv, &nv], weights, &alphas, accs);
    let (accs, from_new) = with_mask_tokens(tokens, || (fold(Some(&starts)), fold(None)));

    let values = folded(accs[0], starts[0], alphas[0])?;
    for i in 0..ALPHAS {
        for (acc, start) in [(accs[i], starts[i]), (from_new[i], Expr::ZERO)] {
            if folded(acc, start, alphas[i])? != values {
                return Err("two accumulators are folds of other values".into());
            }
        }
    }
    Ok(values)
}

/// Whether each call of the consumer folds its value, times the weight that it is for.
pub fn consumer_calls(rust: Reference) -> Result<(), String> {
    let Consumer {
        weights,
        alphas,
        accs,
    } = Consumer::of_variables();
    let value = Expr::cell(Cell::Local(0));
    let [z_last, lagrange_basis_first, lagrange_basis_last] = weights;
    let due = [
        ("constraint", value),
        ("constraint_transition", value * z_last),
        ("constraint_first_row", value * lagrange_basis_first),
        ("constraint_last_row", value * lagrange_basis_last),
    ];
    let found = rust.consumer_calls(weights, &alphas, &accs, value);
    for ((call, weighted), found) in due.into_iter().zip(found) {
        for i in 0..ALPHAS {
            if folded(found[i], accs[i], alphas[i])? != [weighted] {
                return Err(format!("{call} leaves {}", found[i]));
            }
        }
    }
    Ok(())
}
