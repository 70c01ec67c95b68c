//! The fold, taken apart.

use crate::expr::{Cell, Expr, Node, Operation};
use crate::Exprs;

/// The values of which the expression is the fold under alpha, from where it starts on, the first
/// first: each value c has turned the accumulator a into a · alpha + c, as
/// `crates/algebra/specs/Fold.antt` has it.
pub fn folded(mut acc: Expr, start: Expr, alpha: Expr) -> Exprs {
    let mut values = Vec::new();
    while acc != start {
        let Node::Operation(Operation::Plus, scaled, value) = acc.node() else {
            return Err(format!("an accumulator is no sum: {acc}"));
        };
        let Node::Operation(Operation::Times, rest, factor) = scaled.node() else {
            return Err(format!("an accumulator is not scaled: {scaled}"));
        };
        if factor != alpha {
            return Err(format!("an accumulator is scaled by {factor}"));
        }
        if reads_the_fold(value) {
            return Err(format!("a value reads the fold: {value}"));
        }
        values.push(value);
        acc = rest;
    }
    values.reverse();
    Ok(values)
}

fn reads_the_fold(e: Expr) -> bool {
    match e.node() {
        Node::Cell(cell) => matches!(cell, Cell::Alpha(_) | Cell::Accumulator(_)),
        Node::Constant(_) => false,
        Node::Operation(_, a, b) => reads_the_fold(a) || reads_the_fold(b),
    }
}

#[cfg(test)]
mod tests {
    use super::*;

    #[test]
    fn a_fold_is_its_values() {
        let [acc, alpha] = [Cell::Accumulator(1), Cell::Alpha(1)].map(Expr::cell);
        let [first, second] = [0, 1].map(|column| Expr::cell(Cell::Local(column)));
        for start in [acc, Expr::constant(0)] {
            let values = |acc| folded(acc, start, alpha);
            assert_eq!(values(start), Ok(vec![]));
            assert_eq!(values(start * alpha + first), Ok(vec![first]));
            let both = (start * alpha + first) * alpha + second;
            assert_eq!(values(both), Ok(vec![first, second]));
        }
    }

    #[test]
    fn what_is_no_fold_is_refused() {
        let [acc, alpha] = [Cell::Accumulator(0), Cell::Alpha(0)].map(Expr::cell);
        let [other_acc, other_alpha] = [Cell::Accumulator(1), Cell::Alpha(1)].map(Expr::cell);
        let value = Expr::cell(Cell::Local(0));
        for wrong in [
            value,
            other_acc,
            acc * alpha,
            acc + value,
            alpha * acc + value,
            value + acc * alpha,
            acc * value + value,
            acc * other_alpha + value,
            other_acc * alpha + value,
            Expr::constant(0) * alpha + value,
            acc * alpha - value,
            acc * alpha + alpha * value,
            acc * alpha + other_acc,
        ] {
            assert!(folded(wrong, acc, alpha).is_err(), "{wrong}");
        }
    }
}
