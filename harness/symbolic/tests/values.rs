//! The expressions, worked out over numbers, are the values that the harness records.

use std::collections::HashMap;

use fields::{Plain, Residue};
use olavm::{Pair, Reference};
use pairs::{Class, Rng};
use plonky2::field::types::Field;
use symbolic::expr::{Cell, Expr, Node, Operation};
use symbolic::listed;

/// The numbers of expressions at a pair, each worked out once.
struct At<'a> {
    pair: &'a Pair,
    known: HashMap<Expr, Plain>,
}

impl At<'_> {
    fn number(&mut self, e: Expr) -> Plain {
        if let Some(known) = self.known.get(&e) {
            return *known;
        }
        let number = match e.node() {
            Node::Constant(n) => Plain::from_canonical_u64(n),
            Node::Cell(cell) => self.cell(cell),
            Node::Operation(operation, a, b) => {
                let (a, b) = (self.number(a), self.number(b));
                match operation {
                    Operation::Plus => a + b,
                    Operation::Minus => a - b,
                    Operation::Times => a * b,
                }
            }
        };
        self.known.insert(e, number);
        number
    }

    fn cell(&self, cell: Cell) -> Plain {
        Plain::from_canonical_u64(match cell {
            Cell::Local(column) => self.pair.lv[column],
            Cell::Next(column) => self.pair.nv[column],
            Cell::Mask(i) => self.pair.masks[i],
            Cell::ZLast => self.pair.z_last,
            Cell::LagrangeBasisFirst => self.pair.lagrange_basis_first,
            _ => panic!("a constraint reads {cell}"),
        })
    }
}

#[test]
fn expressions_have_the_recorded_values() {
    let Some(rust) = Reference::find() else {
        return;
    };
    let constraints = listed::constraints(rust).expect("the accumulators come apart");
    for seed in 0..1000 {
        let pair = Class::in_turn(seed).draw(&mut Rng::new(seed));
        let mut at = At {
            pair: &pair,
            known: HashMap::new(),
        };
        let numbers = constraints.iter().map(|e| at.number(*e).canonical());
        assert!(numbers.eq(rust.values(&pair)), "seed {seed}");
    }
}
