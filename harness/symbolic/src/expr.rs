//! Expressions, and the field whose elements they are.
//!
//! An expression is a handle into a list of nodes in which no node stands twice: two expressions
//! are the same tree, operand for operand, exactly if their handles are equal.

use std::cell::RefCell;
use std::collections::HashMap;
use std::fmt;
use std::iter::Sum;
use std::ops::{Add, AddAssign, Mul, MulAssign, Sub};

use fields::P;
use plonky2::field::types::Field;

/// What an expression reads.
#[derive(Clone, Copy, Debug, PartialEq, Eq, Hash)]
pub enum Cell {
    /// A column of the current row.
    Local(usize),
    /// A column of the next row.
    Next(usize),
    /// A mask.
    Mask(usize),
    /// The weight of a transition constraint.
    ZLast,
    /// The weight of a first-row constraint.
    LagrangeBasisFirst,
    /// The weight of a last-row constraint, of which the table has none.
    LagrangeBasisLast,
    /// An alpha of the consumer.
    Alpha(usize),
    /// What an accumulator of the consumer starts from.
    Accumulator(usize),
}

/// What an expression does with its operands.
#[derive(Clone, Copy, Debug, PartialEq, Eq, Hash)]
pub enum Operation {
    /// A sum.
    Plus,
    /// A difference.
    Minus,
    /// A product.
    Times,
}

/// What an expression is made of.
#[derive(Clone, Copy, Debug, PartialEq, Eq, Hash)]
pub enum Node {
    /// A cell.
    Cell(Cell),
    /// A number below p.
    Constant(u64),
    /// An operation on two expressions.
    Operation(Operation, Expr, Expr),
}

/// An expression.
#[derive(Clone, Copy, PartialEq, Eq, Hash)]
pub struct Expr(u32);

struct Arena {
    nodes: Vec<Node>,
    places: HashMap<Node, Expr>,
    mask_tokens: Vec<u64>,
}

thread_local! {
    static ARENA: RefCell<Arena> = RefCell::new(Arena::new());
}

impl Arena {
    fn new() -> Self {
        let mut arena = Self {
            nodes: Vec::new(),
            places: HashMap::new(),
            mask_tokens: Vec::new(),
        };
        // Where `Field`'s constants point to, which cannot be computed.
        for n in [0, 1, P - 1] {
            arena.place(Node::Constant(n));
        }
        arena
    }

    fn place(&mut self, node: Node) -> Expr {
        let Self { nodes, places, .. } = self;
        *places.entry(node).or_insert_with(|| {
            nodes.push(node);
            Expr(u32::try_from(nodes.len() - 1).expect("fewer than 2^32 nodes"))
        })
    }
}

impl Expr {
    /// The expression of a node.
    pub fn of(node: Node) -> Self {
        ARENA.with_borrow_mut(|arena| arena.place(node))
    }

    /// The expression of a cell.
    pub fn cell(cell: Cell) -> Self {
        Self::of(Node::Cell(cell))
    }

    /// The expression of a number below p.
    pub fn constant(n: u64) -> Self {
        assert!(n < P, "{n} is not below p");
        Self::of(Node::Constant(n))
    }

    /// An operation on two expressions.
    pub fn operation(operation: Operation, a: Self, b: Self) -> Self {
        Self::of(Node::Operation(operation, a, b))
    }

    /// What the expression is made of.
    pub fn node(self) -> Node {
        ARENA.with_borrow(|arena| arena.nodes[self.0 as usize])
    }
}

/// Runs `f` while the number `tokens[i]`, taken as a field element, is mask i. Tokens are not
/// below p, so that no number of the source is one.
pub fn with_mask_tokens<T>(tokens: &[u64], f: impl FnOnce() -> T) -> T {
    assert!(tokens.iter().all(|token| *token >= P));
    ARENA.with_borrow_mut(|arena| arena.mask_tokens = tokens.to_vec());
    let result = f();
    ARENA.with_borrow_mut(|arena| arena.mask_tokens.clear());
    result
}

impl Field for Expr {
    const ZERO: Self = Self(0);
    const ONE: Self = Self(1);
    const NEG_ONE: Self = Self(2);

    fn from_canonical_u64(n: u64) -> Self {
        if n < P {
            return Self::constant(n);
        }
        let mask = ARENA.with_borrow(|arena| arena.mask_tokens.iter().position(|t| *t == n));
        Self::cell(Cell::Mask(mask.expect("neither a mask nor below p")))
    }
}

impl Add for Expr {
    type Output = Self;
    fn add(self, other: Self) -> Self {
        Self::operation(Operation::Plus, self, other)
    }
}

impl Sub for Expr {
    type Output = Self;
    fn sub(self, other: Self) -> Self {
        Self::operation(Operation::Minus, self, other)
    }
}

impl Mul for Expr {
    type Output = Self;
    fn mul(self, other: Self) -> Self {
        Self::operation(Operation::Times, self, other)
    }
}

impl AddAssign for Expr {
    fn add_assign(&mut self, other: Self) {
        *self = *self + other;
    }
}

impl MulAssign for Expr {
    fn mul_assign(&mut self, other: Self) {
        *self = *self * other;
    }
}

/// From 0, as plonky2's.
impl Sum for Expr {
    fn sum<I: Iterator<Item = Self>>(terms: I) -> Self {
        terms.fold(Self::ZERO, |sum, term| sum + term)
    }
}

impl fmt::Display for Cell {
    fn fmt(&self, f: &mut fmt::Formatter) -> fmt::Result {
        match self {
            Self::Local(column) => write!(f, "lv[{column}]"),
            Self::Next(column) => write!(f, "nv[{column}]"),
            Self::Mask(i) => write!(f, "mask[{i}]"),
            Self::ZLast => f.write_str("z_last"),
            Self::LagrangeBasisFirst => f.write_str("lagrange_basis_first"),
            Self::LagrangeBasisLast => f.write_str("lagrange_basis_last"),
            Self::Alpha(i) => write!(f, "alpha[{i}]"),
            Self::Accumulator(i) => write!(f, "acc[{i}]"),
        }
    }
}

/// The whole tree, with all its parentheses but the outermost.
impl fmt::Display for Expr {
    fn fmt(&self, f: &mut fmt::Formatter) -> fmt::Result {
        let operand = |f: &mut fmt::Formatter, e: Expr| match e.node() {
            Node::Operation(..) => write!(f, "({e})"),
            _ => write!(f, "{e}"),
        };
        match self.node() {
            Node::Cell(cell) => write!(f, "{cell}"),
            Node::Constant(n) => write!(f, "{n}"),
            Node::Operation(operation, a, b) => {
                operand(f, a)?;
                f.write_str(match operation {
                    Operation::Plus => " + ",
                    Operation::Minus => " - ",
                    Operation::Times => " * ",
                })?;
                operand(f, b)
            }
        }
    }
}

/// As the tree is written.
impl fmt::Debug for Expr {
    fn fmt(&self, f: &mut fmt::Formatter) -> fmt::Result {
        fmt::Display::fmt(self, f)
    }
}

#[cfg(test)]
mod tests {
    use super::*;

    #[test]
    fn the_fields_constants_are_numbers() {
        for (constant, n) in [(Expr::ZERO, 0), (Expr::ONE, 1), (Expr::NEG_ONE, P - 1)] {
            assert_eq!(constant.node(), Node::Constant(n));
            assert_eq!(constant, Expr::from_canonical_u64(n));
        }
    }

    #[test]
    fn the_same_tree_is_the_same_handle() {
        let [a, b] = [Cell::Local(3), Cell::Next(3)].map(Expr::cell);
        assert_eq!((a + b) * a, (a + b) * a);
        for other in [
            (b + a) * a,
            a * (a + b),
            (a - b) * a,
            (a + b) * b,
            a + b * a,
        ] {
            assert_ne!((a + b) * a, other);
        }
        assert_eq!(((a + b) * a).to_string(), "(lv[3] + nv[3]) * lv[3]");
    }

    #[test]
    fn a_sum_starts_from_zero() {
        let [a, b] = [0, 1].map(|column| Expr::cell(Cell::Local(column)));
        assert_eq!([a, b].into_iter().sum::<Expr>(), Expr::ZERO + a + b);
    }

    #[test]
    fn tokens_are_masks_while_they_stand() {
        let tokens = [P + 5, P];
        let mask = with_mask_tokens(&tokens, || Expr::from_canonical_u64(P));
        assert_eq!(mask, Expr::cell(Cell::Mask(1)));
        assert!(std::panic::catch_unwind(|| Expr::from_canonical_u64(P)).is_err());
    }
}
