//! Straight-line programs, as `crates/straight_line/specs/Program.antt` has them.
//!
//! A program starts from a list: the current row, the next row, the masks, the two weights, its
//! constants. Each word makes a new first element of it, by an operation on two elements named by
//! how far they stand from the front. What the program leaves first are the constraints.

use std::collections::{BTreeSet, HashMap};

use olavm::{COLUMNS, MASKS};

use crate::expr::{Cell, Expr, Node, Operation};
use crate::Exprs;

/// The operations by their numbers.
const OPERATIONS: [Operation; 3] = [Operation::Plus, Operation::Minus, Operation::Times];
/// Operands stand less than this far from the front.
const REACH: u64 = 2048;

/// The words and constants of a program.
#[derive(Clone, Debug, PartialEq, Eq)]
pub struct Program {
    /// The constants, rising.
    pub constants: Vec<u64>,
    /// The words, each `(operation · 2048 + left) · 2048 + right`.
    pub words: Vec<u64>,
}

/// What a program with these constants starts from, the first element first.
fn inputs(constants: &[u64]) -> Vec<Expr> {
    let rows = [Cell::Local, Cell::Next].map(|row| (0..COLUMNS).map(row));
    let masks = (0..MASKS).map(Cell::Mask);
    let weights = [Cell::ZLast, Cell::LagrangeBasisFirst];
    let cells = rows.into_iter().flatten().chain(masks).chain(weights);
    let constants = constants.iter().map(|n| Expr::constant(*n));
    cells.map(Expr::cell).chain(constants).collect()
}

impl Program {
    /// A program that leaves these expressions first: every expression below them is computed once,
    /// operands first, and they themselves at the end, the last first.
    pub fn of(exprs: &[Expr]) -> Result<Self, String> {
        let mut constants = BTreeSet::new();
        for e in exprs {
            add_constants(*e, &mut constants);
        }
        let constants: Vec<u64> = constants.into_iter().collect();
        let mut encoder = Encoder::new(&inputs(&constants));
        for e in exprs {
            let Node::Operation(_, a, b) = e.node() else {
                return Err(format!("no word leaves {e}"));
            };
            encoder.place(a)?;
            encoder.place(b)?;
        }
        for e in exprs.iter().rev() {
            encoder.push(*e)?;
        }
        let words = encoder.words;
        Ok(Self { constants, words })
    }

    /// The `count` expressions that the program leaves first.
    pub fn leaves(&self, count: usize) -> Exprs {
        // The list from its end, so that its front is the last element.
        let mut list = inputs(&self.constants);
        list.reverse();
        for word in &self.words {
            let [operation, left, right] =
                [word / REACH / REACH, word / REACH % REACH, word % REACH];
            let operation = OPERATIONS.get(operation as usize);
            let operation = operation.ok_or(format!("the word {word} has no operation"))?;
            let operand = |distance: u64| {
                let place = list.len().checked_sub(1 + distance as usize);
                let operand = place.map(|place| list[place]);
                operand.ok_or(format!("the word {word} has no operand there"))
            };
            list.push(Expr::operation(*operation, operand(left)?, operand(right)?));
        }
        match count <= self.words.len() {
            true => Ok(list.into_iter().rev().take(count).collect()),
            false => Err(format!("{} words leave no {count}", self.words.len())),
        }
    }
}

fn add_constants(e: Expr, constants: &mut BTreeSet<u64>) {
    match e.node() {
        Node::Cell(_) => {}
        Node::Constant(n) => {
            constants.insert(n);
        }
        Node::Operation(_, a, b) => {
            add_constants(a, constants);
            add_constants(b, constants);
        }
    }
}

struct Encoder {
    /// Where an expression stands, counted from the list's end.
    places: HashMap<Expr, usize>,
    inputs: usize,
    words: Vec<u64>,
}

impl Encoder {
    fn new(inputs: &[Expr]) -> Self {
        let places = inputs.iter().rev().enumerate();
        Self {
            places: places.map(|(place, e)| (*e, place)).collect(),
            inputs: inputs.len(),
            words: Vec::new(),
        }
    }

    /// Where the expression stands, which is computed unless it was.
    fn place(&mut self, e: Expr) -> Result<usize, String> {
        if let Some(place) = self.places.get(&e) {
            return Ok(*place);
        }
        let place = self.push(e)?;
        self.places.insert(e, place);
        Ok(place)
    }

    /// Computes the expression as the list's new first element.
    fn push(&mut self, e: Expr) -> Result<usize, String> {
        let Node::Operation(operation, a, b) = e.node() else {
            return Err(format!("{e} is not among the inputs"));
        };
        let (a, b) = (self.place(a)?, self.place(b)?);
        let length = self.inputs + self.words.len();
        let [left, right] = [a, b].map(|place| (length - 1 - place) as u64);
        if left >= REACH || right >= REACH {
            return Err(format!("an operand stands too far from the front: {e}"));
        }
        let number = OPERATIONS.iter().position(|o| *o == operation);
        let number = number.expect("every operation is listed") as u64;
        self.words.push((number * REACH + left) * REACH + right);
        Ok(length)
    }
}
