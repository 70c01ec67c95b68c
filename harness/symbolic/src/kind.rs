//! The kinds of constraints.

use std::fmt;

use crate::expr::{Cell, Expr, Node, Operation};

/// Where a constraint holds.
#[derive(Clone, Copy, Debug, PartialEq, Eq)]
pub enum Kind {
    /// On every row.
    Plain,
    /// On every row but the last.
    Transition,
    /// On the first row.
    FirstRow,
}

impl Kind {
    /// The kinds.
    pub const ALL: [Self; 3] = [Self::Plain, Self::Transition, Self::FirstRow];

    /// The kind of a weighted expression: a weight is its last factor, as `kindOf` of
    /// `crates/table_program/specs/Means.antt` reads it.
    pub fn of(weighted: Expr) -> Self {
        let Node::Operation(Operation::Times, _, factor) = weighted.node() else {
            return Self::Plain;
        };
        match factor.node() {
            Node::Cell(Cell::ZLast) => Self::Transition,
            Node::Cell(Cell::LagrangeBasisFirst) => Self::FirstRow,
            _ => Self::Plain,
        }
    }
}

impl fmt::Display for Kind {
    fn fmt(&self, f: &mut fmt::Formatter) -> fmt::Result {
        f.write_str(match self {
            Self::Plain => "plain",
            Self::Transition => "transition",
            Self::FirstRow => "first row",
        })
    }
}
