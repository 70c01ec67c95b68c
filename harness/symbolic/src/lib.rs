//! The constraints of the listed Rust as expressions, and as the straight-line program that
//! `crates/table_program` proves to be the table.

mod differences;
pub mod expr;
mod fold;
mod kind;
pub mod listed;
pub mod listing;
mod points;
pub mod program;

pub use differences::differences;
pub use fold::folded;
pub use kind::Kind;
pub use points::Point;

/// Expressions, or why there are none.
pub type Exprs = Result<Vec<expr::Expr>, String>;
