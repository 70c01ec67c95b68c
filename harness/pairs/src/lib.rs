//! Inputs for the comparison: pairs of rows of every class, each told by a seed.
//!
//! A pair that keeps every rule is solved, not searched. A [`Scenario`](scenario::Scenario)
//! fixes the kind and the flags. The current row's context is drawn so that the next row can
//! be reached from it, then its own columns are solved, then the next row is told by it.

pub mod cells;
mod classes;
pub mod columns;
mod context;
mod current;
mod demands;
pub mod kept;
pub mod kinds;
pub mod masks;
mod next;
mod plan;
mod residues;
mod rng;
mod runs;
pub mod scenario;

pub use classes::Class;
pub use rng::Rng;
pub use runs::{Run, MAX_ROWS};
