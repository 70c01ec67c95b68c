//! Compares the exported functions with the listed Rust.

mod calls;
mod comparison;
mod consumer_edges;
mod consumers;
mod entries;
mod faults;
mod folds;
mod judge;
mod linked;
pub mod model;
mod refusals;
mod reports;
mod residues;
mod signed;
mod values;

pub use comparison::{Amounts, Comparison};
pub use entries::{Call, Entries, Rows, Yielded};
pub use felmugo::flat::{FelmugoConsumer, FelmugoOutcome};
pub use felmugo::flat::{FelmugoReport, FelmugoResidue, FelmugoSigned, FelmugoVerdict};
pub use linked::Linked;
