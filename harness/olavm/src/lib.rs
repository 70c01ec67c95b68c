//! The listed Rust of olavm, compiled unchanged, and its answers.

mod form;
mod pair;
#[cfg(not(olavm_source))]
#[path = "reference_missing.rs"]
mod reference;
#[cfg(olavm_source)]
mod reference;

#[cfg(olavm_source)]
mod consumer;
#[cfg(olavm_source)]
mod cpu;
#[cfg(olavm_source)]
mod recording;
#[cfg(olavm_source)]
mod stark;

pub use form::Form;
pub use pair::{Masks, Pair, Row, Values, COLUMNS, MASKS, VALUES};
pub use reference::{Consumer, Reference};

/// The folder of the listed files.
pub const SOURCE: &str = env!("OLAVM_SOURCE");
/// What a program says where [`Reference::find`] finds nothing.
pub const SOURCE_MISSING: &str = concat!("the Rust's files are not at ", env!("OLAVM_SOURCE"));
