//! The public functions of the repository's crates, held against docs/CONTRACTS.md.

mod check;
mod crates;
mod page;
mod source;
mod tokens;

pub use check::{row, wrong};
pub use crates::{asking_as_traits, libraries, Library};
pub use page::{Page, Row};
pub use source::{declared, Declared, Function};
