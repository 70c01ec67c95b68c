//! What the programs rowdesk and faults have to print, and the comparison of a program with it.

pub mod cases;
pub mod chosen;
pub mod comparison;
pub mod container;
mod due;
pub mod expected;
pub mod failures;
pub mod input;
pub mod plain;
mod program;
pub mod samples;
mod session;
mod text;

pub use cases::Case;
pub use program::{built, Chunks, Program};
pub use text::Text;
