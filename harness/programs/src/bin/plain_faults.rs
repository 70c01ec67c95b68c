//! faults in plain Rust, for timing and as a check of the comparison.

use programs::{plain, Text};

fn main() {
    plain::main(Text::Faults);
}
