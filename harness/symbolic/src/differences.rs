//! The comparison of two lists of expressions.

use std::iter::zip;

use crate::expr::Expr;

/// Each place where the expressions are not the same trees, and their counts if these differ.
pub fn differences(rust: &[Expr], program: &[Expr]) -> Vec<String> {
    let places = zip(rust, program).enumerate();
    let mut differences: Vec<String> = places
        .filter(|(_, (rust, program))| rust != program)
        .map(|(i, (rust, program))| {
            let number = i + 1;
            format!("value {number} differs\n  the Rust:    {rust}\n  the program: {program}")
        })
        .collect();
    if rust.len() != program.len() {
        let (rust, program) = (rust.len(), program.len());
        differences.push(format!("the Rust has {rust} values, the program {program}"));
    }
    differences
}
