//! The lines of a table: the Rust's time, ours, and the ratio.

/// Prints the head of a table, with its unit.
pub fn head(unit: &str) {
    println!(
        "{unit:<24} {:>10} {:>10} {:>7}",
        "the Rust", "ours", "ratio"
    );
}

/// Prints a line.
pub fn line(name: &str, rust: f64, ours: f64) {
    let digits = if rust < 100.0 { 3 } else { 0 };
    println!(
        "{name:<24} {rust:>10.digits$} {ours:>10.digits$} {:>7.2}",
        ours / rust
    );
}
