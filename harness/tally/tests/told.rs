//! What a program says of its comparisons, which the gate repeats.

use std::process::ExitCode;

use tally::{Tally, With, COMPARED, NOT_COMPARED};

fn tally(notes: &[(With, bool)]) -> Tally {
    let mut tally = Tally::default();
    for (with, is_same) in notes {
        let outcome = is_same.then_some(()).ok_or_else(|| "another".to_owned());
        tally.note("a class", *with, outcome);
    }
    tally
}

/// `ExitCode` cannot be compared.
fn is_success(tally: &Tally) -> bool {
    format!("{:?}", tally.status()) == format!("{:?}", ExitCode::SUCCESS)
}

#[test]
fn who_compared_nothing_says_so_and_fails() {
    let nothing = Tally::default();
    assert!(nothing.told("answers").starts_with(NOT_COMPARED));
    assert!(!is_success(&nothing));
}

#[test]
fn who_compared_nothing_with_the_rust_says_so_and_fails() {
    let alone = tally(&[(With::TheHarness, true); 3]);
    assert!(alone.told("answers").starts_with(NOT_COMPARED));
    assert!(!is_success(&alone));
}

#[test]
fn both_sorts_are_counted_apart() {
    let both = tally(&[
        (With::TheRust, true),
        (With::TheRust, true),
        (With::TheHarness, true),
    ]);
    let told = format!("{COMPARED}2 answers, 0 differ; with the harness alone: 1, 0 differ");
    assert_eq!(both.told("answers"), told);
    assert!(is_success(&both));
}

#[test]
fn a_difference_of_either_sort_fails() {
    let rust = tally(&[(With::TheRust, true), (With::TheRust, false)]);
    let told = format!("{COMPARED}2 answers, 1 differ; with the harness alone: 0, 0 differ");
    assert_eq!(rust.told("answers"), told);
    assert!(!is_success(&rust));
    let harness = tally(&[(With::TheRust, true), (With::TheHarness, false)]);
    let told = format!("{COMPARED}1 answers, 0 differ; with the harness alone: 1, 1 differ");
    assert_eq!(harness.told("answers"), told);
    assert!(!is_success(&harness));
}
