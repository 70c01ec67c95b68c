//! The comparison itself: it passes the plain Rust programs, and finds scripts that spoil their output,
//! programs that print another text, and programs that do not heed what a read or a write answers.

use std::thread;
use std::time::Duration;

use olavm::Reference;
use programs::comparison::{alone, everything, printed, Amounts, CHOSEN, DUE, FIXED};
use programs::failures::{READS, SHORT, WRITES};
use programs::{Program, Text};
use tally::Tally;

const AMOUNTS: Amounts = Amounts {
    inputs: 30,
    rows: 20,
    limits: false,
};

fn plain(text: Text) -> Program {
    let path = match text {
        Text::Counts => env!("CARGO_BIN_EXE_plain_rowdesk"),
        Text::Faults => env!("CARGO_BIN_EXE_plain_faults"),
    };
    Program::at(text, path)
}

/// Whether something holds of both programs, of which each waits more than it works.
fn of_both(holds: impl Fn(Text) -> bool + Sync) -> bool {
    thread::scope(|scope| {
        let holds = &holds;
        let both = Text::ALL.map(|text| scope.spawn(move || holds(text)));
        both.into_iter()
            .all(|one| one.join().expect("it ends well"))
    })
}

/// What a program's comparison finds; nothing is compared without the Rust.
fn compared(program: &Program) -> Option<Tally> {
    let rust = Reference::find()?;
    let tally = everything(program, rust, 1, AMOUNTS);
    println!("{tally}");
    Some(tally)
}

/// The differences of a program.
fn failed(program: &Program) -> Option<u64> {
    Some(compared(program)?.failed())
}

/// A careless program, which is given so many seconds for a line.
fn careless(text: Text, sort: &str, seconds: u64) -> Program {
    let path = env!("CARGO_BIN_EXE_careless");
    let mut program = Program::at(text, path)
        .argument(text.program())
        .argument(sort);
    program.patience = Duration::from_secs(seconds);
    program
}

/// Whether a program that is careless of a class is found, of both, and differs only where reads or
/// writes fail or are short.
fn are_found_in(class: &str, sort: &str) -> bool {
    of_both(|text| {
        compared(&careless(text, sort, 5)).is_none_or(|tally| {
            let failed = [READS, WRITES, SHORT].map(|class| tally.failed_in(class));
            tally.failed_in(class) > 0 && failed.iter().sum::<u64>() == tally.failed()
        })
    })
}

fn is_found(text: Text, script: &str) -> bool {
    let mut program = plain(text).script(script);
    program.patience = Duration::from_secs(1);
    failed(&program) != Some(0)
}

/// Whether a script is found in either program's place.
fn are_found(script: &str) -> bool {
    of_both(|text| is_found(text, script))
}

/// What the comparison finds of what a program prints.
fn printing(program: &Program) -> Option<Tally> {
    let tally = printed(program, Reference::find()?, 1, AMOUNTS);
    println!("{tally}");
    Some(tally)
}

/// Whether a faults that prints another text is found, in the small inputs and where values are chosen,
/// and does not differ everywhere.
fn is_misprinting_found(sort: &str) -> bool {
    printing(&careless(Text::Faults, sort, 5)).is_none_or(|tally| {
        let failed = [FIXED, CHOSEN].map(|class| tally.failed_in(class));
        failed.iter().all(|count| *count > 0) && tally.passed() > 0
    })
}

#[test]
fn the_plain_programs_pass() {
    assert!(of_both(|text| matches!(
        failed(&plain(text)),
        None | Some(0)
    )));
}

#[test]
fn a_script_that_alters_nothing_passes() {
    assert!(of_both(|text| matches!(
        failed(&plain(text).script(r#"exec "$0""#)),
        None | Some(0)
    )));
}

#[test]
fn one_program_in_the_place_of_the_other_is_found() {
    assert!(of_both(|text| {
        let mut program = plain(match text {
            Text::Counts => Text::Faults,
            Text::Faults => Text::Counts,
        });
        program.text = text;
        program.patience = Duration::from_secs(1);
        failed(&program) != Some(0)
    }));
}

#[test]
fn refused_1_for_everybody_is_found() {
    assert!(is_found(Text::Counts, "cat >/dev/null; echo refused 1"));
}

#[test]
fn a_lost_last_pair_is_found() {
    assert!(are_found(r#""$0" | sed -u '${/refused/!d}'"#));
}

#[test]
fn lines_withdrawn_by_a_refusal_are_found() {
    assert!(are_found(
        r#"out=$("$0"); case $out in *refused*) echo "$out" | tail -n 1;; *) echo "$out";; esac"#
    ));
}

#[test]
fn late_lines_are_found() {
    assert!(of_both(|text| {
        let printed = printing(&careless(text, "late", 20));
        let found = compared(&careless(text, "late", 1));
        printed.is_none_or(|tally| tally.failed() == 0)
            && found.is_none_or(|tally| tally.failed_in(DUE) > 0)
    }));
}

#[test]
fn a_missing_line_end_is_found() {
    assert!(are_found(r#"printf %s "$("$0")""#));
}

#[test]
fn a_line_too_many_is_found() {
    assert!(is_found(Text::Counts, r#""$0"; echo"#));
}

#[test]
fn the_whole_input_taken_for_one_read_is_found() {
    assert!(is_found(
        Text::Counts,
        r#"dd bs=1048576 count=1 2>/dev/null | "$0""#
    ));
}

#[test]
fn no_count_is_found() {
    assert!(is_found(
        Text::Counts,
        r#""$0" | sed -u 's/^\([0-9]*\) [1-9][0-9]* /\1 1 /'"#
    ));
}

#[test]
fn the_first_value_only_is_found() {
    assert!(is_misprinting_found("first"));
}

#[test]
fn zeros_are_found() {
    assert!(is_misprinting_found("zeros"));
}

#[test]
fn falling_numbers_are_found() {
    assert!(is_misprinting_found("falling"));
}

#[test]
fn a_line_twice_is_found() {
    assert!(is_misprinting_found("twice"));
}

#[test]
fn numbers_from_0_are_found() {
    assert!(is_misprinting_found("from 0"));
}

#[test]
fn another_pair_is_found() {
    assert!(is_misprinting_found("other pair"));
}

#[test]
fn residues_are_found() {
    assert!(is_misprinting_found("residues"));
}

#[test]
fn a_lost_sign_is_found() {
    assert!(is_misprinting_found("no sign"));
}

#[test]
fn a_value_minus_another_number_than_p_is_found() {
    assert!(is_misprinting_found("minus 2^64"));
}

#[test]
fn a_bound_that_is_off_is_found() {
    for sort in ["bound below", "bound above", "bound of i64"] {
        assert!(is_misprinting_found(sort), "{sort}");
    }
}

#[test]
fn a_failed_read_taken_for_the_end_is_found() {
    assert!(are_found_in(READS, "end"));
}

#[test]
fn a_failed_write_taken_for_a_whole_one_is_found() {
    assert!(are_found_in(WRITES, "lost"));
}

#[test]
fn a_short_write_taken_for_a_whole_one_is_found() {
    assert!(are_found_in(SHORT, "once"));
}

#[test]
fn rows_kept_until_a_block_is_full_are_found() {
    assert!(of_both(|text| {
        let found = compared(&careless(text, "block", 1));
        found.is_none_or(|tally| tally.failed_in(READS) > 0)
    }));
}

#[test]
fn a_failure_that_is_not_told_is_found() {
    assert!(are_found(r#"exec "$0" 2>/dev/null"#));
}

#[test]
fn a_failure_told_on_standard_output_is_found() {
    assert!(are_found(r#"exec "$0" 2>&1"#));
}

#[test]
fn a_failed_read_taken_for_the_end_is_found_without_the_rust() {
    // The program itself is made of the Rust.
    if Reference::find().is_none() {
        return;
    }
    assert!(of_both(|text| {
        alone(&plain(text), 1).failed() == 0
            && alone(&careless(text, "end", 5), 1).failed_in(READS) > 0
    }));
}
