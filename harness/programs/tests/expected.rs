//! What has to be printed for inputs that documents 01 and 02 speak of, and what inputs are meant to be.

use fields::{signed, Plain, GREATEST, P};
use olavm::{Reference, COLUMNS, MASKS, VALUES};
use pairs::{masks, Rng};
use programs::cases::{broken, fixed};
use programs::chosen::{edges, run};
use programs::expected::{output, Output};
use programs::input::{bytes, of_run};
use programs::Text;

/// The output for masks and rows, cut to so many bytes of rows.
fn printed(text: Text, masks: &[u64], rows: &[u64], row_bytes: usize) -> Option<String> {
    let mut input = bytes(masks);
    input.extend(&bytes(rows)[..row_bytes]);
    Some(expected(text, &input)?.text())
}

fn expected(text: Text, input: &[u8]) -> Option<Output> {
    Some(output::<Plain>(Reference::find()?, text, input))
}

/// The signed numbers of an output of faults.
fn numbers(output: &Output) -> Vec<i128> {
    let number = |line: &str| line.rsplit(' ').next().map(str::parse);
    let text = output.text();
    let numbers = text.lines().filter_map(number);
    numbers.collect::<Result<_, _>>().expect("a signed number")
}

fn is(printed: Option<String>, due: &str) -> bool {
    printed.is_none_or(|printed| printed == due)
}

#[test]
fn one_zero_row_is_as_worked_out() {
    let row = |text| printed(text, &masks::plain(), &[0; COLUMNS], 752);
    assert!(is(row(Text::Counts), "0 2 104\n"));
    assert!(is(row(Text::Faults), "0 104 1\n0 148 -1\n"));
}

#[test]
fn faults_are_told_in_reading_order() {
    for text in Text::ALL {
        let printed = |masks: &[u64], rows: &[u64], bytes| printed(text, masks, rows, bytes);
        let zero = [0; COLUMNS];
        let plain = masks::plain();
        let mut equal = plain;
        equal[4] = equal[0];
        assert!(is(printed(&plain[..24], &[], 0), "refused 2\n"));
        assert!(is(printed(&[P; MASKS - 1], &[], 0), "refused 2\n"));
        assert!(is(printed(&[P; MASKS], &zero, 751), "refused 5\n"));
        assert!(is(printed(&equal, &[], 0), "refused 5\n"));
        assert!(is(printed(&plain, &[], 0), "refused 1\n"));
        assert!(is(printed(&plain, &[P; COLUMNS], 751), "refused 1\n"));
        assert!(is(printed(&plain, &[P; COLUMNS], 752), "refused 6\n"));
    }
}

#[test]
fn lines_already_printed_stand() {
    for (text, lines) in [(Text::Counts, 2), (Text::Faults, 6)] {
        let mut input = bytes(&masks::plain());
        input.extend(bytes(&[0; 3 * COLUMNS]));
        let Some(output) = expected(text, &input) else {
            return;
        };
        let before = output.of_first(2).text();
        assert_eq!(before.lines().count(), lines);
        input.extend(bytes(&[P; COLUMNS]));
        let refused_6 = expected(text, &input).map(|output| output.text());
        assert!(is(refused_6, &format!("{before}refused 6\n")));
        input.pop();
        let refused_1 = expected(text, &input).map(|output| output.text());
        assert!(is(refused_1, &format!("{before}refused 1\n")));
    }
}

#[test]
fn chosen_numbers_are_values() {
    let edges = edges();
    let Some(output) = expected(Text::Faults, &of_run(&run(&edges))) else {
        return;
    };
    let numbers = numbers(&output);
    for edge in edges {
        assert!(numbers.contains(&signed(edge)), "{edge}");
    }
    let one = |number| printed(Text::Faults, &masks::plain(), &run(&[number]).rows[0], 752);
    let ends = [(9223372034707292160, ""), (9223372034707292161, "-")];
    for (residue, sign) in ends {
        let line = format!("0 9 {sign}9223372034707292160\n");
        assert!(one(residue).is_none_or(|printed| printed.starts_with(&line)));
    }
}

#[test]
fn fixed_inputs_have_no_line_and_every_line_and_both_signs() {
    let Some(rust) = Reference::find() else {
        return;
    };
    let cases = fixed(Text::Faults).into_iter();
    let outputs = cases.map(|case| output::<Plain>(rust, Text::Faults, &case.input));
    let outputs: Vec<Output> = outputs.collect();
    let is_clean = |output: &Output| output.pairs.len() > 2 && output.text().is_empty();
    assert!(outputs.iter().any(is_clean));
    let is_full = |pair: &String| pair.lines().count() == VALUES;
    assert!(outputs
        .iter()
        .any(|output| output.pairs.iter().any(is_full)));
    for refused in ["refused 1\n", "refused 6\n"] {
        let has_lines = |output: &&Output| !output.pairs.concat().is_empty();
        assert!(outputs
            .iter()
            .filter(has_lines)
            .any(|output| output.end == refused));
    }
    let last = format!("0 226 -{GREATEST}\n");
    assert!(outputs.iter().any(|output| output.text().ends_with(&last)));
    let accepted = outputs.iter().filter(|output| output.end.is_empty());
    let numbers: Vec<i128> = accepted.flat_map(numbers).collect();
    for due in [1, -1, GREATEST, -GREATEST] {
        assert!(numbers.contains(&due), "{due}");
    }
}

#[test]
fn every_other_pair_of_a_broken_run_fails() {
    for seed in 0..20 {
        let run = broken(&mut Rng::new(seed), 9);
        let Some(output) = expected(Text::Faults, &of_run(&run)) else {
            return;
        };
        let every_other = output.pairs.iter().step_by(2);
        assert!(every_other.clone().count() == 5 && every_other.clone().all(|t| !t.is_empty()));
    }
}

#[test]
fn an_output_is_told_apart_by_its_pairs() {
    for text in Text::ALL {
        for case in fixed(text) {
            let Some(due) = expected(text, &case.input) else {
                return;
            };
            let printed = Output::printed(&due.text(), due.pairs.len());
            assert_eq!(printed, due, "{}", case.name);
            let cut = due.cut(7).text();
            assert!(due.text().starts_with(&cut) && cut.len() == due.text().len().min(7));
        }
    }
}
