//! What became of a copy.

use std::collections::BTreeSet;
use std::fmt;
use std::iter::zip;

use olavm::VALUES;
use tally::COMPARED;

/// What became of a copy.
#[derive(Debug, PartialEq, Eq)]
pub enum Outcome {
    /// The comparison tells it from the Rust.
    Found {
        /// What the comparison says.
        said: String,
        /// Whether its values or folds differ at the points.
        answers_differ: bool,
    },
    /// The comparison does not tell it from the Rust, and its answers are the Rust's.
    AltersNothing,
    /// Its answers are others, and the comparison does not tell which, or none.
    Missed,
    /// It is no Rust that compiles.
    NotBuilt,
}

/// What the comparison of a copy came to.
pub struct Checked {
    /// No difference.
    pub is_same: bool,
    /// What it printed.
    pub text: String,
}

impl Outcome {
    /// What became of a copy that answers this at the points, where the Rust answers what is due; a
    /// copy that panics answers nothing.
    pub fn of(checked: &Checked, answers: Option<&[Vec<u64>]>, due: &[Vec<u64>]) -> Self {
        let named = named(&checked.text);
        let answers_differ = answers != Some(due);
        let others = answers.map(|answers| other_values(answers, due));
        // Where the comparison names values, it has to name every one whose numbers are others.
        let misses = others.is_some_and(|others| !named.is_empty() && !others.is_subset(&named));
        match checked.is_same {
            true if !answers_differ => Self::AltersNothing,
            false if !misses => Self::Found {
                said: said(&checked.text, &named),
                answers_differ,
            },
            _ => Self::Missed,
        }
    }
}

/// The values that the comparison tells apart, by their numbers.
fn named(text: &str) -> BTreeSet<usize> {
    let lines = text.lines();
    let names = lines.filter_map(|line| line.strip_prefix("value ")?.strip_suffix(" differs"));
    names.filter_map(|number| number.parse().ok()).collect()
}

/// The values that are not the due ones at some point, by their numbers.
fn other_values(answers: &[Vec<u64>], due: &[Vec<u64>]) -> BTreeSet<usize> {
    let others = zip(answers, due).flat_map(|(answers, due)| {
        let places = zip(answers, due).take(VALUES).enumerate();
        places.filter(|(_, (answer, due))| answer != due)
    });
    others.map(|(i, _)| i + 1).collect()
}

fn said(text: &str, named: &BTreeSet<usize>) -> String {
    match (named.first(), named.last(), text.lines().last()) {
        (Some(first), Some(last), _) if first == last => format!("value {first}"),
        (Some(first), Some(last), _) => format!("{} values, {first} to {last}", named.len()),
        (_, _, Some(last)) => last.strip_prefix(COMPARED).unwrap_or(last).into(),
        (_, _, None) => "it panics".into(),
    }
}

impl fmt::Display for Outcome {
    fn fmt(&self, f: &mut fmt::Formatter) -> fmt::Result {
        match self {
            Self::Found {
                said,
                answers_differ: true,
            } => write!(f, "found ({said})"),
            Self::Found { said, .. } => write!(f, "found ({said}; the answers are the same)"),
            Self::AltersNothing => f.write_str("alters nothing"),
            Self::Missed => f.write_str("MISSED"),
            Self::NotBuilt => f.write_str("does not compile"),
        }
    }
}

#[cfg(test)]
mod tests {
    use super::*;

    fn outcome(is_same: bool, text: &str, altered: &[usize]) -> Outcome {
        let due = vec![vec![7; VALUES + 2]; 2];
        let mut answers = due.clone();
        for i in altered {
            answers[1][*i] = 8;
        }
        let text = text.into();
        Outcome::of(&Checked { is_same, text }, Some(&answers), &due)
    }

    #[test]
    fn a_copy_that_answers_otherwise_has_to_be_found() {
        assert_eq!(outcome(true, "0 differ", &[]), Outcome::AltersNothing);
        assert_eq!(outcome(true, "0 differ", &[3]), Outcome::Missed);
        assert_eq!(outcome(true, "0 differ", &[VALUES]), Outcome::Missed);
        let two = "value 4 differs\n  the Rust: x\nvalue 9 differs\n2 differ";
        let found = |answers_differ| Outcome::Found {
            said: "2 values, 4 to 9".into(),
            answers_differ,
        };
        assert_eq!(outcome(false, two, &[3, 8, VALUES]), found(true));
        assert_eq!(outcome(false, two, &[3]), found(true));
        assert_eq!(outcome(false, two, &[]), found(false));
        assert_eq!(outcome(false, two, &[3, 4]), Outcome::Missed);
    }

    #[test]
    fn a_copy_that_panics_is_found_by_the_comparison_alone() {
        let due = [vec![7; VALUES + 2]];
        let outcome = |is_same, text: &str| {
            let text = text.into();
            Outcome::of(&Checked { is_same, text }, None, &due)
        };
        assert_eq!(outcome(true, "0 differ"), Outcome::Missed);
        let found = |said: &str| Outcome::Found {
            said: said.into(),
            answers_differ: true,
        };
        assert_eq!(outcome(false, ""), found("it panics"));
        let said = format!("one line\n{COMPARED}not the same");
        assert_eq!(outcome(false, &said), found("not the same"));
        assert_eq!(outcome(false, "value 3 differs"), found("value 3"));
    }
}
