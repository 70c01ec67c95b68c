//! A program leaves what it was made of, every word and constant of it counts, and its file is
//! read as it is written.

use olavm::Reference;
use symbolic::expr::Expr;
use symbolic::program::Program;
use symbolic::{differences, listed, listing};

/// The Rust's constraints, and their program.
fn made() -> Option<(Vec<Expr>, Program)> {
    let constraints = listed::constraints(Reference::find()?).expect("the accumulators come apart");
    let program = Program::of(&constraints).expect("there is room");
    Some((constraints, program))
}

#[test]
fn a_program_leaves_what_it_was_made_of() {
    let Some((constraints, program)) = made() else {
        return;
    };
    assert_eq!(program.leaves(constraints.len()), Ok(constraints));
}

#[test]
fn every_word_and_constant_counts() {
    let Some((constraints, program)) = made() else {
        return;
    };
    let leaves_others = |altered: Program, what: String| {
        let leaves = altered.leaves(constraints.len());
        assert_ne!(leaves.as_ref(), Ok(&constraints), "{what}");
    };
    for i in 0..program.words.len() {
        for part in [1, 2048, 2048 * 2048] {
            let mut altered = program.clone();
            altered.words[i] ^= part;
            leaves_others(altered, format!("word {i}, part {part}"));
        }
    }
    for i in 0..program.constants.len() {
        let mut altered = program.clone();
        altered.constants[i] += 100;
        leaves_others(altered, format!("constant {i}"));
    }
}

#[test]
fn differences_are_named_by_their_numbers() {
    let Some((constraints, _)) = made() else {
        return;
    };
    assert!(differences(&constraints, &constraints).is_empty());
    let mut exchanged = constraints.clone();
    exchanged.swap(6, 7);
    let found = differences(&constraints, &exchanged);
    assert_eq!(found.len(), 2);
    assert!(found[0].starts_with("value 7 differs") && found[1].starts_with("value 8 differs"));
    assert_eq!(
        differences(&constraints, &constraints[..225]),
        ["the Rust has 226 values, the program 225"]
    );
}

#[test]
fn a_file_is_read_as_it_is_written() {
    let program = Program {
        constants: vec![0, 1, 12],
        words: (0..100).map(|i| 4194304 + i).collect(),
    };
    let text = listing::write(&program);
    assert_eq!(listing::read(&text), Ok(program));
    assert!(text.lines().skip(1).all(|line| line.chars().count() <= 120));
    for (old, new) in [
        ("12 ∷ []", "12 + 1 ∷ []"),
        ("12 ∷ []", "12"),
        ("constants : List ℕ", "constants : List Nat"),
        ("code =\n", "code = 4194304 ∷\n"),
        ("4194305 ∷", "4194305 4194306 ∷"),
    ] {
        assert!(text.contains(old));
        assert!(listing::read(&text.replacen(old, new, 1)).is_err(), "{new}");
    }
    assert!(listing::read(&(text.clone() + "\n" + &text)).is_err());
}
