//! What the types leave open, read in the listed text: that the code computes the same expressions
//! whatever the masks are, and does not look into the elements of its field.

use std::fs;

use olavm::{Reference, SOURCE};

/// The listed modules.
const MODULES: [&str; 7] = [
    "cpu--columns",
    "cpu--cpu_stark",
    "cpu--simple_arithmatic_op",
    "cpu--tape",
    "cpu--call_sc",
    "stark--constraint_consumer",
    "stark--vars",
];
const ASKED: &str = ".binary_bit_mask()";

/// The text of a module without its comments and white space.
fn text(module: &str) -> String {
    let file = format!("{SOURCE}/src--circuits--src--{module}.rs.txt");
    let text = fs::read_to_string(file).expect("a listed file can be read");
    let lines = text.lines().map(str::trim_start);
    let code = lines.filter(|line| !line.starts_with("//"));
    code.flat_map(str::chars)
        .filter(|c| !c.is_whitespace())
        .collect()
}

/// How many masks are made field elements on the spot, and how many stand in a list beside a
/// selector; one that does neither is a failure.
fn asked(module: &str, text: &str) -> (usize, usize) {
    let (mut on_the_spot, mut listed) = (0, 0);
    for (at, _) in text.match_indices(ASKED) {
        let before = text[..at].trim_end_matches(|c: char| c.is_ascii_uppercase());
        let before = before.strip_suffix("OlaOpcode::").expect("an opcode");
        let closed = text[at + ASKED.len()..].starts_with(')');
        assert!(closed, "{module}: a mask is computed with");
        if before.ends_with("P::Scalar::from_canonical_u64(") {
            on_the_spot += 1;
        } else {
            let selector = before.strip_suffix("],").expect("a selector's mask");
            let name = |c: char| c.is_ascii_uppercase() || c == '_';
            let selector = selector.trim_end_matches(name);
            assert!(selector.ends_with("(lv["), "{module}: no list of selectors");
            listed += 1;
        }
    }
    let named = text.matches("binary_bit_mask").count();
    assert_eq!(named, on_the_spot + listed, "{module}: a mask unasked");
    (on_the_spot, listed)
}

/// The masks are numbers in the Rust, so that code could decide by them. It only hands them on: each
/// is made a field element where it is asked for, or where the one list of selectors is walked.
#[test]
fn masks_are_only_handed_on() {
    if Reference::find().is_none() {
        return;
    }
    let counts = MODULES.map(|module| asked(module, &text(module)));
    let none = (0, 0);
    assert_eq!(counts, [none, (8, 17), (20, 0), none, none, none, none]);

    // The list is bound once and walked three times, once for the masks.
    let text = text("cpu--cpu_stark");
    let walks = [
        "letops_to_op=[",
        "ops_to_op.iter().for_each(|(s,_)|",
        "ops_to_op.iter().fold(P::ZEROS,|acc,(selector,_)|",
        "ops_to_op.iter().fold(P::ZEROS,|acc,(selector,opcode)|{\
         acc+*selector*P::Scalar::from_canonical_u64(*opcode)})",
    ];
    for walk in walks {
        assert_eq!(text.matches(walk).count(), 1, "{walk}");
    }
    assert_eq!(text.matches("ops_to_op").count(), walks.len());
}

/// Words by which code could tell one type of elements from another, or read something else than
/// its arguments: the shims' traits give the operations and `Copy` alone.
const WORDS: [&str; 11] = [
    "unsafe",
    "asm!",
    "size_of",
    "align_of",
    "needs_drop",
    "type_name",
    "TypeId",
    "any::",
    "std::env",
    "static",
    "thread_local",
];

#[test]
fn elements_are_only_operated_on() {
    if Reference::find().is_none() {
        return;
    }
    for module in MODULES {
        let text = text(module);
        for word in WORDS {
            assert!(!text.contains(word), "{module}: {word}");
        }
    }
}
