//! What can be altered, and into what.

use std::fmt;
use std::ops::Range;

use crate::order;
use crate::source::Source;

/// What an alteration is of.
#[derive(Clone, Copy, Debug, PartialEq, Eq)]
pub enum Class {
    /// A sum, difference or product.
    Operator,
    /// A column, a row, a register file or a value of the wrapper.
    Column,
    /// A number, a mask, or the count of a loop.
    Constant,
    /// Two statements that yield constraints.
    Order,
    /// The kind of a constraint, or its weight.
    Kind,
}

/// A place of a file, and what could stand there.
pub struct Place {
    /// What is altered there.
    pub class: Class,
    /// The part's file, by its number.
    pub file: usize,
    /// The place in the text.
    pub range: Range<usize>,
    /// What could stand there.
    pub choices: Vec<String>,
}

impl Class {
    /// The classes.
    pub const ALL: [Self; 5] = [
        Self::Operator,
        Self::Column,
        Self::Constant,
        Self::Order,
        Self::Kind,
    ];
}

impl fmt::Display for Class {
    fn fmt(&self, f: &mut fmt::Formatter) -> fmt::Result {
        f.write_str(match self {
            Self::Operator => "operator",
            Self::Column => "column",
            Self::Constant => "constant",
            Self::Order => "order",
            Self::Kind => "kind",
        })
    }
}

/// Words of which one can stand for another.
const EXCHANGED: [(Class, &[&str]); 7] = [
    (Class::Column, &["lv", "nv"]),
    (Class::Column, &["regs", "n_regs"]),
    (
        Class::Column,
        &[
            "lv_is_padding",
            "nv_is_padding",
            "lv_is_ext_inst",
            "nv_is_ext_inst",
            "lv_ext_length",
            "is_crossing_inst",
            "is_in_same_tx",
            "lv_is_entry_sc",
        ],
    ),
    (Class::Constant, &["ONES", "ZEROS"]),
    (Class::Constant, &["REGISTER_NUM", "CTX_REGISTER_NUM"]),
    (
        Class::Kind,
        &[
            "constraint",
            "constraint_transition",
            "constraint_first_row",
            "constraint_last_row",
        ],
    ),
    (
        Class::Kind,
        &["z_last", "lagrange_basis_first", "lagrange_basis_last"],
    ),
];
const OPERATORS: [&str; 3] = ["+", "-", "*"];
const OPCODES: [&str; 25] = [
    "ADD", "MUL", "EQ", "NEQ", "ASSERT", "AND", "OR", "XOR", "MOV", "JMP", "CJMP", "CALL", "RET",
    "MLOAD", "MSTORE", "END", "RC", "NOT", "GTE", "POSEIDON", "SLOAD", "SSTORE", "TLOAD", "TSTORE",
    "SCCALL",
];

/// Every place of the source.
pub fn places(source: &Source) -> Vec<Place> {
    let columns = source.columns();
    let mut places = Vec::new();
    for (file, (text, part)) in source.parts().enumerate() {
        let mut place = |class, range, choices: Vec<String>| {
            if !choices.is_empty() {
                places.push(Place {
                    class,
                    file,
                    range,
                    choices,
                });
            }
        };
        for (range, exchanged) in order::exchanges(text, part.clone()) {
            place(Class::Order, range, vec![exchanged]);
        }
        let mut start = part.start;
        for line in text[part].split_inclusive('\n') {
            for at in tokens(line) {
                if let Some((class, choices)) = choices(line, at.clone(), &columns) {
                    place(class, start + at.start..start + at.end, choices);
                }
            }
            start += line.len();
        }
    }
    places
}

/// The words, numbers and signs of a line that is no comment.
fn tokens(line: &str) -> Vec<Range<usize>> {
    let in_word = |c: char| c.is_alphanumeric() || c == '_';
    let mut tokens = Vec::new();
    let mut rest = match line.trim_start().starts_with("//") {
        true => "",
        false => line,
    };
    while let Some(c) = rest.chars().next() {
        let length = match in_word(c) {
            true => rest.find(|c| !in_word(c)).unwrap_or(rest.len()),
            false => c.len_utf8(),
        };
        if !c.is_whitespace() {
            let start = line.len() - rest.len();
            tokens.push(start..start + length);
        }
        rest = &rest[length..];
    }
    tokens
}

/// What could stand in the place of a word, number or sign.
fn choices(line: &str, at: Range<usize>, columns: &[Vec<String>]) -> Option<(Class, Vec<String>)> {
    let (before, token, after) = (&line[..at.start], &line[at.clone()], &line[at.end..]);
    if OPERATORS.contains(&token) {
        let is_binary = before.ends_with(' ') && after.starts_with(' ');
        return is_binary.then(|| (Class::Operator, others(&OPERATORS, token)));
    }
    if before.ends_with("OlaOpcode::") {
        return Some((Class::Constant, others(&OPCODES, token)));
    }
    if let Some(numbers) = neighbours(token) {
        return Some((Class::Constant, numbers));
    }
    // A use, and neither a definition nor a parameter.
    let defines = ["const ", "fn ", "let "];
    if defines.iter().any(|word| before.ends_with(word)) || after.starts_with(':') {
        return None;
    }
    for names in columns {
        if names.iter().any(|name| name == token) {
            return Some((Class::Column, others(names, token)));
        }
    }
    let (class, words) = EXCHANGED.iter().find(|(_, words)| words.contains(&token))?;
    Some((*class, others(words, token)))
}

fn others<S: AsRef<str>>(all: &[S], one: &str) -> Vec<String> {
    let others = all.iter().map(AsRef::as_ref).filter(|other| *other != one);
    others.map(str::to_owned).collect()
}

/// A number's neighbours, with the suffix that it has.
fn neighbours(token: &str) -> Option<Vec<String>> {
    let digits = token.find(|c: char| !c.is_ascii_digit());
    let (digits, suffix) = token.split_at(digits.unwrap_or(token.len()));
    let number: u64 = digits.parse().ok()?;
    let neighbours = [number.checked_add(1), number.checked_sub(1)];
    let told = neighbours.into_iter().flatten();
    Some(told.map(|n| format!("{n}{suffix}")).collect())
}

#[cfg(test)]
mod tests {
    use super::*;

    /// What can be altered in a line, with how many choices.
    fn altered(line: &str) -> Vec<(Class, &str, usize)> {
        let columns = [vec!["COL_A".into(), "COL_B".into()], vec!["COL_R".into()]];
        let tokens = tokens(line).into_iter();
        tokens
            .filter_map(|at| {
                let (class, choices) = choices(line, at.clone(), &columns)?;
                Some((class, &line[at], choices.len()))
            })
            .collect()
    }

    #[test]
    fn uses_are_altered() {
        assert_eq!(
            altered("yield_constr.constraint(lv[COL_A] * P::ONES);\n"),
            [
                (Class::Kind, "constraint", 3),
                (Class::Column, "lv", 1),
                (Class::Column, "COL_A", 1),
                (Class::Operator, "*", 2),
                (Class::Constant, "ONES", 1),
            ]
        );
        assert_eq!(
            altered("(lv[i], OlaOpcode::MOV.binary_bit_mask(), 0u64)"),
            [
                (Class::Column, "lv", 1),
                (Class::Constant, "MOV", 24),
                (Class::Constant, "0u64", 1),
            ]
        );
    }

    #[test]
    fn definitions_comments_and_references_are_not() {
        for line in [
            "// lv[COL_A] * 2",
            "pub fn constraint_first_row(&mut self, constraint: P) {",
            "let lv: [P; N] = *rows;",
            "pub(crate) const COL_A: usize = START;",
        ] {
            assert_eq!(altered(line), [], "{line}");
        }
    }
}
