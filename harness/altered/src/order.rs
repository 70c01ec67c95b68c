//! Statements that yield constraints, and those that can be exchanged.

use std::ops::Range;

/// Neighbouring statements of a part that yield constraints, each two with the text in which they
/// are exchanged.
pub fn exchanges(text: &str, part: Range<usize>) -> Vec<(Range<usize>, String)> {
    let statements = statements(text, part);
    let neighbours = statements.windows(2);
    let exchanged = neighbours.filter_map(|two| {
        let [first, second] = [&text[two[0].clone()], &text[two[1].clone()]];
        let between = &text[two[0].end..two[1].start];
        let is_blank = between
            .lines()
            .map(str::trim_start)
            .all(|line| line.is_empty() || line.starts_with("//"));
        let exchanged = [second, between, first].concat();
        (is_blank && first != second).then_some((two[0].start..two[1].end, exchanged))
    });
    exchanged.collect()
}

/// The statements that yield constraints, in their order.
fn statements(text: &str, part: Range<usize>) -> Vec<Range<usize>> {
    let mut statements: Vec<Range<usize>> = Vec::new();
    let mut at = part.start;
    for line in text[part].split_inclusive('\n') {
        let start = at + line.len() - line.trim_start().len();
        let is_within = statements.last().is_some_and(|last| start < last.end);
        if !is_within && yields(&text[start..]) {
            statements.extend(length(&text[start..]).map(|length| start..start + length));
        }
        at += line.len();
    }
    statements
}

fn yields(text: &str) -> bool {
    let called = text.split(|c: char| c == '(' || c.is_whitespace()).next();
    called.is_some_and(|called| {
        called.starts_with("yield_constr")
            || called.starts_with("Self::constraint_")
            || called.ends_with("::eval_packed_generic")
    })
}

/// The length of the statement that begins the text.
fn length(text: &str) -> Option<usize> {
    let mut depth = 0;
    for (at, c) in text.char_indices() {
        match c {
            '(' | '[' | '{' => depth += 1,
            ')' | ']' | '}' if depth == 0 => return None,
            ')' | ']' | '}' => depth -= 1,
            ';' if depth == 0 => return Some(at + 1),
            _ => {}
        }
    }
    None
}

#[cfg(test)]
mod tests {
    use super::*;

    #[test]
    fn neighbouring_statements_are_exchanged() {
        let text = "
        Self::constraint_a(&wrapper, yield_constr);
        // a comment
        yield_constr.constraint(
            x * y,
        );
        let z = x;
        mov::eval_packed_generic(lv, nv, yield_constr);
        yield_constr.constraint(z)
    ";
        let found = exchanges(text, 0..text.len());
        let [(range, exchanged)] = &found[..] else {
            panic!("{found:?}");
        };
        assert!(text[range.clone()].starts_with("Self::constraint_a"));
        assert_eq!(
            exchanged,
            "yield_constr.constraint(
            x * y,
        );
        // a comment
        Self::constraint_a(&wrapper, yield_constr);"
        );
    }
}
