//! A text of Rattle as words, literals and single signs, without comments.

/// The tokens of a text. A literal begins with its quote.
pub fn tokens(text: &str) -> Vec<&str> {
    let mut found = Vec::new();
    let mut rest = text.trim_start();
    while let Some(sign) = rest.chars().next() {
        let length = length(rest, sign);
        if !rest.starts_with("//") {
            found.push(&rest[..length]);
        }
        rest = rest[length..].trim_start();
    }
    found
}

/// The bytes of the first token, or of the comment, that begins with a sign.
fn length(text: &str, sign: char) -> usize {
    if text.starts_with("//") {
        return text.find('\n').unwrap_or(text.len());
    }
    if sign == '"' {
        return literal(text, '"');
    }
    // A quote is a lifetime's or a name's, unless another follows one byte later.
    if sign == '\'' && (text[1..].starts_with('\\') || text[1..].chars().nth(1) == Some('\'')) {
        return literal(text, '\'');
    }
    if is_word(sign) {
        return text.find(|c| !is_word(c)).unwrap_or(text.len());
    }
    sign.len_utf8()
}

/// The bytes of a literal up to its second quote.
fn literal(text: &str, quote: char) -> usize {
    let mut is_escaped = false;
    for (at, sign) in text.char_indices().skip(1) {
        if sign == quote && !is_escaped {
            return at + sign.len_utf8();
        }
        is_escaped = sign == '\\' && !is_escaped;
    }
    text.len()
}

fn is_word(sign: char) -> bool {
    sign.is_alphanumeric() || sign == '_'
}
