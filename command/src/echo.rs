//! What the user handed over, as a message shows it: cut where it is long, and without characters that a terminal would obey.

/// So many characters are shown.
const MOST: usize = 40;

/// The text, cut, its control characters escaped.
pub fn shown(text: &str) -> String {
    escaped(&cut(text))
}

/// The text, cut, in quotes.
pub fn quoted(text: &str) -> String {
    format!("{:?}", cut(text))
}

/// The text with its control characters and line breaks escaped, and what XML does not have.
pub fn escaped(text: &str) -> String {
    let mut out = String::new();
    for c in text.chars() {
        match c {
            '\u{2028}' | '\u{2029}' | '\u{FEFF}' | '\u{FFFE}' | '\u{FFFF}' => {
                out.extend(c.escape_unicode())
            }
            c if c.is_control() => out.extend(c.escape_default()),
            c => out.push(c),
        }
    }
    out
}

fn cut(text: &str) -> String {
    match text.char_indices().nth(MOST) {
        Some((end, _)) => format!("{}..", &text[..end]),
        None => text.into(),
    }
}

#[cfg(test)]
mod tests {
    use super::*;

    #[test]
    fn long_and_strange() {
        assert_eq!(shown("état \"2\" \\"), "état \"2\" \\");
        assert_eq!(
            shown("a\r\0\x7f\u{85}\u{2028}\u{FEFF}"),
            "a\\r\\u{0}\\u{7f}\\u{85}\\u{2028}\\u{feff}"
        );
        assert_eq!(shown(&"é".repeat(40)), "é".repeat(40));
        assert_eq!(shown(&"é".repeat(41)), format!("{}..", "é".repeat(40)));
        assert_eq!(quoted(&"\"".repeat(1000)), format!("\"{}..\"", "\\\"".repeat(40)));
        assert_eq!(quoted("1\r"), "\"1\\r\"");
    }
}
