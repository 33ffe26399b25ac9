//! What is to be known of source text before something is put beside it or around it. There is no parser here: what
//! brackets and quotes do not tell is put in parentheses.

use crate::out::Piece;

/// How an expression that is source text may stand beside other text.
#[derive(Clone, Copy, Debug, PartialEq, Eq)]
pub(super) enum Shape {
    /// A variable, its members, and calls of them: `a.b(c)[d]`. It stands anywhere.
    Chain,
    /// No comma outside brackets: it stands as an argument.
    Argument,
    /// All else, and what cannot be told.
    Any,
}

/// Stands for an expression among the pieces.
const CALL: char = '\0';

/// The shape of an expression in these pieces.
pub(super) fn shape<'a>(pieces: impl Iterator<Item = Piece<'a>>) -> Shape {
    let mut text = String::new();
    for piece in pieces {
        match piece {
            Piece::Source(source) if source.contains(CALL) => return Shape::Any,
            Piece::Source(source) => text.push_str(source),
            Piece::Expression(_) => text.push(CALL),
        }
    }
    match outside_brackets(&text) {
        Some(outside) if is_chain(&outside) => Shape::Chain,
        Some(outside) if !outside.trim().is_empty() && !outside.contains([',', ';']) => Shape::Argument,
        _ => Shape::Any,
    }
}

/// What stands outside brackets and quotes, with the signs that open them. None where they do not match, and where a
/// slash (it may begin a regular expression or a comment), a backquote or a backslash stands outside quotes.
fn outside_brackets(text: &str) -> Option<String> {
    // The signs that close what is open.
    let mut open = vec![];
    let mut outside = String::new();
    let mut signs = text.chars();
    while let Some(sign) = signs.next() {
        match (open.last(), sign) {
            (Some('"' | '\''), '\n' | '\r') => return None,
            (Some('"' | '\''), '\\') => drop(signs.next()),
            (Some(quote @ ('"' | '\'')), sign) => {
                if *quote == sign {
                    open.pop();
                }
                continue;
            }
            (_, '/' | '`' | '\\') => return None,
            (Some(_), _) => {}
            (None, _) => outside.push(sign),
        }
        match sign {
            '"' | '\'' => open.push(sign),
            '(' => open.push(')'),
            '[' => open.push(']'),
            '{' => open.push('}'),
            ')' | ']' | '}' if open.pop() != Some(sign) => return None,
            _ => {}
        }
    }
    open.is_empty().then_some(outside)
}

/// Words before an operand.
const OPERATORS: [&str; 9] = ["await", "class", "delete", "function", "let", "new", "typeof", "void", "yield"];

fn is_chain(outside: &str) -> bool {
    let names = outside.replace(['(', '['], "");
    let mut names = names.split('.');
    let is_name = |name: &str| {
        name.chars().all(is_of_word) && name.is_ascii() && !name.starts_with(|first: char| first.is_ascii_digit())
    };
    let first = names.next().unwrap_or_default();
    let begins = first == CALL.to_string() || is_name(first) && !OPERATORS.contains(&first);
    begins && !first.is_empty() && names.all(|name| !name.is_empty() && is_name(name))
}

/// A sign that would go on with a word before it.
pub(super) fn is_of_word(sign: char) -> bool {
    sign.is_ascii_alphanumeric() || sign == '_' || sign == '$' || !sign.is_ascii()
}

/// A statement that is a string alone.
pub(super) fn is_directive(text: &str) -> bool {
    let text = text.trim();
    let text = text.strip_suffix(';').unwrap_or(text).trim_end();
    matches!(outside_brackets(text).as_deref(), Some("\"" | "'"))
}

/// Whether a call that comes next would be what `new` makes.
pub(super) fn is_behind_new(text: &str) -> bool {
    text.match_indices("new").any(|(at, word)| {
        !text[..at].ends_with(|sign| is_of_word(sign) || sign == '.') && is_blank(&text[at + word.len()..])
    })
}

/// White space and comments.
fn is_blank(text: &str) -> bool {
    let mut text = text.trim_start();
    while !text.is_empty() {
        let end = if text.starts_with("//") {
            text.find(['\n', '\r', '\u{2028}', '\u{2029}'])
        } else if text.starts_with("/*") {
            text.find("*/").map(|end| end + 2)
        } else {
            return false;
        };
        text = end.map_or("", |end| text[end..].trim_start());
    }
    true
}

/// Whether what is put behind may lie in a comment.
pub(super) fn may_end_in_comment(text: &str) -> bool {
    text.rsplit('\n').next().is_some_and(|line| line.contains("//")) && outside_brackets(text).is_none()
}

/// Whether a value stands before or behind these signs as it is: no word, member, operator or directive comes about.
pub(super) fn is_apart(before: &str, behind: &str) -> bool {
    let text = before.trim_end();
    let is_return =
        text.strip_suffix("return").is_some_and(|front| !front.ends_with(|sign| is_of_word(sign) || sign == '.'));
    let opens = text.ends_with(['=', '(', ',', '[', ':', '?', '>', '&', '|']) || is_return;
    let behind = behind.trim_start();
    opens && (behind.is_empty() || behind.starts_with([';', ',', ')', ']', '}', ':', '&', '|']))
}

#[cfg(test)]
mod tests {
    use super::*;

    fn shape_of(text: &str) -> Shape {
        shape([Piece::Source(text)].into_iter())
    }

    #[test]
    fn shapes() {
        for text in
            ["a", "_a.$b", "a.b(c, d)[e].f", "f()()", "f(\"a, b\")", "f({ a, b })", "this.a", "f(\"a/b\", 'c`\\'')"]
        {
            assert_eq!(shape_of(text), Shape::Chain, "{text}");
        }
        for text in [
            "a + b",
            "a ? b : c",
            "(a, b)",
            "(a, b) => a",
            "yield",
            "yield a",
            "typeof(a)",
            "{ a: 1, b }",
            "a\n.b",
            "5",
            "5.5",
            "a?.b",
            "\"a, b\"",
            "[a, b]",
            "é",
            "new(a)",
            "function (a, b) { return a; }",
            "\"https://a\" + b",
        ] {
            assert_eq!(shape_of(text), Shape::Argument, "{text}");
        }
        for text in [
            "a, b", "", " ", "a / b", "/,/", "`a`", "a // b", "(a", "a)", "(a]", "\"a", "'a\n'", "\\u0061", "a;", "a\0",
        ] {
            assert_eq!(shape_of(text), Shape::Any, "{text}");
        }
    }

    #[test]
    fn directives() {
        for text in ["\"use client\"", "'use strict';", " \"a\\\"b\" ; "] {
            assert!(is_directive(text), "{text}");
        }
        for text in ["\"a\" + \"b\"", "\"a\".length", "a", "", ";", "`a`", "(\"a\")", "\"a\", \"b\"", "\"a\"\"b\""] {
            assert!(!is_directive(text), "{text}");
        }
    }

    #[test]
    fn new_before() {
        for text in ["new ", "new", "a = new\n", "new /* a */ ", "new // a (\n ", "(new/**/"] {
            assert!(is_behind_new(text), "{text}");
        }
        for text in ["", "renew ", "a.new ", "new a", "new (", "news", "$new ", "\"new \""] {
            assert!(!is_behind_new(text), "{text}");
        }
    }

    #[test]
    fn comments() {
        assert!(may_end_in_comment("a // b") && may_end_in_comment("a\n+ b//"));
        assert!(
            !may_end_in_comment("a // b\n") && !may_end_in_comment("\"https://a\"") && !may_end_in_comment("a / b")
        );
    }

    #[test]
    fn values_apart() {
        for (before, behind) in
            [("a = ", ";"), ("f(", ", a)"), ("return ", ""), ("return", "}"), ("a => ", ")"), ("a || ", " && b")]
        {
            assert!(is_apart(before, behind), "{before}_{behind}");
        }
        for (before, behind) in [
            ("", ";"),
            ("{ ", "; }"),
            ("a; ", ";"),
            ("a = ", ".b"),
            ("a = ", " in b"),
            ("a = ", "(b)"),
            ("a = ", "/* ; */.b"),
            ("areturn ", ""),
            ("- ", ""),
        ] {
            assert!(!is_apart(before, behind), "{before}_{behind}");
        }
    }
}
