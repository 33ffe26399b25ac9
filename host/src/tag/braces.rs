//! What stands in braces, but a tag: a number, a string in quotes, three words, else source text.

use super::error::Found;
use super::read::{is_line_end, is_space, shown};
use super::write::Out;
use crate::decimal::DecimalError;
use crate::limits::{MAX_NUMBER, MAX_PLACES};

/// An expression as it stands in its text, with its place there.
pub(super) struct Inside<'a> {
    pub text: &'a str,
    pub at: usize,
}

type Done = Result<(), Found>;

/// Where the brace stands that ends what begins at `at`: braces in quotes are not counted, and a quote is closed on its
/// line. `brace` is the place of the one that is open.
pub(super) fn matching(text: &str, at: usize, brace: usize) -> Result<usize, Found> {
    let mut open = 0;
    let mut signs = text[at..].char_indices();
    while let Some((place, sign)) = signs.next() {
        match sign {
            '}' if open == 0 => return Ok(at + place),
            '}' => open -= 1,
            '{' => open += 1,
            '"' | '\'' => match signs.by_ref().find(|(_, next)| *next == sign || is_line_end(*next)) {
                Some((_, next)) if next == sign => {}
                _ => return Err(Found::no_reading(at + place, format!("{} is not closed on its line", shown(sign)))),
            },
            _ => {}
        }
    }
    Err(Found::no_reading(brace, "no `}` matches this brace"))
}

impl Inside<'_> {
    /// Writes the field of this expression.
    pub fn write(&self, out: &mut Out) -> Done {
        match self.text {
            "true" | "false" => out.leaf(0x72, self.at, &[u8::from(self.text == "true")]),
            "null" => out.leaf(0x73, self.at, &[]),
            _ => {
                if let Some(inside) = self.string() {
                    out.leaf(0x70, self.at, inside.as_bytes());
                } else if !self.number(out) {
                    return self.source(out);
                }
            }
        }
        Ok(())
    }

    fn string(&self) -> Option<&str> {
        let quote = self.text.chars().next().filter(|sign| matches!(sign, '"' | '\''))?;
        let inside = self.text.strip_prefix(quote)?.strip_suffix(quote)?;
        let is_plain = |sign: char| sign != quote && sign != '\\' && !is_line_end(sign);
        inside.chars().all(is_plain).then_some(inside)
    }

    /// What stands behind a minus and white space, and whether there is a minus.
    fn unsigned(&self) -> (&str, bool) {
        let behind = self.text.strip_prefix('-');
        (behind.map_or(self.text, |behind| behind.trim_start_matches(is_space)), behind.is_some())
    }

    /// Whether it is a number, which is then written.
    fn number(&self, out: &mut Out) -> bool {
        let (text, minus) = self.unsigned();
        let are_digits = |text: &str| !text.is_empty() && text.bytes().all(|digit| digit.is_ascii_digit());
        let (whole, places) = text.split_once('.').map_or((text, None), |(whole, places)| (whole, Some(places)));
        if !are_digits(whole) || whole.len() > 1 && whole.starts_with('0') {
            return false;
        }
        match places {
            None => {
                let value = text.parse().ok().filter(|value| *value <= MAX_NUMBER);
                if value.is_none() {
                    out.too_large(self.at, format!("{} is over {MAX_NUMBER}", cut(text)));
                }
                out.leaf(if minus { 0x75 } else { 0x71 }, self.at, &value.unwrap_or(0_u64).to_be_bytes());
            }
            Some(places) if are_digits(places) => {
                let decimal: Result<crate::Decimal, DecimalError> = text.parse();
                if let Err(error) = &decimal {
                    let many = places.len() > usize::from(MAX_PLACES);
                    let words = if many { DecimalError::TooManyPlaces(places.len()) } else { error.clone() };
                    out.too_large(self.at, format!("{}: {words}", cut(text)));
                }
                let body = decimal.unwrap_or(crate::Decimal::ZERO).to_bytes();
                out.leaf(if minus { 0x7b } else { 0x7a }, self.at, &body);
            }
            Some(_) => return false,
        }
        true
    }

    /// The rest, as a 79 of one source piece.
    fn source(&self, out: &mut Out) -> Done {
        let no = |at: usize, reason: String| Err(Found::no_reading(self.at + at, reason));
        if self.text.starts_with('[') {
            return no(0, "an array is not read".to_string());
        }
        if let Some((at, word)) = self.text.char_indices().find_map(|(at, sign)| Some((at, barred(sign)?))) {
            return no(at, format!("{word} is not read in braces"));
        }
        let of_number = |sign: char| sign.is_ascii_alphabetic() || matches!(sign, '.' | '_');
        if self.unsigned().0.starts_with(|sign: char| sign.is_ascii_digit() || sign == '.')
            && let Some(sign) = self.text.chars().find(|sign| of_number(*sign))
        {
            let words = format!("{} begins as a number, is none, and has {}", cut(self.text), shown(sign));
            return no(0, words);
        }
        out.begin(0x79, self.at);
        out.leaf(0x20, self.at, self.text.as_bytes());
        out.end();
        Ok(())
    }
}

fn barred(sign: char) -> Option<&'static str> {
    Some(match sign {
        '`' => "a backquote",
        '\\' => "a backslash",
        '/' => "a slash",
        '<' => "`<`",
        _ => return None,
    })
}

const MOST_SIGNS: usize = 30;

/// A text as a message has it.
fn cut(text: &str) -> String {
    match text.char_indices().nth(MOST_SIGNS) {
        Some((end, _)) => format!("`{}...`", text[..end].escape_debug()),
        None => format!("`{}`", text.escape_debug()),
    }
}
