//! A3, In braces: what stands between white space, but a tag: numbers, strings, three words, and the rest.

use super::signs::*;
use super::write::Writer;
use crate::answer::MOST_NUMBER;
use crate::decimal::{BYTES, DECIMAL, MINUS_DECIMAL, MOST_DIGITS, MOST_PLACES};

/// Where the brace stands that matches the one before this text: braces in quotes are not counted, and a quote is closed
/// on its line. None where there is no such brace.
pub fn matching(text: &[u8]) -> Option<usize> {
    let mut open = 0;
    let mut at = 0;
    loop {
        match *text.get(at)? {
            b'}' if open == 0 => return Some(at),
            b'}' => open -= 1,
            b'{' => open += 1,
            quote if is_quote(quote) => {
                let inside = text[at + 1..].iter().take_while(|byte| **byte != quote && !is_line_end(**byte)).count();
                at += 1 + inside;
                if *text.get(at)? != quote {
                    return None;
                }
            }
            _ => {}
        }
        at += 1;
    }
}

/// An expression as its field: what is known, else a 79. None where it is not read.
pub fn expression(text: &[u8], out: &mut Writer) -> Option<()> {
    match text {
        b"" => return None,
        b"true" => out.leaf(0x72, &[1]),
        b"false" => out.leaf(0x72, &[0]),
        b"null" => out.leaf(0x73, b""),
        _ => {
            if let Some(inside) = string(text) {
                out.leaf(0x70, inside);
            } else if number(text, out).is_none() {
                rest(text, out)?;
            }
        }
    }
    Some(())
}

/// A quoted string alone: no backslash, no line end, not its own quote.
pub fn string(text: &[u8]) -> Option<&[u8]> {
    let [quote, inside @ .., last] = text else { return None };
    let plain = |byte: &u8| *byte != *quote && *byte != b'\\' && !is_line_end(*byte);
    (is_quote(*quote) && last == quote && inside.iter().all(plain)).then_some(inside)
}

/// What stands behind a minus and any white space; the text itself where it begins with none.
pub fn behind_minus(text: &[u8]) -> &[u8] {
    match text {
        [b'-', behind @ ..] => &behind[behind.iter().take_while(|byte| is_space(**byte)).count()..],
        _ => text,
    }
}

fn is_digits(text: &[u8]) -> bool {
    !text.is_empty() && text.iter().all(u8::is_ascii_digit)
}

/// A whole number, or what stands before a point: no needless zero in front.
fn is_whole(text: &[u8]) -> bool {
    is_digits(text) && (text == b"0" || text[0] != b'0')
}

fn number(text: &[u8], out: &mut Writer) -> Option<()> {
    let digits = behind_minus(text);
    let minus = digits.len() < text.len();
    if is_whole(digits) {
        let value = value(digits);
        out.reading.number_too_large |= value > MOST_NUMBER;
        out.leaf(if minus { 0x75 } else { 0x71 }, &value.to_be_bytes());
        return Some(());
    }
    let point = digits.iter().position(|byte| *byte == b'.')?;
    let (whole, places) = (&digits[..point], &digits[point + 1..]);
    if !is_whole(whole) || !is_digits(places) {
        return None;
    }
    let value = value(&[whole, places].concat());
    out.reading.number_too_large |= value > MOST_DIGITS || places.len() > usize::from(MOST_PLACES);
    let mut body = [0; BYTES];
    body[..8].copy_from_slice(&value.to_be_bytes());
    body[8] = places.len() as u8;
    out.leaf(if minus { MINUS_DECIMAL } else { DECIMAL }, &body);
    Some(())
}

/// The number that the digits are; far over each limit it stays there.
fn value(digits: &[u8]) -> u64 {
    digits.iter().fold(0, |value: u64, digit| value.saturating_mul(10).saturating_add(u64::from(digit - b'0')))
}

/// A 79 of one source piece.
fn rest(text: &[u8], out: &mut Writer) -> Option<()> {
    if !is_rest(text) {
        return None;
    }
    out.begin(0x79);
    out.leaf(0x20, text);
    out.end();
    Some(())
}

/// Whether the rest is read. That its quotes are closed on their line was seen when its brace was looked for.
pub fn is_rest(text: &[u8]) -> bool {
    let of_number = |byte: &u8| byte.is_ascii_alphabetic() || matches!(byte, b'.' | b'_');
    let begins_as_number = behind_minus(text).first().is_some_and(|byte| byte.is_ascii_digit() || *byte == b'.');
    let is_barred = text.starts_with(b"[") || text.iter().any(|byte| bars_source(*byte));
    let is_broken_number = begins_as_number && text.iter().any(of_number);
    !is_barred && !is_broken_number
}
