//! Random texts: letters of all widths, the 25 White_Space characters, line ends, the five escaped characters, and
//! characters that only look like one of these.

use super::rng::Rng;

/// Unicode's White_Space.
pub const WHITE_SPACE: [&str; 25] = [
    "\t", "\n", "\u{b}", "\u{c}", "\r", " ", "\u{85}", "\u{a0}", "\u{1680}", "\u{2000}", "\u{2001}", "\u{2002}",
    "\u{2003}", "\u{2004}", "\u{2005}", "\u{2006}", "\u{2007}", "\u{2008}", "\u{2009}", "\u{200a}", "\u{2028}",
    "\u{2029}", "\u{202f}", "\u{205f}", "\u{3000}",
];

const LETTERS: [&str; 28] = [
    "a",
    "b",
    "Hi",
    "seat ",
    "Row 7",
    "x",
    "0",
    "42",
    ".",
    "{",
    "}",
    "\\",
    "`",
    "/",
    "-->",
    "=",
    "caf\u{e9}",
    "\u{65e5}\u{672c}",
    "\u{1f600}",
    "\u{7ff}",
    "\u{800}",
    "\u{ffff}",
    "\u{10ffff}",
    "\u{200b}",
    "\u{feff}",
    "\u{180e}",
    "\0",
    "\u{7f}",
];

const ESCAPED: [&str; 10] = ["&", "<", ">", "'", "\"", "&amp;", "&lt;", "</p>", "<br>", "\"'&"];

const LINE_ENDS: [&str; 8] = ["\n", "\r\n", "\n  ", "  \n", "\r", "\n\n", "\r\n\r\n", " \r\r\n "];

/// Appends a text of at most `most` bytes.
pub fn text(rng: &mut Rng, out: &mut Vec<u8>, most: usize) {
    let end = out.len() + most;
    let parts = match rng.weighted(&[10, 50, 30, 8, 2]) {
        0 => 0,
        1 => rng.within(1, 3),
        2 => rng.within(2, 8),
        3 => rng.within(8, 30),
        _ => rng.within(30, 200),
    };
    for _ in 0..parts {
        part(rng, out, end);
    }
}

fn part(rng: &mut Rng, out: &mut Vec<u8>, end: usize) {
    let part = match rng.weighted(&[50, 18, 12, 20]) {
        0 => rng.pick(&LETTERS),
        1 => rng.pick(&ESCAPED),
        2 => rng.pick(&WHITE_SPACE),
        _ => rng.pick(&LINE_ENDS),
    };
    if out.len() + part.len() <= end {
        out.extend(part.bytes());
    }
}

/// Appends `length` bytes, nearly all of which are escaped.
pub fn escaped(rng: &mut Rng, out: &mut Vec<u8>, length: usize) {
    let one = if rng.chance(70) { b'"' } else { b'&' };
    let line = if rng.chance(20) { Some(rng.within(40, 400)) } else { None };
    for i in 0..length {
        out.push(match line {
            Some(every) if i % every == every - 1 => b'\n',
            _ => one,
        });
    }
}
