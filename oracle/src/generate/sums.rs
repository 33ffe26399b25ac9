//! Random texts in braces (02, A12): sums, sums at the bounds, and texts that are nearly sums.

use super::rng::Rng;
use crate::answer::MOST_NUMBER;

/// Texts that only look like sums: signs of one operand, needless zeros, other operators, numbers and spaces, something
/// missing or too much.
pub const NEAR: [&str; 44] = [
    "",
    " ",
    "-1",
    "- 1",
    "+1",
    "2 - -1",
    "2 + +1",
    "2 * -1",
    "(-1)",
    "-(1)",
    "01",
    "00",
    "2 * 01",
    "0 0",
    "1 2",
    "1.5",
    ".5",
    "1.",
    "1e3",
    "0x10",
    "1_000",
    "7n",
    "2 ** 3",
    "2 / 1",
    "2 % 2",
    "1, 2",
    "1;",
    "1 +",
    "* 2",
    "()",
    "(1",
    "1)",
    ")1(",
    "(1)(2)",
    "2(3)",
    "(2)3",
    "1\t+ 2",
    "1\n+ 2",
    "1\u{a0}+ 2",
    "\u{2003}1",
    "\u{ff11}",
    "x + 1",
    "1 + x",
    "1 /* a */",
];

/// Sums at the bounds or beyond them, and with zero times a negative.
pub const BOUNDS: [&str; 36] = [
    "9007199254740991",
    "9007199254740992",
    "9007199254740990 + 1",
    "9007199254740991 + 0",
    "9007199254740991 + 1",
    "9007199254740991 - 1 + 1",
    "9007199254740991 + 1 - 1",
    "9007199254740991 * 1",
    "1 * 9007199254740992 - 1",
    "0 - 9007199254740991",
    "0 - 9007199254740991 - 1",
    "0 - 9007199254740990 - 1",
    "0 - 9007199254740992",
    "0 * 9007199254740992",
    "94906265 * 94906265",
    "94906266 * 94906266",
    "94906267 * 94906265",
    "(0 - 94906265) * 94906265",
    "(0 - 94906266) * 94906266",
    "6361 * 69431 * 20394401",
    "6361 * 69431 * 20394402",
    "(0 - 6361) * 69431 * 20394401",
    "3037000500 * 3037000500",
    "9007199254740991 * 9007199254740991",
    "(0 - 9007199254740991) * 9007199254740991 + 5",
    "18446744073709551616",
    "18446744073709551617 - 18446744073709551616",
    "340282366920938463463374607431768211457",
    "0 * 0",
    "0 * (1 - 2)",
    "(1 - 2) * 0",
    "(0 - 5) * (3 - 3)",
    "5 + 0 * (1 - 2)",
    "2 * (1 - 1) * (0 - 3)",
    "(0 - 3) * (0 - 3)",
    "(2 - 2) * (3 - 3)",
];

pub fn text(rng: &mut Rng) -> String {
    match rng.weighted(&[60, 12, 14, 10, 4]) {
        0 => {
            let depth = rng.within(0, 4);
            spaced(rng, |rng| sum(rng, depth))
        }
        1 => rng.pick(&NEAR).to_string(),
        2 => rng.pick(&BOUNDS).to_string(),
        3 => {
            let depth = rng.within(0, 3);
            let text = spaced(rng, |rng| sum(rng, depth));
            nearly(rng, text)
        }
        _ => {
            let brackets = if rng.chance(85) { rng.within(2, 20) } else { rng.within(100, 200) };
            let inside = spaced(rng, |rng| sum(rng, 1));
            ["(".repeat(brackets), inside, ")".repeat(brackets)].concat()
        }
    }
}

/// With spaces in front and behind, now and then.
fn spaced(rng: &mut Rng, inside: impl FnOnce(&mut Rng) -> String) -> String {
    let text = inside(rng);
    if rng.chance(15) { [space(rng), text, space(rng)].concat() } else { text }
}

fn space(rng: &mut Rng) -> String {
    " ".repeat(rng.weighted(&[30, 60, 8, 2]))
}

/// Of at most that many operators within each other. Brackets stand where they change what is meant, and where not.
fn sum(rng: &mut Rng, depth: usize) -> String {
    if depth == 0 || rng.chance(15) {
        return number(rng);
    }
    let (left, right) = (sum(rng, depth - 1), sum(rng, depth - 1));
    let sign = rng.pick(&["+", "-", "-", "*"]);
    let text = [left, space(rng), sign.to_string(), space(rng), right].concat();
    if rng.chance(35) { ["(", &space(rng), &text, &space(rng), ")"].concat() } else { text }
}

fn number(rng: &mut Rng) -> String {
    let value = match rng.weighted(&[12, 60, 15, 6, 4, 3]) {
        0 => 0,
        1 => rng.below(40) as u64,
        2 => rng.below(100_000) as u64,
        3 => 10_u64.pow(rng.below(16) as u32),
        4 => MOST_NUMBER - rng.below(3) as u64,
        _ => rng.draw() % (MOST_NUMBER + 1),
    };
    value.to_string()
}

/// One letter goes, comes or is another.
fn nearly(rng: &mut Rng, text: String) -> String {
    let mut bytes = text.into_bytes();
    let signs = b"0123 +-*()./x";
    let sign = signs[rng.below(signs.len())];
    let at = rng.below(bytes.len());
    match rng.below(3) {
        0 => drop(bytes.remove(at)),
        1 => bytes.insert(at, sign),
        _ => bytes[at] = sign,
    }
    String::from_utf8(bytes).expect("ASCII")
}
