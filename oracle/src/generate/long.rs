//! Pages whose outputs come near the longest body or go over it.

use super::rng::Rng;
use super::texts;
use crate::make::*;

/// A page and its options.
pub fn inputs(rng: &mut Rng) -> (Vec<u8>, Vec<u8>) {
    match rng.below(6) {
        0 => (near_static_string(rng), vec![]),
        1 => (near_item(rng), vec![]),
        2 => (twice_escaped(rng), vec![]),
        3 => (many(rng), vec![]),
        4 => (many_sums(rng), sums()),
        _ => (many_brackets(rng), if rng.chance(80) { sums() } else { vec![] }),
    }
}

/// Short sums in a row: worked out they take more bytes than they had, up to eleven for seven.
fn many_sums(rng: &mut Rng) -> Vec<u8> {
    let short = ["0", "7", "1-2", "(3)", "4 * 5", "01", "x"];
    let row = |rng: &mut Rng, of_one: fn(Vec<u8>) -> Vec<u8>, most: usize| -> Vec<Vec<u8>> {
        let mut bytes = rng.within(28_000, most);
        let mut row = vec![];
        while let Some(left) = bytes.checked_sub(18) {
            let one = of_one(code(if rng.chance(90) { short[rng.below(2)] } else { rng.pick(&short) }));
            bytes = left + 18 - one.len();
            row.push(one);
        }
        row
    };
    match rng.below(3) {
        0 => page_of(element("Foo", &[attribute_with("a", braces(array(&row(rng, |sum| sum, 32_700))))])),
        1 => page_of(element("p", &row(rng, braces, 32_700))),
        _ => page_of(element("Foo", &row(rng, braces, 32_700))),
    }
}

/// One sum with so many brackets that they fill a page; now and then one too few or too many.
fn many_brackets(rng: &mut Rng) -> Vec<u8> {
    let (open, inside) = (rng.within(100, 16_370), rng.pick(&["1", "1 - 2", "9007199254740991+1", ""]));
    let closed = if rng.chance(80) { open } else { open - 1 + 2 * rng.below(2) };
    page_of(fragment(&[braces(code(&["(".repeat(open), inside.to_string(), ")".repeat(closed)].concat()))]))
}

/// `<p>` with a text and up to three gaps, whose template is within three of the longest body, 65,535: an 84 has six bytes
/// of number and count, a kind for each gap, and a header for each static string.
fn near_static_string(rng: &mut Rng) -> Vec<u8> {
    let gaps = rng.below(4);
    let wanted = 65_535 - 3 + rng.below(7) - (6 + gaps + 3 * (gaps + 1));
    let escaped = 10_900;
    let plain = wanted - "<p></p>".len() - 6 * escaped;
    let mut children = vec![text(&("\"".repeat(escaped) + &"x".repeat(plain)))];
    children.extend((0..gaps).map(|_| braces(code("x"))));
    page_of(element("p", &children))
}

/// A call with a string whose statement is within three of the longest.
fn near_item(rng: &mut Rng) -> Vec<u8> {
    let wanted = 65_535 - 3 + rng.below(7);
    // 94, 81 `Foo`, 95, 96, 81 `children`, 70: headers and names before the string.
    let around = 3 + (3 + 3) + 3 + 3 + (3 + 8) + 3;
    let escaped = 10_900;
    let plain = wanted - around - 6 * escaped;
    let children = [braces(string(&"'\"".repeat(escaped / 2))), text(&"x".repeat(plain + escaped / 2))];
    page_of(element("Foo", &children))
}

/// A call whose children become a template, so that strings are escaped twice.
fn twice_escaped(rng: &mut Rng) -> Vec<u8> {
    let mut inside = vec![];
    let length = rng.within(5_500, 8_000);
    texts::escaped(rng, &mut inside, length);
    let inside = String::from_utf8(inside).expect("ASCII");
    page_of(element("Foo", &[text("a"), braces(string(&inside)), element("i", &[])]))
}

/// Several long texts, none of which need be too long by itself.
fn many(rng: &mut Rng) -> Vec<u8> {
    let mut parts = vec![];
    for _ in 0..rng.within(1, 4) {
        let mut inside = vec![];
        let length = rng.within(500, 6_000);
        texts::escaped(rng, &mut inside, length);
        let inside = String::from_utf8(inside).expect("ASCII");
        parts.push(match rng.below(4) {
            0 => text(&inside),
            1 => braces(string(&inside)),
            2 => element("b", &[text(&inside)]),
            _ => element("Bar", &[text(&inside), text("b")]),
        });
    }
    page_of(element(rng.pick(&["p", "Foo", "a.b"]), &parts))
}
