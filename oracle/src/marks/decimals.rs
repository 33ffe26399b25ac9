//! 02, A2: decimals at each bound and beyond it, how they are written, and where they stand.

use super::{Mark, listed_container, mark, taken};
use crate::decimal::{MOST_DIGITS, MOST_PLACES};
use crate::make::*;

pub fn marks() -> Vec<Mark> {
    [bounds(), bodies(), written(), places()].concat()
}

/// As the value of an attribute, where it is written into the template.
fn valued(expression: Vec<u8>) -> Vec<u8> {
    page_of(element("a", &[attribute_with("b", braces(expression))]))
}

fn bounds() -> Vec<Mark> {
    let rows = [
        ("most-digits", MOST_DIGITS, 0, 0),
        ("over-digits", MOST_DIGITS + 1, 0, 7),
        ("most-places", 1, MOST_PLACES, 0),
        ("over-places", 1, MOST_PLACES + 1, 7),
        ("zero-over-places", 0, MOST_PLACES + 1, 7),
        ("most-of-both", MOST_DIGITS, MOST_PLACES, 0),
        ("over-both", MOST_DIGITS + 1, MOST_PLACES + 1, 7),
        ("most-whole-number", crate::answer::MOST_NUMBER, 2, 7),
        ("all-ones", u64::MAX, u8::MAX, 7),
    ];
    let both = |(name, digits, places, number): (&str, u64, u8, u32)| {
        [
            mark(&format!("a2-{name}"), valued(decimal(digits, places)), vec![], number),
            mark(&format!("a2-minus-{name}"), valued(minus_decimal(digits, places)), vec![], number),
        ]
    };
    rows.into_iter().flat_map(both).collect()
}

/// Another length than nine is 4, before 7; depth comes before both; a tag behind 7B is none.
fn bodies() -> Vec<Mark> {
    let mut marks = vec![];
    for length in [0, 1, 8, 10, 18] {
        marks.push(mark(&format!("a2-bytes-{length}"), valued(field(0x7a, &vec![0; length])), vec![], 4));
        marks.push(mark(&format!("a2-minus-bytes-{length}"), valued(field(0x7b, &vec![255; length])), vec![], 4));
    }
    let at_depth_49 =
        |leaf: Vec<u8>| page_of((1..45).fold(element("i", &[braces(leaf)]), |inner, _| element("i", &[inner])));
    let two = |one: Vec<u8>, other: Vec<u8>| page_of(element("i", &[braces(one), braces(other)]));
    marks.extend([
        mark("a2-over-digits-at-49", at_depth_49(decimal(u64::MAX, 0)), vec![], 8),
        mark("a2-bytes-8-at-49", at_depth_49(field(0x7a, &[0; 8])), vec![], 8),
        mark("a2-over-digits-first", two(decimal(u64::MAX, 0), field(0x70, b"\xff")), vec![], 7),
        mark("a2-over-digits-second", two(field(0x70, b"\xff"), decimal(u64::MAX, 0)), vec![], 6),
        mark(
            "a2-two-in-a-container",
            page_of(element("i", &[braces([decimal(1, 0), decimal(1, 0)].concat())])),
            vec![],
            4,
        ),
        mark("a2-as-a-child", page_of(element("i", &[decimal(1, 0)])), vec![], 4),
        mark("a2-as-a-piece", page_of(decimal(1, 0)), vec![], 4),
        mark("a2-7c", valued(field(0x7c, &[0; 9])), vec![], 4),
    ]);
    marks
}

/// Texts from A2's words: no trailing zeros, no bare point, a 0 before the point where needed, zero is `0`.
fn written() -> Vec<Mark> {
    let texts = [
        (0, 0, "0"),
        (0, 15, "0"),
        (7, 0, "7"),
        (70, 0, "70"),
        (70, 1, "7"),
        (125, 1, "12.5"),
        (1250, 2, "12.5"),
        (1205, 2, "12.05"),
        (1200, 2, "12"),
        (5, 2, "0.05"),
        (50, 2, "0.5"),
        (1, 15, "0.000000000000001"),
        (999_999_999_999_999, 15, "0.999999999999999"),
        (999_999_999_999_999, 14, "9.99999999999999"),
        (999_999_999_999_999, 1, "99999999999999.9"),
        (100_000_000_000_000, 14, "1"),
        (100_000_000_000_001, 14, "1.00000000000001"),
    ];
    let one = |(digits, places, text): (u64, u8, &str), sign: &str, expression: Vec<u8>| {
        let minus = if sign == "-" { "minus-" } else { "" };
        let behind = format!("const $$_tpl_1 = [\"<a b=\\\"{sign}{text}\\\"></a>\"];\n_jsxTemplate($$_tpl_1)\n");
        taken(&format!("a2-{minus}{digits}-over-{places}"), valued(expression), vec![], 2, &behind)
    };
    let both = |row: (u64, u8, &str)| [one(row, "", decimal(row.0, row.1)), one(row, "-", minus_decimal(row.0, row.1))];
    texts.into_iter().flat_map(both).collect()
}

/// Wherever a whole number may stand, and treated alike there.
fn places() -> Vec<Mark> {
    let template = |strings: &str, call: &str| format!("const $$_tpl_1 = [{strings}];\n_jsxTemplate($$_tpl_1{call})\n");
    let in_call = |name: &str, parts: &[Vec<u8>], behind: &str| {
        taken(name, page_of(element("Foo", parts)), vec![], 1, &format!("_jsx(Foo, {behind})\n"))
    };
    let price = || decimal(1250, 2);
    let less = || minus_decimal(1250, 2);
    vec![
        taken(
            "a2-child",
            page_of(element("p", &[text("a"), braces(price()), text("b")])),
            vec![],
            2,
            &template("\"<p>a12.5b</p>\"", ""),
        ),
        taken(
            "a2-minus-child",
            page_of(element("p", &[text("a"), braces(less())])),
            vec![],
            2 + 8,
            &template("\"<p>a\", \"</p>\"", ", _jsxEscape(-12.5)"),
        ),
        taken(
            "a2-boolean-attribute",
            page_of(element("p", &[attribute_with("disabled", braces(price()))])),
            vec![],
            2,
            &template("\"<p disabled=\\\"12.5\\\"></p>\"", ""),
        ),
        taken("a2-fragment", page_of(fragment(&[braces(price()), text("b")])), vec![], 2, &template("\"12.5b\"", "")),
        in_call("a2-only-child", &[braces(price())], "{ children: 12.5 }"),
        in_call("a2-minus-only-child", &[braces(less())], "{ children: -12.5 }"),
        in_call("a2-children", &[text("a"), braces(price()), braces(less())], "{ children: [\"a12.5\", -12.5] }"),
        in_call("a2-property", &[attribute_with("a", braces(price()))], "{ a: 12.5 }"),
        in_call("a2-minus-zero", &[attribute_with("a", braces(minus_decimal(0, 2)))], "{ a: -0 }"),
        in_call("a2-key", &[attribute_with("key", braces(price()))], "null, 12.5"),
        in_call("a2-spread", &[spread(price())], "{ ...12.5 }"),
        in_call(
            "a2-array",
            &[attribute_with("a", braces(array(&[price(), hole(), array_spread(less()), number(12)])))],
            "{ a: [12.5, , ...-12.5, 12] }",
        ),
        in_call("a2-flattened", &[fragment(&[braces(array(&[price()]))]), text("")], "{ children: 12.5 }"),
        in_call("a2-spread-child", &[spread_child(price())], "null"),
        listed_container("a2-listed", "p", "class", braces(price()), "12.5"),
        listed_container("a2-minus-listed", "p", "class", braces(less()), "-12.5"),
    ]
}
