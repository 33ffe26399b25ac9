//! 02, A12: the option, which texts are sums and what they come to, and where they stand.

use super::{Mark, listed_container, mark, taken};
use crate::answer::{MOST_NUMBER, MOST_OPTIONS, MOST_PAGE};
use crate::make::*;

pub fn marks() -> Vec<Mark> {
    [option(), texts(), bounds(), places(), order(), lengths()].concat()
}

/// 05 is empty and stands behind 04, at most once; it lies at depth 1.
fn option() -> Vec<Mark> {
    let with = |name: &str, options: &[Vec<u8>], number: u32| mark(name, page(&[]), options.concat(), number);
    let before = |option: Vec<u8>| [sums(), option];
    vec![
        with("a12-05-alone", &[sums()], 0),
        with("a12-05-last", &[elements_listed(&["a"]), attributes_listed(&["b"]), import_source("h"), sums()], 0),
        with("a12-05-twice", &[sums(), sums()], 4),
        with("a12-05-body", &[field(0x05, b"x")], 4),
        with("a12-05-body-a-field", &[field(0x05, &[0x20, 0, 0])], 4),
        with("a12-05-before-04", &before(import_source("h")), 4),
        with("a12-05-before-03", &before(attributes_listed(&["b"])), 4),
        with("a12-05-before-02", &before(elements_listed(&["a"])), 4),
        with("a12-05-then-06", &[sums(), field(0x06, b"")], 4),
        with("a12-05-torn", &[vec![0x05, 0]], 3),
        with("a12-05-past-the-end", &[vec![0x05, 0, 1]], 3),
        with("a12-options-4096", &[import_source(&"s".repeat(MOST_OPTIONS - 6)), sums()], 0),
        with("a12-options-4097", &[import_source(&"s".repeat(MOST_OPTIONS - 5)), sums()], 2),
    ]
}

/// As a property, where the card prints the number or the source.
fn one(name: &str, text: &str, printed: &str) -> Mark {
    let page = page_of(element("Foo", &[attribute_with("a", braces(code(text)))]));
    taken(&format!("a12-{name}"), page, sums(), 1, &format!("_jsx(Foo, {{ a: {printed} }})\n"))
}

fn texts() -> Vec<Mark> {
    let worked = [
        ("seats", "2 * 12 + 3", "27"),
        ("one-number", "7", "7"),
        ("zero", "0", "0"),
        ("no-spaces", "2*12+3", "27"),
        ("many-spaces", "  2  *  12  +  3  ", "27"),
        ("precedence", "2 + 3 * 4", "14"),
        ("brackets-first", "(2 + 3) * 4", "20"),
        ("left-first", "10 - 3 - 2", "5"),
        ("left-first-bracketed", "10 - (3 - 2)", "9"),
        ("both-levels", "1 - 2 * 3 + 4 * 5 - 6", "9"),
        ("negative", "3 - 12", "-9"),
        ("needless-brackets", "(((2) + ((3))))", "5"),
        ("space-in-brackets", "( 2 + 3 )", "5"),
        ("times-a-negative", "2 * (1 - 4)", "-6"),
        ("two-negatives", "(0 - 3) * (0 - 4)", "12"),
        ("zero-after-a-negative", "3 - 5 + 2", "0"),
        ("zero-times-zero", "0 * 0", "0"),
        ("ten", "10", "10"),
        ("zero-minus-one", "0 - 1", "-1"),
    ];
    let staying = [
        ("sign", "-1"),
        ("sign-behind-minus", "2 - -1"),
        ("sign-in-brackets", "(-1)"),
        ("plus-sign", "+1"),
        ("zero-in-front", "01"),
        ("two-zeros", "00"),
        ("zero-in-front-inside", "2 * (03 + 1)"),
        ("two-numbers", "1 2"),
        ("no-operand", "1 +"),
        ("no-first-operand", "* 2"),
        ("two-operators", "1 + * 2"),
        ("powers", "2 ** 3"),
        ("empty-brackets", "()"),
        ("open-bracket", "(1"),
        ("closed-bracket", "1)"),
        ("brackets-side-by-side", "(1)(2)"),
        ("number-before-bracket", "2(3)"),
        ("number-behind-bracket", "(2)3"),
        ("divided", "4 / 2"),
        ("rest", "4 % 2"),
        ("point", "1.5"),
        ("exponent", "1e3"),
        ("bigint", "7n"),
        ("underscore", "1_000"),
        ("hex", "0x10"),
        ("name", "n + 1"),
        ("comma", "1, 2"),
        ("tab", "1\t+ 2"),
        ("line-end", "1 +\n2"),
        ("no-break-space", "1 +\u{a0}2"),
        ("digit-outside-ascii", "\u{ff11}"),
        ("empty", ""),
        ("space-alone", " "),
    ];
    let mut marks: Vec<Mark> = worked.iter().map(|(name, text, value)| one(name, text, value)).collect();
    marks.extend(staying.iter().map(|(name, text)| one(&format!("stays-{name}"), text, text)));
    marks
}

fn bounds() -> Vec<Mark> {
    let most = MOST_NUMBER.to_string();
    let over = (MOST_NUMBER + 1).to_string();
    let worked = [
        ("most", most.clone(), most.clone()),
        ("most-by-a-step", format!("{} + 1", MOST_NUMBER - 1), most.clone()),
        ("most-by-a-product", "6361 * 69431 * 20394401".into(), most.clone()),
        ("least", format!("0 - {most}"), format!("-{most}")),
        ("least-by-a-product", "(0 - 6361) * 69431 * 20394401".into(), format!("-{most}")),
        ("most-and-back", format!("{most} - 1 + 1"), most.clone()),
        ("product-below", "94906265 * 94906265".into(), "9007199136250225".into()),
    ];
    let staying = [
        ("number-over", over.clone()),
        ("number-over-times-zero", format!("0 * {over}")),
        ("number-of-17-digits", "10000000000000000".into()),
        ("number-over-64-bits", "18446744073709551617".into()),
        ("number-over-128-bits", "340282366920938463463374607431768211457".into()),
        ("number-of-400-digits", "9".repeat(400)),
        ("step-over", format!("{most} + 1")),
        ("step-over-and-back", format!("{most} + 1 - 1")),
        ("step-under", format!("0 - {most} - 1")),
        ("step-under-and-back", format!("0 - {most} - 1 + 1")),
        ("product-over", "94906266 * 94906266".into()),
        ("product-under", "(0 - 94906266) * 94906266".into()),
        ("product-of-most", format!("{most} * {most}")),
        ("over-in-brackets", format!("1 + ({most} + 1) * 0")),
        ("zero-times-a-negative", "0 * (1 - 2)".into()),
        ("a-negative-times-zero", "(1 - 2) * 0".into()),
        ("zero-times-a-negative-inside", "5 + 0 * (1 - 2)".into()),
    ];
    let mut marks: Vec<Mark> = worked.iter().map(|(name, text, value)| one(name, text, value)).collect();
    marks.extend(staying.iter().map(|(name, text)| one(&format!("stays-{name}"), text, text)));
    marks
}

/// Wherever a 79 may stand; it is then a 71 or 75 there, and the Rust does with it what it does with these.
fn places() -> Vec<Mark> {
    let seats = || code("2 * 12 + 3");
    let less = || code("3 - 12");
    let template = |strings: &str, call: &str| format!("const $$_tpl_1 = [{strings}];\n_jsxTemplate($$_tpl_1{call})\n");
    let tag = |name: &str, tag: Vec<u8>, sum: u8, behind: &str| {
        taken(&format!("a12-in-{name}"), page_of(tag), sums(), sum, behind)
    };
    let in_call = |name: &str, parts: &[Vec<u8>], behind: &str| {
        tag(name, element("Foo", parts), 1, &format!("_jsx(Foo, {behind})\n"))
    };
    let mut listed = listed_container("a12-in-a-listed-attribute", "p", "class", braces(less()), "-9");
    listed.case.options.extend(sums());
    let without = page_of(element("p", &[braces(seats())]));
    vec![
        listed,
        taken("a12-without-05", without, vec![], 2 + 8, &template("\"<p>\", \"</p>\"", ", _jsxEscape(2 * 12 + 3)")),
        tag("a-child", element("p", &[text("a"), braces(seats())]), 2, &template("\"<p>a27</p>\"", "")),
        tag(
            "a-child-negative",
            element("p", &[text("a"), braces(less())]),
            2 + 8,
            &template("\"<p>a\", \"</p>\"", ", _jsxEscape(-9)"),
        ),
        tag(
            "an-attribute",
            element("p", &[attribute_with("title", braces(seats()))]),
            2,
            &template("\"<p title=\\\"27\\\"></p>\"", ""),
        ),
        tag(
            "an-attribute-negative",
            element("p", &[attribute_with("tabIndex", braces(less()))]),
            2,
            &template("\"<p tabindex=\\\"-9\\\"></p>\"", ""),
        ),
        tag(
            "a-boolean-attribute",
            element("p", &[attribute_with("disabled", braces(seats()))]),
            2,
            &template("\"<p disabled=\\\"27\\\"></p>\"", ""),
        ),
        tag("a-fragment", fragment(&[braces(seats()), text("b")]), 2, &template("\"27b\"", "")),
        in_call("an-only-child", &[braces(less())], "{ children: -9 }"),
        in_call("children", &[text("a"), braces(seats()), braces(less())], "{ children: [\"a27\", -9] }"),
        in_call("a-key", &[attribute_with("key", braces(seats()))], "null, 27"),
        in_call("a-spread", &[spread(less())], "{ ...-9 }"),
        in_call(
            "an-array",
            &[attribute_with("a", braces(array(&[seats(), hole(), array_spread(less())])))],
            "{ a: [27, , ...-9] }",
        ),
        in_call("a-spread-child", &[spread_child(seats())], "null"),
        in_call(
            "an-earlier-key",
            &[attribute_with("key", braces(seats())), attribute_string("key", "2")],
            "null, \"2\"",
        ),
        in_call("a-tag-as-value", &[attribute_with("a", element("i", &[braces(seats())]))], "null"),
        tag("a-void-element", element("br", &[braces(seats())]), 2, &template("\"<br>\"", "")),
        // Two pieces are none, whatever they are together; so is a piece beside a tag, and an item's own source.
        in_call("two-pieces", &[braces(other(&[source("1 + "), source("2")]))], "{ children: 1 + 2 }"),
        in_call("an-empty-piece-too", &[braces(other(&[source("1"), source("")]))], "{ children: 1 }"),
        in_call("no-piece", &[braces(other(&[]))], "{ children:  }"),
        in_call("a-literal", &[braces(literal("1 + 2"))], "{ children: 1 + 2 }"),
        in_call("a-string", &[braces(string("1 + 2"))], "{ children: \"1 + 2\" }"),
        taken("a12-in-an-item", page(&[statement(&[source("1 + 2")])]), sums(), 0, "1 + 2\n"),
        // In a 79 that is none itself.
        tag(
            "another-expression",
            element("Foo", &[braces(other(&[source("f("), element("i", &[braces(seats())]), source(")")]))]),
            1 + 2,
            "const $$_tpl_1 = [\"<i>27</i>\"];\n_jsx(Foo, { children: f(_jsxTemplate($$_tpl_1)) })\n",
        ),
    ]
}

/// 2 to 8 are given for the page as it came, whatever would become of it.
fn order() -> Vec<Mark> {
    let with = |name: &str, tag: Vec<u8>, number: u32| mark(&format!("a12-{name}"), page_of(tag), sums(), number);
    let in_braces = |piece: Vec<u8>| fragment(&[braces(other(&[piece]))]);
    let deep = |tags: usize| (1..tags).fold(fragment(&[braces(code("1 + 2"))]), |inner, _| element("i", &[inner]));
    vec![
        with("not-utf8", in_braces(field(0x20, b"1 + \xff")), 6),
        with("misplaced-piece", in_braces(field(0x60, b"1 + 2")), 4),
        with("torn-piece", fragment(&[braces(field(0x79, &[0x20, 0, 2, b'1']))]), 3),
        // 01, 12, the tags, 52, 79, 20.
        with("depth-48", deep(43), 0),
        with("depth-49", deep(44), 8),
        with("big-number-beside", fragment(&[braces(code("1")), braces(number(MOST_NUMBER + 1))]), 7),
        with("tag-left", fragment(&[fragment(&[]), spread_child(code("1 + 2"))]), 0),
        with("tag-left-alone", fragment(&[spread_child(code("1 + 2"))]), 10),
    ]
}

/// A page at its limit, whose worked form is longer; and brackets that fill a page.
fn lengths() -> Vec<Mark> {
    let sized = |length: usize, one: Vec<u8>| {
        // 01, 12, 30, 40 `F`, 50, 40 `a`, 52 and 76 stand around the row, and a 70 fills what is left.
        let around = 3 + 3 + 3 + 4 + 3 + 4 + 3 + 3;
        let count = (length - around - 3) / one.len();
        let filling = length - around - 3 - count * one.len();
        let row = [vec![one; count], vec![string(&"x".repeat(filling))]].concat();
        page_of(element("F", &[attribute_with("a", braces(array(&row)))]))
    };
    let brackets = |count: usize| {
        let text = ["(".repeat(count), "1".to_string(), ")".repeat(count)].concat();
        page_of(fragment(&[braces(code(&text))]))
    };
    let with = |name: &str, page: Vec<u8>, number: u32| mark(name, page, sums(), number);
    // 01, 12, 31, 52, 79 and 20 stand around the brackets.
    let most = (MOST_PAGE - 18 - 1) / 2;
    vec![
        with("a12-page-32768", sized(MOST_PAGE, code("1")), 0),
        with("a12-page-32769", sized(MOST_PAGE + 1, code("1")), 2),
        with("a12-page-32768-stays", sized(MOST_PAGE, code("x")), 0),
        with("a12-brackets-4000", brackets(4_000), 0),
        with("a12-brackets-in-32768", brackets(most), 0),
        with("a12-brackets-open-in-32768", page_of(fragment(&[braces(code(&"(".repeat(2 * most)))])), 0),
    ]
}
