//! 02, A4: one attribute twice on a serialized element; where that is no reason to refuse; and what comes first.

use super::{Mark, mark};
use crate::generate::Room;
use crate::make::*;

pub fn marks() -> Vec<Mark> {
    [names(), values(), places(), order()].concat()
}

fn two(one: &str, other: &str) -> Vec<u8> {
    element("i", &[attribute_string(one, "1"), attribute_string(other, "2")])
}

/// Normalised as 000 does, and compared in small letters of ASCII.
fn names() -> Vec<Mark> {
    let rows = [
        ("written-alike", "a", "a", 16),
        ("class-and-classname", "class", "className", 16),
        ("for-and-htmlfor", "htmlFor", "for", 16),
        ("classname-twice", "className", "className", 16),
        ("in-capitals", "title", "TITLE", 16),
        ("kept-name-in-small-letters", "viewBox", "viewbox", 16),
        ("kept-name-in-capitals", "viewBox", "VIEWBOX", 16),
        ("hyphenated", "strokeWidth", "stroke-width", 16),
        ("hyphenated-in-capitals", "strokeWidth", "STROKE-WIDTH", 16),
        ("href", "href", "xlinkHref", 16),
        ("href-and-namespaced", "href", "xlink:href", 16),
        ("xlinkhref-and-namespaced", "xlinkHref", "xlink:href", 16),
        ("namespaced-alike", "a:b", "a:b", 16),
        ("namespaced-in-capitals", "a:b", "A:B", 16),
        ("namespaced-and-listed-so", "xml:lang", "xmlLang", 16),
        ("xlink-title", "xlink:title", "xlinkTitle", 16),
        ("key", "key", "KEY", 16),
        ("other-names", "a", "b", 0),
        ("hyphen-and-none", "strokewidth", "stroke-width", 0),
        ("classname-in-small-letters", "class", "classname", 0),
        ("classname-in-capitals", "className", "CLASSNAME", 0),
        ("another-namespace", "a:b", "c:b", 0),
        ("namespaced-and-not", "a:b", "b", 0),
        ("colon-and-hyphen", "xml:lang", "xml-lang", 0),
    ];
    rows.map(|(name, one, other, number)| mark(&format!("a4-{name}"), page_of(two(one, other)), vec![], number))
        .to_vec()
}

/// All attributes of the element count, whatever their value and whatever becomes of it.
fn values() -> Vec<Mark> {
    let rows = [
        ("string-and-expression", attribute_string("class", "t"), attribute_with("className", braces(code("x")))),
        ("no-value", attribute("a"), attribute("a")),
        ("no-value-and-string", attribute("disabled"), attribute_string("disabled", "")),
        ("dropped-empty-braces", attribute_with("a", empty_braces()), attribute_string("a", "1")),
        ("both-dropped", attribute_with("a", empty_braces()), attribute_with("a", empty_braces())),
        ("dropped-false", attribute_with("disabled", braces(boolean(false))), attribute("DISABLED")),
        ("dropped-tag", attribute_with("a", element("b", &[])), attribute_string("a", "1")),
        ("dropped-fragment", attribute_with("a", fragment(&[])), attribute_with("a", fragment(&[]))),
    ];
    let mut marks: Vec<Mark> = rows
        .into_iter()
        .map(|(name, one, other)| mark(&format!("a4-{name}"), page_of(element("i", &[one, other])), vec![], 16))
        .collect();
    let apart = [attribute_string("a", "1"), attribute("b"), attribute_with("c", braces(code("x"))), attribute("a")];
    marks.extend([
        mark("a4-listed", page_of(two("class", "className")), attributes_listed(&["class"]), 16),
        mark("a4-both-listed", page_of(two("class", "className")), attributes_listed(&["class", "className"]), 16),
        mark("a4-listed-alike", page_of(two("a", "a")), attributes_listed(&["a"]), 16),
        mark("a4-apart", page_of(element("i", &apart)), vec![], 16),
        mark("a4-of-a-void-element", page_of(element("br", &[attribute("a"), attribute("a")])), vec![], 16),
    ]);
    marks
}

/// Only what is serialized: no call, and nothing in a place that 000 never looks at.
fn places() -> Vec<Mark> {
    let with = |name: &str, tag: Vec<u8>, number: u32| mark(&format!("a4-{name}"), page_of(tag), vec![], number);
    let pair = || two("class", "className");
    let attributes = || [attribute("a"), attribute("a")];
    let call = |name: &str| element(name, &attributes());
    let spread_too = [&attributes()[..], &[spread(code("x"))]].concat();
    let dangerous = [&attributes()[..], &[attribute("dangerouslySetInnerHTML")]].concat();
    vec![
        with("of-a-component", call("Foo"), 0),
        with("of-a-member", call("a.b"), 0),
        with("of-a-namespaced", call("a:b"), 0),
        with("with-a-spread", element("i", &spread_too), 0),
        with("with-inner-html", element("i", &dangerous), 0),
        mark("a4-of-an-element-listed", page_of(pair()), elements_listed(&["i"]), 0),
        with("inside", element("p", &[text("t"), element("b", &[pair()])]), 16),
        with("in-a-component", element("Foo", &[pair()]), 16),
        with("in-a-listed-element-too", element("Foo", &[element("b", &[]), pair()]), 16),
        with("in-braces", element("p", &[braces(pair())]), 16),
        with("in-another-expression", element("p", &[braces(other(&[source("f("), pair(), source(")")]))]), 16),
        with("in-an-array", element("Foo", &[attribute_with("a", braces(array(&[pair()])))]), 16),
        with("in-a-spread", element("Foo", &[spread(pair())]), 16),
        with("in-a-fragment", fragment(&[pair()]), 16),
        with("in-fragments", fragment(&[fragment(&[pair(), text("t")])]), 16),
        with("in-a-void-element", element("br", &[pair()]), 0),
        with("in-a-spread-child", element("p", &[spread_child(pair())]), 0),
        with("in-a-tag-as-value", element("p", &[attribute_with("a", pair())]), 0),
        with(
            "in-an-earlier-key",
            element("Foo", &[attribute_with("key", braces(pair())), attribute_string("key", "2")]),
            0,
        ),
        with(
            "in-a-last-key",
            element("Foo", &[attribute_string("key", "2"), attribute_with("key", braces(pair()))]),
            16,
        ),
        mark(
            "a4-in-a-listed-tag-as-value",
            page_of(element("p", &[attribute_with("a", pair())])),
            attributes_listed(&["a"]),
            16,
        ),
        mark("a4-second-item", page(&[statement(&[element("i", &[])]), export(&[source("x"), pair()])]), vec![], 16),
        mark("a4-with-sums", page_of(element("p", &[braces(code("1 + 2")), pair()])), sums(), 16),
    ]
}

/// Behind 2 to 8 and 10, before 11, 12 and 13, each over the whole page.
fn order() -> Vec<Mark> {
    let pair = || two("class", "className");
    // A string that is escaped twice.
    let long = || element("Foo", &[text("a"), braces(string(&"\"".repeat(6_600))), element("i", &[])]);
    let left = || fragment(&[fragment(&[])]);
    let pages = |tags: &[Vec<u8>]| page(&[statement(tags)]);
    let mut short = mark("a4-before-12", page_of(pair()), vec![], 16);
    (short.case.templates_room, short.case.page_room) = (Room::None, Room::None);
    vec![
        mark("a4-behind-a-tag-left", pages(&[left(), pair()]), vec![], 10),
        mark("a4-before-a-tag-left", pages(&[pair(), left()]), vec![], 10),
        mark("a4-then-misplaced", pages(&[pair(), field(0x50, b"")]), vec![], 4),
        mark("a4-then-not-utf8", pages(&[pair(), field(0x20, b"\xff")]), vec![], 6),
        mark("a4-behind-a-long-one", pages(&[long(), pair()]), vec![], 16),
        mark("a4-before-a-long-one", pages(&[pair(), long()]), vec![], 16),
        short,
    ]
}
