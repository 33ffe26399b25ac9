//! 02, A10: serialized elements that are void only once their names are in small letters; where that is no reason to
//! refuse; and what comes first.

use super::{Mark, mark, taken};
use crate::generate::Room;
use crate::generate::names::listed_in;
use crate::make::*;

pub fn marks() -> Vec<Mark> {
    [names(), places(), order()].concat()
}

fn names() -> Vec<Mark> {
    let with = |name: &str, number: u32| mark(&format!("a10-{name}"), page_of(element(name, &[])), vec![], number);
    // With a capital at the end: each of the 14 has at least two letters.
    let capital = |name: &&str| name[..name.len() - 1].to_string() + &name[name.len() - 1..].to_uppercase();
    let mut marks: Vec<Mark> = listed_in("is_void_element").iter().map(|name| with(&capital(name), 19)).collect();
    marks.extend(["iNPUT", "iMg", "sourCe", "wBR"].map(|name| with(name, 19)));
    marks.extend(["bRr", "bR-", "b-R", "r", "dIV", "sPAN"].map(|name| with(name, 0)));
    let tag = |name: &str, tag: Vec<u8>, sum: u8, behind: &str| taken(name, page_of(tag), vec![], sum, behind);
    marks.extend([
        tag("a10-component", element("Br", &[]), 1, "_jsx(Br, null)\n"),
        tag("a10-component-in-capitals", element("INPUT", &[]), 1, "_jsx(INPUT, null)\n"),
        tag("a10-other-mixed-case", element("dIV", &[text("x")]), 2, &template("\"<dIV>x</dIV>\"")),
        tag("a10-small-letters", element("br", &[]), 2, &template("\"<br>\"")),
    ]);
    marks
}

fn template(strings: &str) -> String {
    format!("const $$_tpl_1 = [{strings}];\n_jsxTemplate($$_tpl_1)\n")
}

/// Only what is serialized: no call, and nothing in a place that 000 never looks at.
fn places() -> Vec<Mark> {
    let with = |name: &str, tag: Vec<u8>, number: u32| mark(&format!("a10-{name}"), page_of(tag), vec![], number);
    let mixed = || element("bR", &[]);
    vec![
        with("with-attributes", element("iNPUT", &[attribute_string("type", "text"), attribute("required")]), 19),
        with("with-children", element("bR", &[text("x"), element("i", &[])]), 19),
        with("with-a-spread", element("bR", &[spread(code("x"))]), 0),
        with("with-inner-html", element("bR", &[attribute("dangerouslySetInnerHTML")]), 0),
        with("as-a-member", element("bR.a", &[]), 0),
        with("as-a-namespaced", element("a:bR", &[]), 0),
        mark("a10-listed", page_of(mixed()), elements_listed(&["bR"]), 0),
        mark("a10-listed-in-small-letters", page_of(mixed()), elements_listed(&["br"]), 19),
        with("inside", element("p", &[text("t"), mixed()]), 19),
        with("in-a-component", element("Foo", &[mixed()]), 19),
        with("in-braces", element("p", &[braces(mixed())]), 19),
        with("in-another-expression", element("p", &[braces(other(&[source("f("), mixed(), source(")")]))]), 19),
        with("in-a-fragment", fragment(&[mixed()]), 19),
        with("in-a-void-element", element("br", &[mixed()]), 0),
        with("in-a-spread-child", element("p", &[spread_child(mixed())]), 0),
        with("in-a-tag-as-value", element("p", &[attribute_with("a", mixed())]), 0),
        mark(
            "a10-in-a-listed-tag-as-value",
            page_of(element("p", &[attribute_with("a", mixed())])),
            attributes_listed(&["a"]),
            19,
        ),
        mark("a10-with-sums", page_of(element("p", &[braces(code("1 + 2")), mixed()])), sums(), 19),
    ]
}

/// Behind 2 to 8, 10 and 16, before 11, 12 and 13, each over the whole page.
fn order() -> Vec<Mark> {
    let mixed = || element("bR", &[]);
    let twice = || element("i", &[attribute("class"), attribute("className")]);
    // A string that is escaped twice.
    let long = || element("Foo", &[text("a"), braces(string(&"\"".repeat(6_600))), element("i", &[])]);
    let left = || fragment(&[fragment(&[])]);
    let pages = |tags: &[Vec<u8>]| page(&[statement(tags)]);
    let mut short = mark("a10-before-12", page_of(mixed()), vec![], 19);
    (short.case.templates_room, short.case.page_room) = (Room::None, Room::None);
    vec![
        mark("a10-behind-a-tag-left", pages(&[left(), mixed()]), vec![], 10),
        mark("a10-before-a-tag-left", pages(&[mixed(), left()]), vec![], 10),
        mark("a10-behind-an-attribute-twice", pages(&[twice(), mixed()]), vec![], 16),
        mark("a10-before-an-attribute-twice", pages(&[mixed(), twice()]), vec![], 16),
        mark("a10-and-an-attribute-twice", page_of(element("bR", &[attribute("a"), attribute("A")])), vec![], 16),
        mark("a10-all-three", pages(&[mixed(), twice(), left()]), vec![], 10),
        mark("a10-then-misplaced", pages(&[mixed(), field(0x50, b"")]), vec![], 4),
        mark("a10-before-a-long-one", pages(&[mixed(), long()]), vec![], 19),
        short,
    ]
}
