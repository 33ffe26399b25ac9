//! The check of A9 finds what is wrong: page outs of accepted pages, damaged one way at a time; and what each of the
//! four places holds.

use oracle::field::{Node, at_nth, read, write};
use oracle::kept::{Counts, compare};
use oracle::make::*;
use oracle::outcome;

/// A tag with a 74 and three 79s that are kept, and one 79 lost in each of the four places.
fn sample() -> Vec<u8> {
    let parts = [
        attribute_with("a", braces(literal("1n"))),
        attribute_with("b", element("i", &[braces(code("tag"))])),
        braces(other(&[source("f("), element("b", &[braces(code("x"))]), source(")")])),
        braces(code("x")),
        spread_child(code("spread")),
        element("br", &[braces(code("void"))]),
        element("Foo", &[attribute_with("key", braces(code("key"))), attribute_string("key", "2")]),
    ];
    page_of(element("p", &parts))
}

fn page_out(page: &[u8], options: &[u8]) -> Vec<u8> {
    outcome(page, options).expect("the page is accepted").page
}

/// The sample's page out with a change at its first field of that tag and source, or body.
fn changed(tag: u8, text: &str, change: impl Fn(&mut Vec<Node>, usize)) -> Vec<u8> {
    let mut row = read(&page_out(&sample(), &[])).unwrap();
    let mut place = None;
    let mut seen = 0;
    for node in &row {
        node.each(&mut |node| {
            let first = node.inner.first().map_or(&node.bytes, |inner| &inner.bytes);
            if place.is_none() && node.tag == tag && first == text.as_bytes() {
                place = Some(seen);
            }
            seen += 1;
        });
    }
    at_nth(&mut row, &mut place.expect("the field is there"), &mut { change });
    write(&row)
}

#[test]
#[cfg_attr(not(jsx_source), ignore = "jsx_precompile.rs is not there")]
fn each_damage_is_found() {
    let page = sample();
    assert_eq!(compare(&page, &[], &page_out(&page, &[])), Ok(Counts { kept: 4, lost: [1; 4] }));
    let of = |text: &str| Node::row(0x79, vec![Node::leaf(0x20, text)]);
    let damaged = [
        // dropped
        (changed(0x74, "1n", |row, i| drop(row.remove(i))), "74 [\"1n\"]: 1 times in the page, 0"),
        (changed(0x79, "x", |row, i| drop(row.remove(i))), "79 [\"x\"]: 2 times in the page, 1"),
        (changed(0x79, "f(", |row, i| drop(row.remove(i))), "79"),
        // another in its place
        (changed(0x79, "x", |row, i| row[i] = Node::leaf(0x73, "")), "79 [\"x\"]: 2 times in the page, 1"),
        (changed(0x74, "1n", |row, i| row[i] = of("1n")), "74 [\"1n\"]: 1 times in the page, 0"),
        // doubled
        (changed(0x74, "1n", |row, i| row.insert(i, row[i].clone())), "74 [\"1n\"]: 1 times in the page, 2"),
        (changed(0x79, "x", |row, i| row.insert(i, row[i].clone())), "79 [\"x\"]: 2 times in the page, 3"),
        // changed
        (changed(0x74, "1n", |row, i| row[i].bytes.push(b'n')), "74 [\"1n\"]: 1 times in the page, 0"),
        (changed(0x79, "x", |row, i| row[i].inner[0].bytes[0] = b'y'), "79 [\"x\"]: 2 times in the page, 1"),
        (changed(0x79, "f(", |row, i| row[i].inner.reverse()), "79 [\"f(\", \")\"]: 1 times in the page, 0"),
        (changed(0x79, "f(", |row, i| drop(row[i].inner.pop())), "79 [\"f(\", \")\"]: 1 times in the page, 0"),
        (changed(0x79, "x", |row, i| row[i].inner.push(Node::leaf(0x20, ""))), "79 [\"x\"]: 2 times in the page, 1"),
        (changed(0x79, "x", |row, i| row[i].inner.clear()), "79 [\"x\"]: 2 times in the page, 1"),
        // its pieces stand there, but not as a 79
        (changed(0x79, "f(", |row, i| row[i].tag = 0x12), "79 [\"f(\", \")\"]: 1 times in the page, 0"),
        // lost ones that are kept
        (changed(0x79, "x", |row, i| row.insert(i, of("void"))), "79 [\"void\"]: 0 times in the page, 1"),
        (changed(0x79, "x", |row, i| row.insert(i, of("spread"))), "79 [\"spread\"]: 0 times in the page, 1"),
        (changed(0x79, "x", |row, i| row.insert(i, of("tag"))), "79 [\"tag\"]: 0 times in the page, 1"),
        (changed(0x79, "x", |row, i| row.insert(i, of("key"))), "79 [\"key\"]: 0 times in the page, 1"),
    ];
    for (i, (out, expected)) in damaged.iter().enumerate() {
        let words = compare(&page, &[], out).expect_err(&format!("damage {i} is not found"));
        assert!(words.starts_with(expected), "damage {i}: {words}");
    }
    println!("{} damages", damaged.len());
}

/// A row of the table of places: a tag, options, how many are kept, and how many are lost in each place.
type Row = (&'static str, Vec<u8>, Vec<u8>, u64, [u64; 4]);

const VOID: [u64; 4] = [1, 0, 0, 0];
const SPREAD: [u64; 4] = [0, 1, 0, 0];
const TAG: [u64; 4] = [0, 0, 1, 0];
const KEY: [u64; 4] = [0, 0, 0, 1];
const NONE: [u64; 4] = [0; 4];

fn hold(rows: &[Row]) {
    for (name, tag, options, kept, lost) in rows {
        let page = page_of(tag.clone());
        let counts = compare(&page, options, &page_out(&page, options));
        assert_eq!(counts, Ok(Counts { kept: *kept, lost: *lost }), "{name}");
    }
    println!("{} rows", rows.len());
}

fn x() -> Vec<u8> {
    braces(code("x"))
}

#[test]
#[cfg_attr(not(jsx_source), ignore = "jsx_precompile.rs is not there")]
fn children_are_lost_in_void_elements_and_spreads() {
    let listed = |name: &str| elements_listed(&[name]);
    hold(&[
        ("void", element("br", &[x()]), vec![], 0, VOID),
        ("void, deep", element("br", &[element("Foo", &[spread_child(code("x"))])]), vec![], 0, VOID),
        ("void, its attribute", element("br", &[attribute_with("a", x())]), vec![], 1, NONE),
        ("void, but a component", element("Br", &[x()]), vec![], 1, NONE),
        ("void, listed", element("br", &[x()]), listed("br"), 1, NONE),
        ("void, with a spread", element("br", &[spread(code("y")), x()]), vec![], 2, NONE),
        ("void, dangerous", element("br", &[attribute("dangerouslySetInnerHTML"), x()]), vec![], 1, NONE),
        ("void, namespaced", element("br:br", &[x()]), vec![], 1, NONE),
        ("spread of a tag", element("i", &[spread_child(code("x"))]), vec![], 0, SPREAD),
        ("spread of a call", element("Foo", &[spread_child(literal("x"))]), vec![], 0, SPREAD),
        ("spread, deep", element("Foo", &[spread_child(array(&[element("i", &[x()])]))]), vec![], 0, SPREAD),
    ]);
}

#[test]
#[cfg_attr(not(jsx_source), ignore = "jsx_precompile.rs is not there")]
fn tags_as_values_are_lost_unless_listed_and_serialized() {
    let tagged = |name: &str, attribute: &str| element(name, &[attribute_with(attribute, element("i", &[x()]))]);
    let fragment = element("a", &[attribute_with("b", fragment(&[x(), text("t")]))]);
    let in_braces = element("a", &[attribute_with("b", braces(element("i", &[x()])))]);
    let listed = |name: &str| attributes_listed(&[name]);
    hold(&[
        ("element", tagged("a", "b"), vec![], 0, TAG),
        ("fragment", fragment.clone(), vec![], 0, TAG),
        ("in a container", in_braces, vec![], 1, NONE),
        ("listed", tagged("a", "b"), listed("b"), 1, NONE),
        ("listed, a fragment", fragment, listed("b"), 1, NONE),
        ("listed, not as written", tagged("a", "className"), listed("class"), 0, TAG),
        ("listed, normalised", tagged("a", "xlink:href"), listed("href"), 1, NONE),
        ("listed, in a call", tagged("Foo", "b"), listed("b"), 0, TAG),
        ("listed, of an element listed", tagged("a", "b"), [elements_listed(&["a"]), listed("b")].concat(), 0, TAG),
    ]);
}

#[test]
#[cfg_attr(not(jsx_source), ignore = "jsx_precompile.rs is not there")]
fn keys_are_lost_to_later_ones() {
    let call = |name: &str, first: &str, later: Vec<u8>| element(name, &[attribute_with(first, x()), later]);
    let string = |name: &str| attribute_string(name, "2");
    let nothing = attribute_with("key", empty_braces());
    let tag = attribute_with("key", element("i", &[]));
    let between = element("Foo", &[attribute_with("key", x()), spread(code("y")), string("key")]);
    hold(&[
        ("string", call("Foo", "key", string("key")), vec![], 0, KEY),
        ("container", call("Foo", "key", attribute_with("key", braces(code("y")))), vec![], 1, KEY),
        ("empty container", call("Foo", "key", nothing), vec![], 0, KEY),
        ("tag", call("Foo", "key", tag), vec![], 0, KEY),
        ("behind a spread", between, vec![], 1, KEY),
        ("without a value", call("Foo", "key", attribute("key")), vec![], 1, NONE),
        ("another", call("Foo", "key", string("keys")), vec![], 1, NONE),
        ("of a tag listed", call("i", "key", string("key")), elements_listed(&["i"]), 0, KEY),
        ("capital on a component", call("Foo", "Key", string("key")), vec![], 1, NONE),
        ("capital on a member", call("a.b", "key", string("KEY")), vec![], 1, NONE),
        ("capital on a namespaced", call("a:b", "Key", string("key")), vec![], 0, KEY),
        ("a later capital", call("a:b", "key", string("KEY")), vec![], 0, KEY),
        ("namespaced", call("Foo", "a:key", string("a:key")), vec![], 1, NONE),
        (
            "the tag of an earlier key",
            element("Foo", &[attribute_with("key", element("i", &[x()])), string("key")]),
            vec![],
            0,
            TAG,
        ),
    ]);
}

/// 02, A12: kept and lost expressions are counted on the worked page, in which a sum is none.
#[test]
#[cfg_attr(not(jsx_source), ignore = "jsx_precompile.rs is not there")]
fn sums_are_no_expressions_once_they_are_worked_out() {
    let kept = element("p", &[braces(code("1 + 2")), x(), braces(code("-1"))]);
    let lost = element("p", &[spread_child(code("1 + 2")), spread_child(code("0 * (1 - 2)"))]);
    hold(&[
        ("without the option", kept.clone(), vec![], 3, NONE),
        ("worked out", kept, sums(), 2, NONE),
        ("lost without the option", lost.clone(), vec![], 0, [0, 2, 0, 0]),
        ("lost and worked out", lost, sums(), 0, SPREAD),
    ]);
}
