//! The worst that the limits allow: what is dear for its bytes, as often as a page holds it.

use super::Set;
use oracle::answer::{MOST_OPTIONS, MOST_PAGE};
use oracle::make::*;

pub fn sets() -> Vec<Set> {
    [attributes(), listed(), texts(), tags(), gaps(), chains(), deep(), fragments()].into_iter().flatten().collect()
}

const ROOM: usize = MOST_PAGE - 3;

/// As many copies as go into a page beside some bytes.
fn fill(beside: usize, one: &[u8]) -> Vec<Vec<u8>> {
    vec![one.to_vec(); (ROOM - beside) / one.len()]
}

/// As many different ones as go into a page beside some bytes: an element has no attribute twice.
fn each(beside: usize, one: impl Fn(&str) -> Vec<u8>) -> Vec<Vec<u8>> {
    let mut left = ROOM - beside;
    (0..)
        .map(|n| one(&letters(n)))
        .take_while(|part| {
            let fits = part.len() <= left;
            left = left.saturating_sub(part.len());
            fits
        })
        .collect()
}

/// The nth name of small letters: a, b, … z, ba, bb, …
fn letters(n: usize) -> String {
    let last = char::from(b'a' + (n % 26) as u8);
    if n < 26 { last.to_string() } else { letters(n / 26) + &last.to_string() }
}

fn one(name: &str, page: Vec<u8>) -> Set {
    Set::of(name, vec![page])
}

/// A page of one statement that is this tag.
fn tag(name: &str, tag: Vec<u8>) -> Set {
    one(name, page_of(tag))
}

fn i() -> Vec<u8> {
    element("i", &[])
}

fn e() -> Vec<u8> {
    code("e")
}

/// Many attributes of one element.
fn attributes() -> Vec<Set> {
    let many = |element_name: &str, attribute: Vec<u8>| element(element_name, &fill(20, &attribute));
    let all = |one: &dyn Fn(&str) -> Vec<u8>| element("i", &each(20, one));
    vec![
        tag("attributes, no value", all(&|name| attribute(name))),
        tag("attributes, strings", all(&|name| attribute_string(name, "b"))),
        tag("attributes, expressions", all(&|name| attribute_with(name, braces(e())))),
        tag("attributes, capitals", all(&|name| attribute(&name.to_uppercase()))),
        tag("attributes, long table row", all(&|name| attribute(&format!("sAtokeDashoffset{name}")))),
        tag("attributes, namespaced", all(&|name| attribute(&format!("a:{name}")))),
        tag("attributes, one twice", element("i", &[each(30, attribute), vec![attribute("a")]].concat())),
        tag("attributes, one name", many("i", attribute("a"))),
        tag(
            "attributes, sixteen of each",
            element("b", &fill(20, &element("i", &(0..16).map(|n| attribute(&letters(n))).collect::<Vec<_>>()))),
        ),
        tag(
            "attributes, seventeen of each",
            element("b", &fill(20, &element("i", &(0..17).map(|n| attribute(&letters(n))).collect::<Vec<_>>()))),
        ),
        tag("attributes of a call", many("F", attribute("a"))),
        tag("attributes of a call, key", many("F", attribute_string("key", "b"))),
        tag("attributes, spread", many("i", spread(e()))),
    ]
}

/// Options that list as many names as they hold.
fn listed() -> Vec<Set> {
    let under = |name: &str, options: Vec<u8>, tag: Vec<u8>| Set::under(name, options, page_of(tag));
    let many = |name: &str, one: Vec<u8>| element(name, &fill(20, &one));
    let almost = |bytes: usize| format!("{}b", "a".repeat(bytes - 1));
    vec![
        under("02 full, elements", short_names(2), many("b", i())),
        Set::under("02 full, templates", short_names(2), page(&[statement(&fill(20, &i()))])),
        under("02 full, same first letter", names_like(2, "j"), many("b", i())),
        under("02 full, elements in a call", short_names(2), many("F", i())),
        under("02 full, calls", names_like(2, "i"), many("F", i())),
        under("02 full, one long name", names_like(2, &"a".repeat(120)), many("b", element(&almost(120), &[]))),
        under("03 full, no value", short_names(3), element("i", &each(20, attribute))),
        under(
            "03 full, expressions",
            short_names(3),
            element("i", &each(20, |name| attribute_with(name, braces(e())))),
        ),
        under("03 full, namespaced", short_names(3), element("i", &each(20, |name| attribute(&format!("a:{name}"))))),
        under(
            "03 full of a:c, namespaced",
            names_like(3, "a:c"),
            element("i", &each(20, |name| attribute(&format!("a:{name}")))),
        ),
    ]
}

/// Short names that no page has, until the options are full.
fn short_names(tag: u8) -> Vec<u8> {
    let names: Vec<_> = (0..(MOST_OPTIONS - 3) / 4).map(|i| source(["z", "y", "x", "w"][i % 4])).collect();
    row(tag, &names)
}

fn names_like(tag: u8, name: &str) -> Vec<u8> {
    row(tag, &vec![source(name); (MOST_OPTIONS - 3) / (3 + name.len())])
}

/// Texts that grow, shrink or fall into lines.
fn texts() -> Vec<Set> {
    let p = |child: Vec<u8>| element("p", &[child]);
    let most = ROOM - 20;
    let quotes = |count: usize| "\"".repeat(count);
    vec![
        one("source alone", page(&[statement(&[source(&"x".repeat(ROOM - 6))])])),
        tag("quotes in a text", p(text(&quotes(10_000)))),
        tag("quotes, too long", p(text(&quotes(most)))),
        tag("quotes and letters", p(text(&"a\"".repeat(9_000)))),
        tag("quotes in an attribute", p(attribute_string("a", &quotes(10_000)))),
        tag("quotes in a call, twice", element("F", &[i(), i(), braces(string(&quotes(6_000)))])),
        tag("line ends in a text", p(text(&"\n".repeat(most)))),
        tag("short lines", p(text(&" a\n".repeat(most / 3)))),
        tag("blank lines", p(text(&" \n".repeat(most / 2)))),
        tag("wide spaces", p(text(&"\n\u{3000}".repeat(most / 4)))),
        tag("short texts", element("p", &fill(20, &text("a")))),
        tag("short texts in a call", element("F", &fill(20, &text("a")))),
        tag("numbers", element("p", &fill(20, &braces(number(9_007_199_254_740_991))))),
    ]
}

/// One template with many gaps, of children or of both kinds; 'attributes, no value' has thousands of attributes.
fn gaps() -> Vec<Set> {
    let b = |one: &[Vec<u8>]| element("b", &fill(20, &one.concat()));
    let valueless = || element("i", &[attribute("a")]);
    vec![
        tag("gaps, null", b(&[braces(null())])),
        tag("gaps, expressions", b(&[braces(e())])),
        tag("gaps, attributes of elements", b(&[valueless()])),
        tag("gaps, both kinds", b(&[valueless(), braces(null())])),
    ]
}

/// Many tags side by side. 'templates' has 4,677 of them, the most that 32 KB hold but for a few.
fn tags() -> Vec<Set> {
    let pieces = |name: &str, tag: Vec<u8>| one(name, page(&[statement(&fill(20, &tag))]));
    let f = |children: &[Vec<u8>]| element("F", children);
    vec![
        one("empty page", page(&[])),
        one("empty statements", page(&fill(20, &empty_statement()))),
        tag("empty containers", element("p", &fill(20, &empty_braces()))),
        tag("empty containers in a call", f(&fill(20, &empty_braces()))),
        pieces("templates", i()),
        one("templates, an item each", page(&fill(20, &statement(&[i()])))),
        tag("templates in gaps", element("b", &fill(20, &braces(other(&[i()]))))),
        tag("templates in an array", element("b", &[braces(array(&fill(40, &i())))])),
        pieces("calls", f(&[])),
        tag("calls in a template", element("b", &fill(20, &f(&[])))),
        pieces("calls with a template", f(&[i()])),
        pieces("calls with two children", f(&[i(), i()])),
        pieces("members", element("F.a.b.c.d.e.f.g", &[])),
    ]
}

/// Many tags within each other, side by side.
fn chains() -> Vec<Set> {
    let pieces = |tag: Vec<u8>| page(&[statement(&fill(20, &tag))]);
    let in_b = |x| element("b", &[x]);
    let in_f = |x| element("F", &[x]);
    let all_listed = names_like(2, "i");
    vec![
        one("chains of elements", pieces(around(43, i(), in_b))),
        one("chains of calls", pieces(around(43, element("F", &[]), in_f))),
        one("chains, by turns", pieces(around(21, i(), |x| in_b(in_f(x))))),
        one("trees of elements", pieces(tree("b", 6))),
        one("trees of calls", pieces(tree("F", 6))),
        one("elements with empty braces", pieces(element("i", &[empty_braces()]))),
        one("calls with a text and a tag", pieces(element("F", &[i(), text("a")]))),
        Set::under("02 full, chains of calls", all_listed.clone(), pieces(around(43, i(), |x| element("i", &[x])))),
        Set::under("02 full, trees of calls", all_listed, pieces(tree("i", 6))),
    ]
}

/// Tags of two children each, that many levels deep.
fn tree(name: &str, levels: usize) -> Vec<u8> {
    let children = if levels == 0 { vec![] } else { vec![tree(name, levels - 1); 2] };
    element(name, &children)
}

/// That many times around the deepest.
fn around(levels: usize, deepest: Vec<u8>, wrap: impl Fn(Vec<u8>) -> Vec<u8>) -> Vec<u8> {
    (0..levels).fold(deepest, |inner, _| wrap(inner))
}

/// Depth 48: 01, 12, then tags.
fn deep() -> Vec<Set> {
    let b = |children: &[Vec<u8>]| element("b", children);
    let f = |children: &[Vec<u8>]| element("F", children);
    let gap = |inner: Vec<u8>| braces(other(&[inner]));
    let (many, fewer) = (fill(500, &i()), fill(1_000, &i()));
    let siblings = vec![i(); 90];
    let expressions = fill(30_800, &braces(e()));
    vec![
        tag("48 deep, siblings at each", around(43, i(), |x| b(&[siblings.clone(), vec![x]].concat()))),
        tag("48 deep, all at the end", around(43, b(&many), |x| b(&[x]))),
        tag("48 deep, calls, all at the end", around(43, f(&many), |x| f(&[x]))),
        tag("48 deep, calls and templates", around(43, f(&fewer), |x| f(&[i(), x]))),
        tag("48 deep, by turns", around(21, f(&fewer), |x| b(&[i(), f(&[i(), x])]))),
        tag("gaps in gaps", around(14, b(&many), |x| b(&[gap(x)]))),
        tag("gaps in gaps, siblings", around(14, i(), |x| b(&[vec![gap(x)], expressions.clone()].concat()))),
        tag("gaps in gaps of attributes", around(10, b(&many), |x| b(&[attribute_with("a", gap(x))]))),
        tag("arrays in arrays", b(&[braces(around(40, array(&fill(500, &null())), |x| array(&[x])))])),
        tag("fragments in fragments", around(44, fragment(&fill(500, &empty_braces())), |x| fragment(&[x]))),
    ]
}

/// Fragments in fragments under a call, where what stands in the deepest may be asked for at each level.
fn fragments() -> Vec<Set> {
    let nested = |deepest: &[Vec<u8>]| around(42, fragment(deepest), |x| fragment(&[empty_braces(), x]));
    let called = |deepest: &[Vec<u8>]| element("F", &[empty_braces(), nested(deepest)]);
    let two = |deepest: Vec<Vec<u8>>| [deepest, vec![braces(null()), braces(null())]].concat();
    let with = |name: &str, deepest: Vec<Vec<u8>>| tag(&format!("fragments, {name}"), called(&two(deepest)));
    let beside = |name: &str, deepest: Vec<Vec<u8>>, before: Vec<Vec<u8>>, behind: Vec<u8>| {
        let inner =
            around(42, fragment(&two(deepest)), |x| fragment(&[before.clone(), vec![x, behind.clone()]].concat()));
        tag(&format!("fragments, {name}"), element("F", &[inner, braces(null())]))
    };
    let behind = |name: &str, deepest: Vec<Vec<u8>>| beside(name, deepest, vec![], braces(null()));
    // An array of no elements is an entry, and none where it is taken out of an array, so that what the deepest gives decides at each level.
    let empty = || braces(array(&[]));
    let emptied = |name: &str, deepest: Vec<Vec<u8>>| {
        let inner = around(42, fragment(&deepest), |x| fragment(&[x, empty()]));
        tag(&format!("fragments, {name}"), element("F", &[inner, braces(null())]))
    };
    let nine_thousand = vec![empty_braces(); 9_000];
    let one_entry = fragment(&[braces(null()), empty_braces()]);
    let no_entry = fragment(&[empty_braces(), empty_braces()]);
    let short_lines = text(&" \n".repeat(15_000));
    // Each tag is asked for in each fragment around it, and stands last in the list.
    let list = [names_like(2, "j")[3..4_087].to_vec(), source("i")].concat();
    vec![
        with("empty containers", vec![empty_braces(); 10_000]),
        with("strings", vec![braces(string("")); 5_000]),
        with("line ends", vec![text(&"\n".repeat(30_000))]),
        with("short lines", vec![short_lines.clone()]),
        with("one line", vec![text(&format!("\n{}", " ".repeat(30_000)))]),
        with("tabs", vec![text(&format!("\n{}", "\t".repeat(30_000)))]),
        with("tabs before", vec![text(&format!("{}\n", "\t".repeat(30_000)))]),
        with("wide spaces", vec![text(&"\n\u{3000}".repeat(7_500))]),
        with("blank texts", vec![text("\n"); 7_000]),
        tag("fragments, not a call", fragment(&[nested(&two(vec![empty_braces(); 10_000]))])),
        behind("one behind each", vec![empty_braces(); 10_000]),
        behind("one behind each, short lines", vec![short_lines]),
        beside("a text behind each", nine_thousand.clone(), vec![], text("a")),
        beside("an array behind each", nine_thousand.clone(), vec![], braces(array(&[null()]))),
        beside("a fragment behind each", nine_thousand.clone(), vec![], one_entry.clone()),
        beside("fragments beside each", nine_thousand.clone(), vec![no_entry], one_entry.clone()),
        beside("blanks at each", vec![], vec![empty_braces(); 200], one_entry),
        beside("an empty array behind each", nine_thousand.clone(), vec![], empty()),
        emptied("empty arrays alone", [nine_thousand.clone(), vec![empty(), empty()]].concat()),
        emptied("empty arrays around nothing", nine_thousand),
        Set::under("fragments, 02 full, calls", field(2, &list), page_of(called(&fill(500, &i())))),
    ]
}
