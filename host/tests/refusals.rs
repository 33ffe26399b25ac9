//! Refusals say where: the input, the byte and the way there, for what the checks refuse and for what the transform
//! refuses; and a tree that is too deep for a page is given back.

mod common;

use common::{no_judge, say};
use jsx_precompile::limits::*;
use jsx_precompile::page::*;
use jsx_precompile::{Fault, Input, Options, Refusal, Transformer, WriteError, transform, transform_into};
use oracle::generate;
use std::collections::BTreeMap;

fn refused(page: &Page, options: &Options) -> Fault {
    transform(&page.to_bytes().expect("a page"), options).expect_err("it is refused")
}

fn statement(tag: impl Into<Piece>) -> Item {
    Item::statement(["const a = ".into(), tag.into(), ";".into()])
}

/// The page with these bytes changed, and where that was.
fn changed(page: &Page, from: &[u8], to: &[u8]) -> (Vec<u8>, usize) {
    let mut bytes = page.to_bytes().expect("a page");
    let at = bytes.windows(from.len()).position(|part| part == from).expect("it stands there");
    bytes.splice(at..at + from.len(), to.iter().copied());
    (bytes, at)
}

#[test]
fn checks() {
    let items = ["A1", "A2"].map(|seat| Element::new("li").attribute("data-seat", seat).text(seat));
    let list = items.into_iter().fold(Element::new("ul").attribute("class", "row"), Element::child);
    let page = Page::new([Item::declaration(["import 'a';".into()]), Item::Empty, statement(list)]);
    // what is changed, how far behind its beginning it shows, the path and the reason
    for (from, to, behind, path, reason) in [
        (&b"class"[..], &b"cl ss"[..], 2, "01 > 12[2] > 30 ul > 50 cl ss > 40", "5 (bad name): ' ' may not"),
        (b"A2", b"A\xff", 1, "01 > 12[2] > 30 ul > 30[3] li > 50 data-seat > 51", "6 (bad letters): byte ff"),
        (b"\x51\0\x02A2", b"\x60\0\x02A2", 0, "01 > 12[2] > 30 ul > 30[3] li > 50 data-seat > 60", "4 (misplaced): 60"),
        (b"\x51\0\x02A2", b"\x51\0\x03A2", 0, "01 > 12[2] > 30 ul > 30[3] li > 50 data-seat", "3 (torn): 51"),
        (b"\x13\0\0", b"\x14\0\0", 0, "01 > 14[1]", "4 (misplaced): 14 (no tag) stands where items"),
    ] {
        let (bytes, at) = changed(&page, from, to);
        let said = transform(&bytes, &Options::new()).expect_err("it is refused").to_string();
        let expected = format!("page, byte {}, {path}: {reason}", at + behind);
        assert!(said.starts_with(&expected), "{said}, and not {expected}");
    }
    let said = transform(&[0x01, 0, 9, 0x13, 0, 0], &Options::new()).expect_err("it is torn").to_string();
    assert_eq!(said, "page, byte 0: 3 (torn): 01 (page) of 9 bytes where 3 are left");
    let deep = (0..MAX_DEPTH - 4).fold(vec![0x31, 0, 0], |inner: Vec<u8>, _| around(0x31, inner));
    let bytes = around(0x01, around(0x12, around(0x31, around(0x31, deep))));
    let fault = transform(&bytes, &Options::new()).expect_err("it is too deep");
    assert_eq!((fault.refusal, fault.at), (Refusal::TooDeep, 3 * MAX_DEPTH));
    assert_eq!(fault.path.steps().len(), MAX_DEPTH + 1);
}

fn around(tag: u8, body: Vec<u8>) -> Vec<u8> {
    let length = u16::try_from(body.len()).expect("a length").to_be_bytes();
    [vec![tag, length[0], length[1]], body].concat()
}

#[test]
fn limits_are_named() {
    let long = Page::new([]).to_bytes().expect("a page").into_iter().chain([0; MAX_PAGE]).collect::<Vec<_>>();
    let fault = transform(&long, &Options::new()).expect_err("it is too long");
    assert_eq!(fault.to_string(), "page, byte 32768: 2 (thick): 32771 bytes, at most 32768 are taken");
    let page = Page::new([]).to_bytes().expect("a page");
    let source = |bytes: usize| Options::new().import_source("s".repeat(bytes));
    let fault = transform(&page, &source(MAX_OPTIONS)).expect_err("too long");
    assert_eq!(fault.to_string(), "options, byte 4096: 2 (thick): 4099 bytes, at most 4096 are taken");
    let fault = transform(&page, &source(MAX_BODY + 1)).expect_err("too long");
    assert_eq!((fault.input, fault.refusal), (Input::Options, Refusal::InputTooLong));
    assert!(fault.reason.ends_with("all options together at most 4096"), "{fault}");
}

/// 10: the tag that would be left, and none that is not visited.
#[test]
fn tags_left() {
    let nested = || Fragment::new().child(Fragment::new());
    let place = |page: Page| refused(&page, &Options::new()).path.to_string();
    assert_eq!(place(Page::new([statement(nested())])), "01 > 12[0] > 31 > 31");
    let spread = Fragment::new().child(Child::Spread(Expression::Null));
    assert_eq!(place(Page::new([Item::Empty, statement(spread)])), "01 > 12[1] > 31");
    // one in braces of an attribute, behind one that a void element drops
    let tag = Element::new("p")
        .child(Element::new("br").child(nested()))
        .child(Element::new("Foo").attribute("a", Expression::from(nested())))
        .child(Element::new("Foo").attribute("b", Expression::from(nested())));
    let first = "01 > 12[1] > 30 p > 30[2] Foo > 50 a > 52 > 31 > 31";
    assert_eq!(place(Page::new([statement(Element::new("i")), statement(tag)])), first);
    // within source within a tag
    let inner = Expression::Other(vec!["f(".into(), nested().into(), ")".into()]);
    let tag = Element::new("p").child(Expression::source("n")).child(inner);
    assert_eq!(place(Page::new([statement(tag)])), "01 > 12[0] > 30 p > 52[2] > 79 > 31 > 31");
}

/// 16: the element with an attribute twice, and which two are meant; none that is not serialized.
#[test]
fn attributes_twice() {
    let twice = |one: &str, other: &str| Element::new("i").attribute(one, "1").valueless("b").attribute(other, "2");
    let said = |tag: Element| {
        let fault = refused(&Page::new([Item::Empty, statement(tag)]), &Options::new());
        assert_eq!(fault.refusal, Refusal::RepeatedAttribute, "{fault}");
        format!("{}: {}", fault.path, fault.reason)
    };
    for (one, other, words) in [
        ("a", "a", "the attribute `a` stands twice"),
        ("class", "className", "the attributes `class` and `className` are one in HTML"),
        ("viewBox", "viewbox", "the attributes `viewBox` and `viewbox` are one in HTML"),
        ("xlink:href", "xlinkHref", "the attributes `xlink:href` and `xlinkHref` are one in HTML"),
        ("b", "c", "the attribute `b` stands twice"),
    ] {
        assert_eq!(said(twice(one, other)), format!("01 > 12[1] > 30 i: {words}"));
    }
    // behind those that are no matter: on a component, in a void element, in a spread child
    let tag = Element::new("p")
        .child(Element::new("Foo").attribute("a", "1").attribute("a", "2"))
        .child(Element::new("br").child(twice("a", "a")))
        .child(Child::Spread(twice("a", "a").into()))
        .child(Expression::Other(vec!["f(".into(), twice("for", "htmlFor").into(), ")".into()]))
        .child(twice("id", "ID"));
    let expected = "01 > 12[1] > 30 p > 52 > 79 > 30 i: the attributes `for` and `htmlFor` are one in HTML";
    assert_eq!(said(tag), expected);
    // in an element that has one itself, the outer one
    let tag = Element::new("p").attribute("a", twice("b", "b")).attribute("a", "1").child(twice("id", "id"));
    assert_eq!(said(tag), "01 > 12[1] > 30 p: the attribute `a` stands twice");
    let fault =
        refused(&Page::new([statement(twice("class", "className"))]), &Options::new().skip_prop_serialize(["class"]));
    assert_eq!(fault.reason, "the attributes `class` and `className` are one in HTML");
}

/// 19: the element that is void only in small letters, behind those that are no matter; 16 comes first.
#[test]
fn names_in_mixed_case() {
    let mixed = |name: &str| Element::new(name).attribute("a", "1");
    let said = |tags: Vec<Element>| {
        let pieces = tags.into_iter().map(Piece::from).collect::<Vec<_>>();
        let fault = refused(&Page::new([Item::Empty, Item::statement(pieces)]), &Options::new());
        format!("{}: {}: {}", fault.path, fault.refusal.number(), fault.reason)
    };
    let expected = "01 > 12[1] > 30 iNPUT: 19: `iNPUT` is a void element in HTML; write `input`";
    assert_eq!(said(vec![mixed("iNPUT")]), expected);
    let tag = Element::new("p")
        .child(Element::new("Br"))
        .child(Element::new("INPUT"))
        .child(Element::new("br").child(mixed("bR")))
        .child(mixed("bR").spread(Expression::Null))
        .child(Element::new("dIV").child(mixed("hR")));
    let expected = "01 > 12[1] > 30 p > 30 dIV > 30 hR: 19: `hR` is a void element in HTML; write `hr`";
    assert_eq!(said(vec![tag]), expected);
    let both = vec![mixed("bR"), Element::new("i").valueless("id").valueless("ID")];
    let expected = "01 > 12[1] > 30 i: 16: the attributes `id` and `ID` are one in HTML";
    assert_eq!(said(both), expected);
}

/// 11: the element whose output is too long, or the item where no element alone is.
#[test]
fn outputs_too_long() {
    let quotes = |count: usize| "\"".repeat(count);
    let long = || Element::new("b").text(quotes(11_000));
    let page =
        Page::new([statement(Element::new("i")), statement(Element::new("p").child(Element::new("i")).child(long()))]);
    let fault = refused(&page, &Options::new());
    assert_eq!((fault.refusal, &*fault.path.to_string()), (Refusal::OutputTooLong, "01 > 12[1] > 30 p > 30 b"));
    // two that are too long only together: the one around them
    let half = || Element::new("b").text(quotes(6_000));
    let page = Page::new([statement(Element::new("i").child(Element::new("p").child(half()).child(half())))]);
    assert_eq!(refused(&page, &Options::new()).path.to_string(), "01 > 12[0] > 30 i > 30 p");
    println!("{}", refused(&page, &Options::new()));
}

/// A page may grow where a tag is replaced. Pieces fall away instead; among children the tag around them is told.
#[test]
fn many_small_tags() {
    let nested = || Fragment::new().child(Fragment::new());
    let place = |tags: Vec<Piece>| refused(&Page::new([Item::statement(tags)]), &Options::new()).path.to_string();
    assert_eq!(place((0..5_000).map(|_| nested().into()).collect()), "01 > 12[0] > 31[0] > 31");
    let many = |count| (0..count).fold(Element::new("Foo"), |all, _| all.child(Fragment::new()));
    let last = || Element::new("Foo").attribute("a", Expression::from(nested()));
    assert_eq!(place(vec![many(100).child(last()).into()]), "01 > 12[0] > 30 Foo > 30 Foo > 50 a > 52 > 31 > 31");
    assert_eq!(place(vec![many(10_000).child(last()).into()]), "01 > 12[0] > 30 Foo");
}

/// The page with `<i/>` in place of the tag that a fault is about.
fn without(page: &[u8], fault: &Fault) -> Vec<u8> {
    const HARMLESS: [u8; 7] = [0x30, 0, 4, 0x40, 0, 1, b'i'];
    let length = |at: usize| usize::from(u16::from_be_bytes([page[at + 1], page[at + 2]]));
    let old = 3 + length(fault.at);
    let mut bytes = page.to_vec();
    bytes.splice(fault.at..fault.at + old, HARMLESS);
    for step in fault.path.steps().iter().take(fault.path.steps().len() - 1) {
        let new = u16::try_from(length(step.at) + HARMLESS.len() - old).expect("a length");
        bytes[step.at + 1..step.at + 3].copy_from_slice(&new.to_be_bytes());
    }
    bytes
}

/// Every refusal of generated calls: the number is the library's, the place lies in the input, the path leads there,
/// and without a tag that would be left the page is taken, or refused for one behind it.
#[test]
fn generated() {
    if no_judge() {
        return;
    }
    let count = 20_000;
    let mut transformer = Transformer::new();
    let mut places = BTreeMap::new();
    let mut later = 0;
    for seed in 0..count {
        let case = generate::case(seed);
        let Ok(options) = Options::from_bytes(&case.options) else { continue };
        let Err(fault) = transformer.transform(&case.page, &options) else { continue };
        let bytes = options.to_bytes().expect("they were read");
        let (mut scratch, mut templates, mut out) = (vec![0; MIN_SCRATCH], vec![0; 1 << 18], vec![0; 1 << 18]);
        let answer = transform_into(&case.page, &bytes, &mut scratch, &mut templates, &mut out);
        assert_eq!(answer.refusal(), Some(fault.refusal), "seed {seed}: {fault}");
        assert_eq!(fault.input, Input::Page, "seed {seed}: {fault}");
        assert!(fault.at <= case.page.len(), "seed {seed}: {fault}");
        if fault.refusal > Refusal::TooDeep {
            let last = fault.path.steps().last().expect("a tag or an item");
            assert_eq!(last.at, fault.at, "seed {seed}: {fault}");
            assert!(matches!(last.tag, 0x10..=0x12 | 0x30 | 0x31), "seed {seed}: {fault}");
            assert_eq!(case.page[fault.at], last.tag, "seed {seed}: {fault}");
        }
        if fault.refusal == Refusal::RepeatedAttribute {
            assert!(fault.reason.starts_with("the attribute"), "seed {seed}: {fault}");
        }
        if fault.refusal == Refusal::MixedCaseVoid {
            assert!(fault.reason.contains("is a void element in HTML; write `"), "seed {seed}: {fault}");
        }
        if fault.refusal == Refusal::TagLeft {
            match transformer.transform(&without(&case.page, &fault), &options) {
                Err(next) if next.refusal == Refusal::TagLeft => {
                    assert!(next.at > fault.at, "seed {seed}: {fault}, then {next}");
                    later += 1;
                }
                // With a tag that is longer and deeper than the one it stands for, it may be no page any more.
                Err(Fault { refusal: Refusal::InputTooLong | Refusal::TooDeep | Refusal::OutputTooLong, .. }) => {}
                // 10 came first.
                Err(Fault { refusal: Refusal::RepeatedAttribute | Refusal::MixedCaseVoid, .. }) => {}
                Err(next) => panic!("seed {seed}: {fault}, then {next}"),
                Ok(_) => {}
            }
        }
        *places.entry(fault.refusal.number()).or_insert(0) += 1;
    }
    say(&format!("refusals: {count} seeds, with a place each: {places:?}; {later} with a second tag left"));
    assert!((2..=8).chain([10, 11, 16, 19]).all(|number| places.contains_key(&number)), "{places:?}");
}

#[test]
fn deep_trees_are_given_back() {
    const DEEP: usize = 300_000;
    let elements = (0..DEEP).fold(Element::new("i"), |inner, _| Element::new("i").child(inner));
    let page = Page::new([statement(elements)]);
    assert_eq!(page.to_bytes(), Err(WriteError::TooDeep));
    drop(page);
    drop((0..DEEP).fold(Fragment::new(), |inner, _| Fragment::new().child(inner)));
    drop((0..DEEP).fold(Expression::Null, |inner, _| Expression::Array(vec![inner.into()])));
    drop((0..DEEP).fold(Expression::Null, |inner, _| Expression::Array(vec![ArrayItem::Spread(inner)])));
    drop((0..DEEP).fold(Element::new("i"), |inner, i| match i % 4 {
        0 => Element::new("i").attribute("a", inner),
        1 => Element::new("i").attribute("a", Expression::Other(vec![inner.into()])),
        2 => Element::new("i").spread(inner),
        _ => Element::new("i").child(Child::Spread(inner.into())),
    }));
}
