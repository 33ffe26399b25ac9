//! What is written is read back, what is read is written again byte for byte, and both agree with the judge's reading.

mod rebuild;

use jsx_precompile::limits::*;
use jsx_precompile::out::{Call, Expression, PageOut, Template, Templates};
use jsx_precompile::page::{self, ArrayItem, Element, Fragment, Item, Page};
use jsx_precompile::{Options, Refusal, WriteError, transform};
use oracle::answer::{MOST_OPTIONS, MOST_PAGE};
use oracle::decode::{read_options, read_page};
use oracle::generate::{self, damage::damaged, rng::Rng};
use std::collections::HashMap;

const SEEDS: u64 = 30_000;

/// Every page that the judge reads is a tree, whose bytes are the page; every other is refused alike.
#[test]
fn pages() {
    let mut refused = HashMap::new();
    let mut read = 0;
    for seed in 0..SEEDS {
        let bytes = generate::case(seed).page;
        let expected =
            if bytes.len() > MOST_PAGE { Some(2) } else { read_page(&bytes).err().map(|refusal| refusal as u32) };
        match Page::from_bytes(&bytes) {
            Ok(page) => {
                assert_eq!(expected, None, "seed {seed}");
                assert_eq!(page.to_bytes(), Ok(bytes), "seed {seed}");
                read += 1;
            }
            Err(fault) => {
                assert_eq!(expected, Some(fault.refusal.number()), "seed {seed}: {fault}");
                assert!(fault.at <= bytes.len(), "seed {seed}: {fault}");
                *refused.entry(fault.refusal.number()).or_insert(0) += 1;
            }
        }
    }
    println!("pages: {SEEDS} seeds, {read} read and written, refused {refused:?}");
    assert!((2..=8).all(|number| refused.contains_key(&number)));
}

#[test]
fn options() {
    let mut read = 0;
    for seed in 0..SEEDS {
        let bytes = generate::case(seed).options;
        let expected =
            if bytes.len() > MOST_OPTIONS { Some(2) } else { read_options(&bytes).err().map(|refusal| refusal as u32) };
        match Options::from_bytes(&bytes) {
            Ok(options) => {
                assert_eq!(expected, None, "seed {seed}");
                // An empty list is as none: nothing but that may be lost.
                let written = options.to_bytes().expect("they were read");
                assert_eq!(Options::from_bytes(&written), Ok(options), "seed {seed}");
                let empty_lists = (bytes.len() - written.len()) / 3;
                assert!(bytes.len() == written.len() + 3 * empty_lists && empty_lists <= 2, "seed {seed}");
                assert!(empty_lists > 0 || bytes == written, "seed {seed}");
                read += 1;
            }
            Err(fault) => assert_eq!(expected, Some(fault.refusal.number()), "seed {seed}: {fault}"),
        }
    }
    println!("options: {SEEDS} seeds, {read} read and written");
}

/// Both outputs of every page that is taken are read, nothing is lost, and calls and templates go together.
#[test]
fn outputs() {
    let (mut taken, mut calls, mut templates) = (0, 0, 0);
    for seed in 0..SEEDS {
        let case = generate::case(seed);
        let Ok(options) = Options::from_bytes(&case.options) else { continue };
        let Ok(forms) = transform(&case.page, &options) else { continue };
        taken += 1;
        let shelf = Templates::read(forms.templates_bytes()).unwrap_or_else(|fault| panic!("seed {seed}: {fault}"));
        let page = PageOut::read(forms.page_bytes()).unwrap_or_else(|fault| panic!("seed {seed}: {fault}"));
        assert_eq!((&shelf, &page), (&forms.templates(), &forms.page()));
        assert_eq!(rebuild::templates(shelf.clone()), forms.templates_bytes(), "seed {seed}");
        assert_eq!(rebuild::page(page), forms.page_bytes(), "seed {seed}");

        let gaps = |one: &Template| one.kinds().map_or(0, |kinds| kinds.len());
        assert!(shelf.clone().all(|one| one.strings().count() == gaps(&one) + 1), "seed {seed}");
        let strings: HashMap<u32, usize> = shelf.map(|one| (one.number(), one.strings().count())).collect();
        assert_eq!(strings.len(), forms.count(), "seed {seed}");
        let mut called = HashMap::new();
        let mut sum = 0;
        for call in page.calls() {
            calls += 1;
            sum |= call.helper().map_or(0, |helper| helper as u8);
            if let Call::Template(call) = call {
                assert_eq!(called.insert(call.number(), call.expressions().count() + 1), None, "seed {seed}");
            }
        }
        assert_eq!(called, strings, "seed {seed}");
        assert_eq!(page.import().map_or(0, |import| import.sum), sum, "seed {seed}");
        templates += strings.len();
    }
    println!("outputs: {taken} pages, {templates} templates, {calls} calls");
    assert!(taken > SEEDS / 2);
}

/// Damaged outputs: the readers refuse, or see every byte. They never stop the program.
#[test]
fn damaged_outputs() {
    let (mut read, mut refused) = (0, 0);
    for seed in 0..SEEDS {
        let case = generate::case(seed);
        let Ok(forms) = transform(&case.page, &Options::new()) else { continue };
        let mut rng = Rng::new(seed);
        let bytes = damaged(&mut rng, forms.page_bytes());
        match PageOut::read(&bytes) {
            Ok(page) => assert_eq!(rebuild::page(page), bytes, "seed {seed}"),
            Err(fault) => assert!(fault.at <= bytes.len(), "seed {seed}: {fault}"),
        }
        let bytes = damaged(&mut rng, forms.templates_bytes());
        match Templates::read(&bytes) {
            Ok(templates) => {
                assert_eq!(rebuild::templates(templates), bytes, "seed {seed}");
                read += 1;
            }
            Err(_) => refused += 1,
        }
    }
    println!("damaged outputs: {read} read, {refused} refused");
    assert!(read > 0 && refused > 0);
}

/// A page out far deeper than any that is written: no recursion in the readers.
#[test]
fn deep_output() {
    let around = |tag: u8, body: Vec<u8>| {
        let length = u16::try_from(body.len()).expect("a length").to_be_bytes();
        [vec![tag, length[0], length[1]], body].concat()
    };
    let calls = (0..16_000).fold(vec![0x73, 0, 0], |inner, _| around(0x92, inner));
    let bytes = around(0x12, calls);
    let page = PageOut::read(&bytes).expect("calls within calls");
    assert_eq!(page.calls().count(), 16_000);
    assert!(matches!(page.calls().last(), Some(Call::Escape(call)) if call.value() == Expression::Null));
}

fn statement(piece: impl Into<page::Piece>) -> Page {
    Page::new([Item::statement([piece.into()])])
}

/// Each limit of the writer is that of the library: at it the page is taken, one beyond it has no bytes.
#[test]
fn limits_of_the_writer() {
    let taken = |page: Page| {
        let bytes = page.to_bytes().unwrap_or_else(|error| panic!("{error}"));
        assert_eq!(transform(&bytes, &Options::new()).err(), None);
    };
    let refused = |page: Page, error: WriteError| assert_eq!(page.to_bytes(), Err(error));

    let nested = |count: usize| (1..count).fold(Element::new("i"), |inner, _| Element::new("i").child(inner));
    taken(statement(nested(45)));
    refused(statement(nested(46)), WriteError::TooDeep);

    let named = |bytes: usize| "n".repeat(bytes);
    taken(statement(Element::new(named(MAX_NAME))));
    refused(statement(Element::new(named(MAX_NAME + 1))), WriteError::BadName(named(MAX_NAME + 1)));
    for name in ["", "1", "-a", "a b", "é", "a:", ":a", "a:b:c", "a.", "a.b-c", "a.b:c"] {
        assert!(matches!(statement(Element::new(name)).to_bytes(), Err(WriteError::BadName(_))), "{name}");
    }
    for name in ["_", "$", "a-", "a1", "a:b-c", "A.b"] {
        taken(statement(Element::new(name)));
    }
    assert!(matches!(statement(Element::new("a").valueless("a.b")).to_bytes(), Err(WriteError::BadName(_))));

    let member = |parts: usize| Element::new(page::ElementName::Member(vec!["a".to_string(); parts]));
    taken(statement(member(MIN_MEMBERS)));
    taken(statement(member(MAX_MEMBERS)));
    refused(statement(member(1)), WriteError::BadMember(1));
    refused(statement(member(9)), WriteError::BadMember(9));

    for make in [page::Expression::Number, page::Expression::Minus] {
        taken(statement(Element::new("a").child(make(MAX_NUMBER))));
        refused(statement(Element::new("a").child(make(MAX_NUMBER + 1))), WriteError::NumberTooLarge(MAX_NUMBER + 1));
    }

    // 01, 12 and 20 stand around the text.
    taken(statement("x".repeat(MAX_PAGE - 9)));
    refused(statement("x".repeat(MAX_PAGE - 8)), WriteError::PageTooLong(MAX_PAGE + 1));
    refused(statement("x".repeat(MAX_BODY)), WriteError::BodyTooLong(0x12, MAX_BODY + 3));
    refused(statement("x".repeat(MAX_BODY + 1)), WriteError::BodyTooLong(0x20, MAX_BODY + 1));

    let source = |bytes: usize| Options::new().import_source("s".repeat(bytes));
    assert!(source(MAX_OPTIONS - 3).to_bytes().is_ok());
    assert_eq!(source(MAX_OPTIONS - 2).to_bytes(), Err(WriteError::OptionsTooLong(MAX_OPTIONS + 1)));
    let page = statement(Element::new("br")).to_bytes().expect("a page");
    assert!(transform(&page, &source(MAX_OPTIONS - 3)).is_ok());
    assert_eq!(transform(&page, &source(MAX_OPTIONS - 2)).unwrap_err().refusal, Refusal::InputTooLong);
    println!("limits of the writer: as the library's");
}

/// One of everything, written by hand and read back by the judge's reader.
#[test]
fn one_of_everything() {
    use oracle::make::*;
    use page::{Child, Expression as E};
    let array = vec![
        E::Null.into(),
        ArrayItem::Hole,
        ArrayItem::Spread(E::source("a")),
        E::Boolean(true).into(),
        E::Literal("1n".into()).into(),
        E::Minus(0).into(),
        E::decimal(1250, 2).expect("a decimal").into(),
        E::parse_decimal("-0.05").expect("a decimal").into(),
    ];
    let tag = Element::new("a:b")
        .attribute("x", "é")
        .attribute("y:z", E::Number(7))
        .attribute("w", Element::new("A.b"))
        .attribute("v", Fragment::new())
        .attribute("u", page::Value::Container(None))
        .valueless("t")
        .spread(E::String("s".into()))
        .text(" \n ")
        .child(E::Array(array))
        .child(Child::Container(None))
        .child(Child::Spread(E::source("r")))
        .child(Fragment::new().text("q").child(E::from(Element::new("p"))))
        .child(E::Other(vec!["o".into(), Fragment::new().into()]));
    let ours = Page::new([
        Item::declaration(["import 'i';".into()]),
        Item::export(["export const e = ".into(), tag.into()]),
        Item::statement([Fragment::new().into()]),
        Item::Empty,
    ]);
    let numbers = [minus(0), decimal(1250, 2), minus_decimal(5, 2)];
    let literals = [&[null(), hole(), array_spread(code("a")), boolean(true), literal("1n")], &numbers[..]].concat();
    let parts = [
        attribute_string("x", "é"),
        attribute_with("y:z", braces(number(7))),
        attribute_with("w", element("A.b", &[])),
        attribute_with("v", fragment(&[])),
        attribute_with("u", empty_braces()),
        attribute("t"),
        spread(string("s")),
        text(" \n "),
        braces(oracle::make::array(&literals)),
        empty_braces(),
        spread_child(code("r")),
        fragment(&[text("q"), braces(element("p", &[]))]),
        braces(other(&[source("o"), fragment(&[])])),
    ];
    let theirs = oracle::make::page(&[
        declaration(&[source("import 'i';")]),
        export(&[source("export const e = "), element("a:b", &parts)]),
        oracle::make::statement(&[fragment(&[])]),
        empty_statement(),
    ]);
    let bytes = ours.to_bytes().expect("a page");
    assert_eq!(bytes, theirs);
    assert!(read_page(&bytes).is_ok());
    assert_eq!(Page::from_bytes(&bytes), Ok(ours));
}
