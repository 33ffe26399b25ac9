//! Tag text as the host reads it, the field by the library, place and reason by a reader of its own, against the judge's
//! reader; tags in pages; what errors say.

mod common;

use common::say;
use jsx_precompile::page::{Attribute, Child, Element, Expression, Item, Page, Piece, Value};
use jsx_precompile::{Tag, TagError, TagRefusal, WriteError};
use oracle::show::{hex, show};
use oracle::tag::exhaustive::FAMILIES;
use oracle::tag::{generate, marks, outcome};
use std::collections::BTreeMap;

fn word(name: &str, other: u64) -> u64 {
    std::env::var(name).map_or(other, |word| word.parse().unwrap_or_else(|_| panic!("{name} is no number: {word}")))
}

/// The number of the answer; a difference to the judge is a failure, and so is a place that is none.
fn agree(text: &[u8]) -> u32 {
    let ours = Tag::read_bytes(text);
    let judge = outcome(text);
    let same = match (&ours, &judge) {
        (Ok(tag), Ok(field)) => tag.bytes() == field,
        (Err(error), Err(refusal)) => error.refusal.number() == *refusal as u32 && stands(text, error),
        _ => false,
    };
    if !same {
        let field = judge.as_ref().map_or(String::new(), |field| show(field));
        panic!("{}\n{}\nhost {ours:?}\njudge {judge:?}\n{field}", text.escape_ascii(), hex(text));
    }
    ours.map_or_else(|error| error.refusal.number(), |_| 0)
}

/// Whether the place of an error is one of the text, at the beginning of a character, and what is opened stands before
/// it.
fn stands(text: &[u8], error: &TagError) -> bool {
    let place = error.place;
    let begins = |at: usize| at <= text.len() && text.get(at).is_none_or(|byte| !(0x80..0xc0).contains(byte));
    let lines = 1 + text[..place.byte].iter().filter(|byte| matches!(byte, b'\n' | b'\r')).count();
    let opened = error.opened.is_none_or(|opened| opened.byte < place.byte && text[opened.byte] == b'<');
    let differs = error.refusal != TagRefusal::NamesDiffer || text[place.byte] == b'<' && error.opened.is_some();
    let at_end = place.byte == text.len();
    let end = !at_end || error.refusal == TagRefusal::NoReading;
    let named = at_end == error.reason.contains("found the end of the text");
    let letters = error.refusal == TagRefusal::NotUtf8 || begins(place.byte);
    let long = error.refusal == TagRefusal::InputTooLong;
    // Where the two readers of a tag's text part, only the refusal would be said.
    let said = !error.reason.is_empty() && error.reason != error.refusal.explanation();
    long || letters && place.line <= lines && opened && differs && end && named && said
}

#[test]
fn seeds() {
    let (from, count) = (word("HOST_TAG_SEEDS_FROM", 0), word("HOST_TAG_SEEDS", 200_000));
    let mut numbers = BTreeMap::new();
    for seed in from..from + count {
        *numbers.entry(agree(&generate::case(seed).text)).or_insert(0) += 1;
    }
    say(&format!("tag text: {count} seeds, no difference; by number {numbers:?}"));
}

#[test]
fn all_marks() {
    let marks = marks::all();
    marks.iter().for_each(|mark| {
        agree(&mark.text);
    });
    say(&format!("tag text: {} marks, no difference", marks.len()));
}

#[test]
fn all_short_texts() {
    let (mut texts, mut taken) = (0, 0);
    for family in FAMILIES {
        family.texts(family.most_slow, &mut |text| {
            texts += 1;
            taken += usize::from(agree(text) == 0);
        });
    }
    say(&format!("tag text: {texts} short texts, {taken} taken, no difference"));
}

/// A tag stands in a page wherever an element may: its field there is the one that was read.
#[test]
fn tags_in_pages() {
    let mut count = 0;
    for seed in 0..20_000 {
        let Ok(tag) = Tag::read_bytes(&generate::case(seed).text) else { continue };
        let around = |element: Element| Page::new([Item::statement([element.into()])]);
        let pages = [
            Page::new([Item::statement(["a = ".into(), Piece::from(tag.clone()), ";".into()])]),
            around(Element::new("p").child(Child::from(tag.clone()))),
            around(Element::new("p").child(Expression::from(tag.clone()))),
            around(Element::new("p").attribute("a", Value::from(tag.clone()))),
            around(Element::new("p").spread(Expression::from(tag.clone()))),
        ];
        for (i, page) in pages.iter().enumerate() {
            match page.to_bytes() {
                Ok(bytes) => {
                    assert!(bytes.windows(tag.bytes().len()).any(|part| part == tag.bytes()), "seed {seed}");
                    assert_eq!(Page::from_bytes(&bytes).as_ref(), Ok(page), "seed {seed}");
                    count += 1;
                }
                // As a piece it lies as deep as it was read for; a page is shorter than a tag may be.
                Err(WriteError::PageTooLong(_) | WriteError::BodyTooLong(..)) => {}
                Err(WriteError::TooDeep) if i > 0 => {}
                Err(error) => panic!("seed {seed}: {error}"),
            }
        }
    }
    say(&format!("tag text: tags in {count} pages, each as it was read"));
    assert!(count > 40_000);
}

/// Tags that were built are read again from their source: what [`Page::to_jsx`] writes.
#[test]
fn built_tags_are_read() {
    let tag = Element::new("ul")
        .attribute("class", "a \"b\" & c")
        .attribute("key", Expression::Minus(7))
        .attribute("of", Expression::parse_decimal("12.5").expect("a decimal"))
        .spread(Expression::source("more"))
        .text("Hi < \"you\" & me > {}\n")
        .child(Element::new("Icon.Small").valueless("xlink:href").attribute("on", Element::new("i")))
        .child(Child::Container(None))
        .child(Child::Spread(Expression::source("rest")))
        .child(Expression::String("it's".into()))
        .child(Expression::Boolean(true));
    let page = Page::new([Item::statement([tag.clone().into()])]);
    let text = page.to_jsx().replace("&#123;", "{\"{\"}").replace("&#125;", "{\"}\"}");
    let read = Tag::read(text.trim_end()).unwrap_or_else(|error| panic!("{text}: {error}"));
    let Piece::Element(read) = read.to_piece() else { panic!("an element") };
    assert_eq!(read.name, tag.name);
    assert_eq!(read.attributes, tag.attributes);
    assert_eq!(read.children[0], Child::Text("Hi < \"you\" & me > ".into()));
    assert_eq!(read.children[4..], tag.children[1..]);
    assert!(matches!(&read.attributes[3], Attribute::Spread(_)));
}

/// What is said, and where.
#[test]
fn reasons() {
    let long = format!("<{}/>", "n".repeat(129));
    let deep = format!("{}<i/>{}", "<p>".repeat(45), "</p>".repeat(45));
    let wide = format!("<a>\n<b>{}</b></a>", "{1}".repeat(4_682));
    for (text, expected) in [
        ("", "line 1, column 1: 14: expected `<`, with which a tag begins, found the end of the text"),
        ("a", "line 1, column 1: 14: expected `<`, with which a tag begins, found `a`"),
        ("<", "line 1, column 2: 14: expected a name or `>`, found the end of the text"),
        ("<1/>", "line 1, column 2: 14: expected a name or `>`, found `1`"),
        ("<é/>", "line 1, column 2: 14: expected a name or `>`, found `é`"),
        ("<a\u{b}/>", "line 1, column 3: 14: expected an attribute, `{...`, `/` or `>`, found `\\u{b}`"),
        ("<a/ b>", "line 1, column 5: 14: expected `>` behind `/`, found `b`"),
        ("<a/>\n", "line 1, column 5: 14: `\\n` stands behind the tag"),
        ("<a/><b/>", "line 1, column 5: 14: `<` stands behind the tag"),
        (&long, "line 1, column 2: 14: a name of 129 bytes, at most 128 are taken"),
        ("<a.b-c/>", "line 1, column 5: 14: `-` in a member's name"),
        ("<a./>", "line 1, column 4: 14: expected a name, found `/`"),
        ("<a.b.c.d.e.f.g.h.i/>", "line 1, column 2: 14: a member of 9 names, at most 8 are taken"),
        ("<a:b:c/>", "line 1, column 5: 14: a name has one namespace, and no member in it"),
        ("<a.b:c/>", "line 1, column 5: 14: a member has no namespace"),
        ("<a b.c/>", "line 1, column 5: 14: `.` in the name of an attribute"),
        ("<a b=1/>", "line 1, column 6: 14: expected a value in quotes or braces, or a tag, found `1`"),
        ("<a b=\"c/>", "line 1, column 6: 14: `\"` is not closed"),
        ("<a b={}/>", "line 1, column 7: 14: expected an expression, found `}`"),
        ("<a b={...c}/>", "line 1, column 7: 14: `...c` begins as a number, is none, and has `.`"),
        ("<a {b}/>", "line 1, column 5: 14: expected `...` in a tag's braces, found `b`"),
        ("<a {...}/>", "line 1, column 8: 14: expected an expression, found `}`"),
        ("<a>b > c</a>", "line 1, column 6: 14: `>` in text is written `&gt;`"),
        ("<a>}</a>", "line 1, column 4: 14: `}` in text is written `{\"}\"}`"),
        ("<a>\nx & y</a>", "line 2, column 3: 14: `&` begins none of `&amp;`, `&lt;`, `&gt;`, `&quot;` and `&#39;`"),
        ("<a>{b</a>", "line 1, column 4: 14: no `}` matches this brace"),
        ("<a>{b</a>}", "line 1, column 6: 14: `<` is not read in braces"),
        ("<a>{don't}</a>", "line 1, column 8: 14: `'` is not closed on its line"),
        ("<a>{[1]}</a>", "line 1, column 5: 14: an array is not read"),
        ("<a>{`b`}</a>", "line 1, column 5: 14: a backquote is not read in braces"),
        ("<a>{\"\\n\"}</a>", "line 1, column 6: 14: a backslash is not read in braces"),
        ("<a>{/* b */}</a>", "line 1, column 5: 14: a slash is not read in braces"),
        ("<a>{<b/> + 1}</a>", "line 1, column 10: 14: expected `}`, as a tag stands alone in braces, found `+`"),
        ("<a>{-5px}</a>", "line 1, column 5: 14: `-5px` begins as a number, is none, and has `p`"),
        (
            "<a>\n  <b>\n",
            "line 3, column 1: 14: expected `</b>`, found the end of the text; `<b>` of line 2, column 3 is open",
        ),
        (
            "<ul>\n<li>1\n</ul>",
            "line 3, column 1: 14: expected `</li>`, found `</ul>`; `<li>` of line 2, column 1 is open",
        ),
        ("<>\n", "line 2, column 1: 14: expected `</>`, found the end of the text; `<>` of line 1, column 1 is open"),
        ("<a></a b>", "line 1, column 8: 14: expected `>`, which ends a closing tag, found `b`"),
        ("<a>\n  <b.c></b:c>\n</a>", "line 2, column 8: 15: `</b:c>` closes `<b.c>` of line 2, column 3"),
        ("<></a>", "line 1, column 3: 15: `</a>` closes `<>` of line 1, column 1"),
        ("<a></>", "line 1, column 4: 15: `</>` closes `<a>` of line 1, column 1"),
        ("<a>{9007199254740992}</a>", "line 1, column 5: 7: `9007199254740992` is over 9007199254740991"),
        (
            "<a>{0.0000000000000001}</a>",
            "line 1, column 5: 7: `0.0000000000000001`: 16 places behind the point, at most 15 are taken",
        ),
        (
            "<a>{- 1000000000000.000}</a>",
            "line 1, column 5: 7: `1000000000000.000`: the digits 1000000000000000 are over 999999999999999",
        ),
        (&deep, "line 1, column 137: 8: 40 (identifier) would lie 49 deep in a page, at most 48"),
        (&wide, "line 2, column 1: 11: 30 (element) would have 65552 bytes, at most 65535"),
    ] {
        let error = Tag::read(text).expect_err(text);
        assert_eq!(error.to_string(), expected, "{text}");
        agree(text.as_bytes());
    }
    let error = Tag::read_bytes(b"<p>\xff</p>").expect_err("it is no text");
    assert_eq!(error.to_string(), "line 1, column 4: 6: byte ff is not UTF-8");
    let error = Tag::read(&"<>".repeat(20_000)).expect_err("it is long");
    assert_eq!((error.refusal, error.place.byte), (TagRefusal::InputTooLong, 32_768));
    assert_eq!(error.reason, "40000 bytes, at most 32768 are taken");
}
