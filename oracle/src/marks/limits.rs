//! 01, Limits: each limit, and one beyond it.

use super::{Mark, mark};
use crate::answer::{LEAST_SCRATCH, MOST_NUMBER, MOST_OPTIONS, MOST_PAGE};
use crate::generate::{Case, Room, page::padded};
use crate::make::*;

pub fn marks() -> Vec<Mark> {
    [depth(), numbers(), names(), lengths(), outputs(), lent()].concat()
}

/// `<i>` within `<i>` and so on, `count` of them: the innermost name lies at depth count + 3.
pub fn nested(count: usize) -> Vec<u8> {
    (1..count).fold(element("i", &[]), |inner, _| element("i", &[inner]))
}

fn depth() -> Vec<Mark> {
    // 01, 12, the elements: a text in the innermost lies as deep as its name.
    let with =
        |count: usize, innermost: Vec<u8>| page_of((1..count).fold(innermost, |inner, _| element("i", &[inner])));
    vec![
        mark("depth-48", page_of(nested(45)), vec![], 0),
        mark("depth-49", page_of(nested(46)), vec![], 8),
        mark("depth-48-text", with(45, element("i", &[text("x")])), vec![], 0),
        mark("depth-48-container", with(44, element("i", &[braces(null())])), vec![], 0),
        mark("depth-49-container", with(45, element("i", &[braces(null())])), vec![], 8),
    ]
}

fn numbers() -> Vec<Mark> {
    let one = |expression: Vec<u8>| page_of(element("a", &[attribute_with("b", braces(expression))]));
    vec![
        mark("number-most", one(number(MOST_NUMBER)), vec![], 0),
        mark("number-over", one(number(MOST_NUMBER + 1)), vec![], 7),
        mark("minus-most", one(minus(MOST_NUMBER)), vec![], 0),
        mark("minus-over", one(minus(MOST_NUMBER + 1)), vec![], 7),
        mark("number-all-ones", one(number(u64::MAX)), vec![], 7),
    ]
}

fn names() -> Vec<Mark> {
    let named = |length: usize| page_of(element(&"n".repeat(length), &[]));
    let member = |parts: usize| page_of(element(&vec!["a"; parts].join("."), &[]));
    let mut marks = vec![
        mark("name-126", named(126), vec![], 0),
        mark("name-127", named(127), vec![], 0),
        mark("name-128", named(128), vec![], 0),
        mark("name-129", named(129), vec![], 5),
        mark("name-130", named(130), vec![], 5),
        mark("name-0", page_of(element("", &[])), vec![], 5),
    ];
    for parts in 2..=10 {
        marks.push(mark(&format!("members-{parts}"), member(parts), vec![], if parts <= 8 { 0 } else { 4 }));
    }
    marks
}

fn lengths() -> Vec<Mark> {
    let mut marks = vec![];
    for over in 0..5 {
        let number = if over <= 2 { 0 } else { 2 };
        let (page_length, options_length) = (MOST_PAGE - 2 + over, MOST_OPTIONS - 2 + over);
        marks.push(mark(&format!("page-{page_length}"), padded(page(&[]), page_length), vec![], number));
        let given = import_source(&"s".repeat(options_length - 3));
        marks.push(mark(&format!("options-{options_length}"), page(&[]), given, number));
    }
    marks
}

/// The longest static string, item body and string of an output, and one byte more. Of an 84 (02, A6) six bytes are its
/// number and its count, and a kind and a header go with each gap.
fn outputs() -> Vec<Mark> {
    let escaped = |bytes: usize| "\"".repeat(bytes / 6) + &"x".repeat(bytes % 6);
    let template = |length: usize| page_of(element("p", &[text(&escaped(length - 7))]));
    // 12, 94, 40, 95, 96, 81 and 70 stand around the string: 29 bytes within the item.
    let item = |length: usize| page_of(element("Foo", &[braces(string(&escaped(length - 29))), text("")]));
    let gapped = |length: usize| {
        page_of(element("p", &[text(&escaped(length - 7)), braces(code("x")), braces(code("y")), braces(code("z"))]))
    };
    // And 90 with its number.
    let call = |length: usize| {
        let inner = element("Foo", &[braces(string(&escaped(length - 36))), text("")]);
        page_of(element("p", &[inner]))
    };
    let twice = [text("a"), braces(string(&"\"".repeat(6_600))), element("i", &[])];
    let mut marks = vec![mark("run-merged-twice", page_of(element("Foo", &twice)), vec![], 11)];
    for length in 65_524..=65_531 {
        let number = if length <= 65_526 { 0 } else { 11 };
        marks.push(mark(&format!("static-string-{length}"), template(length), vec![], number));
    }
    for length in 65_512..=65_516 {
        let number = if length <= 65_514 { 0 } else { 11 };
        marks.push(mark(&format!("static-strings-{length}"), gapped(length), vec![], number));
    }
    for length in 65_533..=65_537 {
        let number = if length <= 65_535 { 0 } else { 11 };
        marks.push(mark(&format!("item-{length}"), item(length), vec![], number));
        marks.push(mark(&format!("item-with-a-template-{length}"), call(length), vec![], number));
    }
    marks
}

fn lent() -> Vec<Mark> {
    let page = page_of(element("p", &[text("x")]));
    let with = |name: &str, scratch: usize, templates_room: Room, page_room: Room, number: u32| Mark {
        name: name.to_string(),
        case: Case { page: page.clone(), options: vec![], scratch, templates_room, page_room },
        number,
        printed: None,
        written: None,
    };
    let enough = LEAST_SCRATCH;
    let options = import_source(&"s".repeat(MOST_OPTIONS));
    let thick = Case { options, ..with("", 0, Room::None, Room::None, 1).case };
    vec![
        with("scratch-65535", enough - 1, Room::Exact, Room::Exact, 1),
        with("scratch-65534", enough - 2, Room::Exact, Room::Exact, 1),
        with("scratch-0", 0, Room::More(5), Room::More(5), 1),
        with("scratch-65536", enough, Room::Exact, Room::Exact, 0),
        with("scratch-65537", enough + 1, Room::Exact, Room::Exact, 0),
        with("scratch-65538", enough + 2, Room::More(1), Room::More(1), 0),
        with("templates-short", enough, Room::Less(1), Room::Exact, 12),
        with("templates-none", enough, Room::None, Room::More(9), 12),
        with("page-short", enough, Room::Exact, Room::Less(1), 13),
        with("page-none", enough, Room::More(9), Room::None, 13),
        with("both-short", enough, Room::Less(1), Room::Less(1), 12),
        Mark { name: "short-before-thick".into(), case: thick, number: 1, printed: None, written: None },
    ]
}
