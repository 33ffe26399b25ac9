//! The program `tag` against the judge: of a refused text the number, else the judge's card of the page of that tag.

mod common;
mod program;

use common::{no_judge, say};
use oracle::answer::MOST_PAGE;
use oracle::make::page_of;
use oracle::tag::{generate, marks, outcome};
use program::{Program, parting};
use std::fs;
use std::path::Path;

/// The heads of a page and of its one item.
const HEADS: usize = 6;

fn judged(input: &[u8]) -> Vec<u8> {
    match outcome(input.strip_suffix(b"\n").unwrap_or(input)) {
        Ok(field) if field.len() + HEADS > MOST_PAGE => b"2\n".to_vec(),
        Ok(field) => oracle::card(&page_of(field)),
        Err(refusal) => format!("{}\n", refusal as u32).into_bytes(),
    }
}

/// Whether a card was printed; a difference to the judge is a failure.
fn agree(tag: &Program, input: &[u8]) -> bool {
    let judged = judged(input);
    let printed = tag.prints(&[input]).unwrap_or_else(|words| panic!("{words}"));
    if let Some(words) = parting(["judge", "program"], [&judged, &printed]) {
        panic!("{}: {words}", input[..input.len().min(200)].escape_ascii());
    }
    judged.len() > 3
}

#[test]
fn examples() {
    if no_judge() {
        return;
    }
    let tag = Program::found("tag");
    let folder = Path::new(env!("CARGO_MANIFEST_DIR")).with_file_name("examples");
    let (mut texts, mut cards) = (0, 0);
    for entry in fs::read_dir(folder).expect("examples") {
        let path = entry.expect("an example").path();
        if path.extension().is_some_and(|end| end == "tag") {
            texts += 1;
            cards += usize::from(agree(&tag, &fs::read(path).expect("tag text")));
        }
    }
    assert!(cards > 0 && cards < texts);
    say(&format!("tag: {texts} examples, {cards} cards, no difference"));
}

/// Each sentence of A3, each limit and one beyond it: alone, and before one line end and two.
#[test]
fn limits_and_marks() {
    if no_judge() {
        return;
    }
    let tag = Program::found("tag");
    let marks = marks::all();
    for mark in &marks {
        for end in ["", "\n", "\n\n"] {
            agree(&tag, &[&mark.text, end.as_bytes()].concat());
        }
    }
    say(&format!("tag: {} marks, no difference", marks.len()));
}

#[test]
fn seeds() {
    if no_judge() {
        return;
    }
    let tag = Program::found("tag");
    let count = 2_000;
    let cards = (0..count).filter(|seed| agree(&tag, &generate::case(*seed).text)).count();
    assert!(cards > 100, "too few texts are taken: {cards}");
    say(&format!("tag: {count} seeds, {cards} cards, no difference"));
}

/// `<></>` around that many bytes of text.
fn long(bytes: usize) -> Vec<u8> {
    [b"<>".to_vec(), vec![b'a'; bytes - 5], b"</>".to_vec()].concat()
}

/// A text of 32,768 bytes is read, with a line end behind it too; its page may be too long.
#[test]
fn lengths() {
    if no_judge() {
        return;
    }
    let tag = Program::found("tag");
    for bytes in [MOST_PAGE - 8, MOST_PAGE - 7, MOST_PAGE - 6, MOST_PAGE, MOST_PAGE + 1, MOST_PAGE + 2, 100_000] {
        agree(&tag, &long(bytes));
        agree(&tag, &[long(bytes), b"\n".to_vec()].concat());
    }
    // `{n}` is a field of ten bytes: about the longest page, the longest bodies of an item and a page, and 11
    for (braces, texts) in [(3_275, 1..10), (6_552, 1..15)] {
        for text in texts {
            agree(&tag, &[b"<>", "{n}".repeat(braces).as_bytes(), "a".repeat(text).as_bytes(), b"</>"].concat());
        }
    }
    say("tag: lengths, no difference");
}
