//! The library's reader of tag text against the judge's: the number, the count and every lent byte, call by call.

mod common;

use common::say;
use jsx_precompile::limits::MAX_TAG;
use jsx_precompile::{Tag, read_tag_into};
use oracle::exhaustive::byte_strings;
use oracle::generate::Room;
use oracle::tag::compare::{difference, first_difference, small};
use oracle::tag::exhaustive::FAMILIES;
use oracle::tag::generate::{self, TagCase};
use oracle::tag::vectors::TagVector;
use oracle::tag::{TagAnswer, marks, outcome};
use std::path::Path;
use std::time::Instant;

/// The library as the judge's own call.
fn library(text: &[u8], tag_out: &mut [u8]) -> TagAnswer {
    let answer = read_tag_into(text, tag_out);
    TagAnswer { number: answer.number, tag_bytes: answer.tag_bytes }
}

fn agree(text: &[u8], room: Room) {
    let case = TagCase { text: text.to_vec(), room };
    if difference(&case, &library).is_some() {
        panic!("{}", small(case, &library));
    }
}

/// Rooms about the exact fit, one after the other.
const ROOMS: [Room; 4] = [Room::Exact, Room::More(3), Room::Less(1), Room::None];

fn word(name: &str, other: u64) -> u64 {
    std::env::var(name).map_or(other, |word| word.parse().unwrap_or_else(|_| panic!("{name} is no number: {word}")))
}

#[test]
fn seeds() {
    let (from, count) = (word("HOST_TAG_SEEDS_FROM", 0), word("HOST_TAG_SEEDS", 500_000));
    let start = Instant::now();
    let step = (count / 10).clamp(1, 100_000);
    for first in (0..count).step_by(step as usize) {
        let some = step.min(count - first);
        if let Some(words) = first_difference(from + first, some, &library) {
            panic!("{words}");
        }
        say(&format!("tags: {} of {count} seeds, no difference, {} s", first + some, start.elapsed().as_secs()));
    }
}

/// Each sentence of A3, each limit and one beyond it, in each room.
#[test]
fn limits_and_marks() {
    let marks = marks::all();
    for mark in &marks {
        ROOMS.iter().for_each(|room| agree(&mark.text, *room));
    }
    say(&format!("tags: {} marks, no difference", marks.len()));
}

#[test]
fn all_short_texts() {
    let start = Instant::now();
    let (mut texts, mut taken) = (0, 0_usize);
    let (mut ours, mut theirs) = (vec![], vec![]);
    for family in FAMILIES {
        family.texts(family.most, &mut |text| {
            texts += 1;
            let outcome = outcome(text);
            taken += usize::from(outcome.is_ok());
            let lent = outcome.as_ref().map_or(5, |field| match texts % 4 {
                0 => field.len() - 1,
                1 => field.len() + 2,
                _ => field.len(),
            });
            for lent_bytes in [&mut ours, &mut theirs] {
                lent_bytes.clear();
                lent_bytes.resize(lent, 0xa5);
            }
            let answer = oracle::tag::settle(&outcome, &mut ours);
            let same = library(text, &mut theirs) == answer && ours == theirs;
            assert!(same, "{}: {answer:?}", text.escape_ascii());
        });
        say(&format!("tags: {texts} short texts, {taken} taken, no difference, {} s", start.elapsed().as_secs()));
    }
    assert!(texts >= 20_000_000);
}

/// All strings of up to two bytes in each place of a tag.
#[test]
fn all_bytes() {
    let frames = [
        ("", ""),
        ("<", "/>"),
        ("<a", "/>"),
        ("<a ", "/>"),
        ("<a b", "/>"),
        ("<a b=", "/>"),
        ("<a b=\"", "\"/>"),
        ("<a b={", "}/>"),
        ("<a {...", "}/>"),
        ("<a>", "</a>"),
        ("<>{", "}</>"),
        ("<>{\"", "\"}</>"),
        ("<>{x", "}</>"),
        ("<>{1", "}</>"),
        ("<>{-", "}</>"),
        ("<>{<a/>", "}</>"),
        ("<a></", "a>"),
        ("<a></a", ">"),
        ("<a/>", ""),
    ];
    let mut calls = 0;
    for (before, after) in frames {
        byte_strings(2, &mut |bytes| {
            calls += 1;
            agree(&[before.as_bytes(), bytes, after.as_bytes()].concat(), ROOMS[calls % 2]);
        });
    }
    say(&format!("tags: {calls} texts with all strings of up to two bytes, no difference"));
}

/// Answers of another implementation, made from the papers alone; where they are not there, that is said.
#[test]
fn stored_answers() {
    const FILE: &str = "../../shared/vectors/tag.txt";
    let Ok(text) = std::fs::read_to_string(Path::new(env!("CARGO_MANIFEST_DIR")).join(FILE)) else {
        say(&format!("skipped: {FILE} is not there"));
        return;
    };
    let vectors: Vec<TagVector> = text.lines().map(|line| TagVector::parse(line).expect("six words")).collect();
    let differing: Vec<String> = vectors.iter().filter_map(|vector| vector.difference(library)).collect();
    assert!(differing.is_empty(), "{differing:#?}");
    say(&format!("tags: {} answers of another implementation, no difference", vectors.len()));
}

/// The safe call, whose buffer grows, and the longest field.
#[test]
fn a_buffer_that_grows() {
    for count in [1, 10, 100, 4_681] {
        let text = format!("<>{}</>", "{1}".repeat(count));
        let tag = Tag::read(&text).unwrap_or_else(|error| panic!("{count}: {error}"));
        assert_eq!(tag.bytes().len(), 3 + 14 * count);
    }
    let text = format!("<>{}{}</>", "{1}".repeat(4_680), "t".repeat(12));
    assert_eq!(Tag::read(&text).map(|tag| tag.bytes().len()), Ok(MAX_TAG));
    let mut taken = 0;
    for seed in 0..20_000 {
        let text = generate::case(seed).text;
        let number = match (Tag::read_bytes(&text), outcome(&text)) {
            (Ok(tag), Ok(field)) => {
                assert_eq!(tag.bytes(), field, "seed {seed}");
                taken += 1;
                continue;
            }
            (Err(error), Err(refusal)) => (error.refusal.number(), refusal as u32),
            (ours, theirs) => panic!("seed {seed}: {ours:?}, judge {theirs:?}"),
        };
        assert_eq!(number.0, number.1, "seed {seed}");
    }
    say(&format!("tags: safe calls of 20000 seeds, {taken} taken, no difference"));
}
