//! The library against the judge: the number, the counts and every byte that is lent, call by call.

mod common;

use common::{no_judge, say};
use jsx_precompile::{Options, Refusal, Transformer, transform_into};
use oracle::compare::{difference, first_difference};
use oracle::generate::rng::Rng;
use oracle::generate::{self, Case, Room};
use oracle::make::*;
use oracle::show::{hex, show};
use oracle::vectors::Vector;
use oracle::{Answer, exhaustive, marks, outcome};
use std::time::Instant;

/// The library as the judge's own call.
fn library(page: &[u8], options: &[u8], scratch: &mut [u8], templates: &mut [u8], out: &mut [u8]) -> Answer {
    let answer = transform_into(page, options, scratch, templates, out);
    Answer {
        number: answer.number,
        templates_bytes: answer.templates_bytes,
        page_bytes: answer.page_bytes,
        templates: answer.templates,
    }
}

fn agree(case: &Case) {
    if let Some(words) = difference(case, &library) {
        let Case { page, options, .. } = case;
        panic!("{words}\noptions {}\n{}page {}\n{}", hex(options), show(options), hex(page), show(page));
    }
}

#[test]
fn seeds() {
    if no_judge() {
        return;
    }
    let word = |name: &str, other: u64| {
        std::env::var(name).map_or(other, |word| word.parse().unwrap_or_else(|_| panic!("{name} is no number: {word}")))
    };
    let (from, count) = (word("HOST_SEEDS_FROM", 0), word("HOST_SEEDS", 500_000));
    let start = Instant::now();
    let step = (count / 10).clamp(1, 50_000);
    for first in (0..count).step_by(step as usize) {
        let some = step.min(count - first);
        if let Some(words) = first_difference(from + first, some, &library) {
            panic!("{words}");
        }
        say(&format!("seeds: {} of {count}, no difference, {} s", first + some, start.elapsed().as_secs()));
    }
}

/// The marks of document 01: its table, each limit and one beyond it, the readings.
#[test]
fn limits_and_marks() {
    if no_judge() {
        return;
    }
    let marks = marks::all();
    for mark in &marks {
        agree(&mark.case);
    }
    say(&format!("marks: {}, no difference", marks.len()));
}

/// Options with many names, which the library looks up by their hashes: names of the page itself, as written, in small
/// letters and with a namespace, among short ones.
#[test]
fn many_listed_names() {
    if no_judge() {
        return;
    }
    const CASES: u64 = 10_000;
    let mut listed = 0;
    for seed in 0..CASES {
        let mut case = generate::case(seed);
        case.options = listing(seed, &case.page);
        listed += case.options.len();
        agree(&case);
    }
    say(&format!("many listed names: {CASES} pages, {} bytes of options each, no difference", listed / CASES as usize));
}

/// 02 and 03 with up to 4,000 bytes of names.
fn listing(seed: u64, page: &[u8]) -> Vec<u8> {
    let mut rng = Rng::new(seed);
    let mut below = |most: usize| rng.below(most);
    let names: Vec<&[u8]> = (0..page.len().saturating_sub(3))
        .filter(|&i| page[i] == 0x40 && page[i + 1] == 0)
        .filter_map(|i| page.get(i + 3..i + 3 + page[i + 2] as usize))
        .filter(|name| !name.is_empty() && name.iter().all(u8::is_ascii_graphic))
        .collect();
    let mut options = vec![];
    for tag in [0x02, 0x03] {
        let mut list = vec![];
        let most = 40 + below(1_900);
        while list.len() < most {
            let own =
                |i: usize| names.get(i % names.len().max(1)).map_or(&b"i"[..], |name| &name[..name.len().min(40)]);
            let name = match below(8) {
                0 => own(below(1_000)).to_vec(),
                1 => own(below(1_000)).to_ascii_lowercase(),
                2 => [own(below(1_000)), b":", own(below(1_000))].concat().to_ascii_lowercase(),
                3 => b"href".to_vec(),
                _ => (0..1 + below(3)).map(|_| b'a' + below(26) as u8).collect(),
            };
            list.extend([0x20, 0, name.len() as u8]);
            list.extend(name);
        }
        options.extend([tag, (list.len() / 256) as u8, (list.len() % 256) as u8]);
        options.extend(list);
    }
    options
}

/// Fragments in fragments under a call, beside texts, expressions and arrays that flattening may leave nothing of: how many
/// entries a level gives is asked for at each.
#[test]
fn nested_fragments() {
    if no_judge() {
        return;
    }
    const CASES: u64 = 20_000;
    let mut taken = 0;
    for seed in 0..CASES {
        let mut rng = Rng::new(seed);
        let levels = rng.within(1, 20);
        let children = series(&mut rng, levels);
        let tag = if rng.chance(80) { element("F", &children) } else { fragment(&children) };
        let page = page_of(tag);
        taken += usize::from(outcome(&page, &[]).is_ok());
        agree(&Case { page, options: vec![], scratch: 65_536, templates_room: Room::Exact, page_room: Room::Exact });
    }
    say(&format!("nested fragments: {CASES} pages, {taken} taken, no difference"));
}

/// Up to four children, fragments of that many levels at the most among them.
fn series(rng: &mut Rng, levels: usize) -> Vec<Vec<u8>> {
    (0..rng.below(5))
        .map(|_| if levels > 0 && rng.chance(60) { fragment(&series(rng, levels - 1)) } else { leaf(rng) })
        .collect()
}

fn leaf(rng: &mut Rng) -> Vec<u8> {
    match rng.below(14) {
        0 => text("\n \n"),
        1 => text("a"),
        2 => braces(string("")),
        3 => braces(string("b")),
        4 => braces(null()),
        5 => braces(code("e")),
        6 => braces(array(&[])),
        7 => braces(array(&[array(&[])])),
        8 => braces(array(&[array_spread(array(&[]))])),
        9 => braces(array(&[hole()])),
        10 => braces(array(&[null(), array(&[])])),
        11 => element("G", &[]),
        12 => element("i", &[]),
        _ => empty_braces(),
    }
}

#[test]
fn stored_answers() {
    let stored = include_str!("../../crates/replay/stdin");
    for line in stored.lines() {
        let vector = Vector::parse(line).expect("twelve words");
        let [mut scratch, mut templates, mut out] =
            [vector.scratch, vector.templates_out, vector.page_out].map(|length| vec![9; length]);
        let answer = library(&vector.page, &vector.options, &mut scratch, &mut templates, &mut out);
        assert_eq!(answer, vector.answer, "{}", vector.name);
        let left = if answer.number == 0 { 9 } else { 0 };
        for (bytes, written) in [(&templates, &vector.templates_written), (&out, &vector.page_written)] {
            assert_eq!(bytes[..written.len()], written[..], "{}", vector.name);
            assert!(bytes[written.len()..].iter().all(|byte| *byte == left), "{}", vector.name);
        }
        let left = if answer.number == 1 { 9 } else { 0 };
        assert!(scratch.iter().all(|byte| *byte == left), "{}", vector.name);
    }
    say(&format!("stored answers: {}, no difference", stored.lines().count()));
}

/// All byte strings of up to three bytes, as page and as options. Of scratch one byte is looked at, another each time;
/// up to two bytes all are.
#[test]
fn all_short_byte_strings() {
    if no_judge() {
        return;
    }
    let mut scratch = vec![0; 65_536];
    let mut calls = 0_usize;
    exhaustive::byte_strings(3, &mut |bytes| {
        for (page, options) in [(bytes, &[][..]), (&[1, 0, 0], bytes)] {
            calls += 1;
            let place = calls * 40_503 % scratch.len();
            let all = bytes.len() < 3;
            let marked = if all { &mut scratch[..] } else { &mut scratch[place..=place] };
            marked.fill(7);
            let (mut templates, mut out) = ([7; 9], [7; 9]);
            let answer = library(page, options, &mut scratch, &mut templates, &mut out);
            let (expected, left) = match outcome(page, options) {
                Ok(_) => (Answer { number: 0, templates_bytes: 0, page_bytes: 0, templates: 0 }, 7),
                Err(refusal) => (Answer::refused(refusal), 0),
            };
            let cleared = if all { scratch.iter().all(|byte| *byte == 0) } else { scratch[place] == 0 };
            let same = answer == expected && templates == [left; 9] && out == [left; 9] && cleared;
            assert!(same, "page {} options {}: {answer:?}, judge {expected:?}", hex(page), hex(options));
        }
    });
    assert!(scratch.iter().all(|byte| *byte == 0));
    say(&format!("byte strings: {calls} calls, no difference"));
}

/// All pages of up to seven fields with the leaves that the judge names, under four options.
#[test]
fn all_small_pages() {
    if no_judge() {
        return;
    }
    let lists = [
        vec![],
        elements_listed(&["i"]),
        [attributes_listed(&["a"]), sums()].concat(),
        [elements_listed(&["br"]), attributes_listed(&["key", "a"])].concat(),
    ];
    let mut calls = 0;
    for fields in 1..=7 {
        exhaustive::small_pages(fields, &mut |page| {
            for options in &lists {
                calls += 1;
                agree(&Case {
                    page: page.to_vec(),
                    options: options.clone(),
                    scratch: 65_536,
                    templates_room: Room::More(3),
                    page_room: Room::More(3),
                });
            }
        });
        say(&format!("pages of up to {fields} fields: {calls} calls, no difference"));
    }
}

/// The safe call, whose buffers grow: every answer but those to lent bytes that are too short.
#[test]
fn buffers_that_grow() {
    if no_judge() {
        return;
    }
    let mut transformer = Transformer::new();
    let mut taken = 0;
    let count = 20_000;
    for seed in 0..count {
        let Case { page, options, .. } = generate::case(seed);
        let Ok(options) = Options::from_bytes(&options) else { continue };
        let bytes = options.to_bytes().expect("they were read");
        match (transformer.transform(&page, &options), outcome(&page, &bytes)) {
            (Ok(forms), Ok(output)) => {
                assert_eq!(forms.templates_bytes(), output.templates, "seed {seed}");
                assert_eq!(forms.page_bytes(), output.page, "seed {seed}");
                assert_eq!(forms.count(), output.count, "seed {seed}");
                taken += 1;
            }
            (Err(fault), Err(expected)) => assert_eq!(fault.refusal.number(), expected as u32, "seed {seed}: {fault}"),
            (ours, theirs) => panic!("seed {seed}: {ours:?}, judge {theirs:?}"),
        }
    }
    say(&format!("safe calls: {count} seeds, {taken} taken, no difference"));
}

#[test]
fn outputs_longer_than_the_first_guess() {
    let page = page_of(element("p", &[text(&"\"".repeat(10_000))]));
    let forms = jsx_precompile::transform(&page, &Options::new()).expect("it is taken");
    // Two headers, the number and the count stand around the string.
    assert_eq!(forms.templates_bytes().len(), 3 + 6 + 3 + "<p></p>".len() + 10_000 * "&quot;".len());
    let long = Options::new().import_source("s".repeat(70_000));
    assert_eq!(jsx_precompile::transform(&page, &long).unwrap_err().refusal, Refusal::InputTooLong);
    let empty = Options::new().import_source("");
    assert_eq!(jsx_precompile::transform(&page, &empty).unwrap_err().refusal, Refusal::Misplaced);
}
