//! The program `card` against the judge's own card, page by page: both print the same bytes.

mod common;
mod program;

use common::{no_judge, say};
use oracle::answer::{LEAST_SCRATCH, MOST_PAGE};
use oracle::generate::{self, Case, Room, page::padded, rng::Rng};
use oracle::make::{attribute_string, braces, code, element, page, source, statement, text};
use oracle::marks;
use oracle::show::{hex, show};
use oracle::shrink::shrink;
use program::{Program, parting};
use std::collections::BTreeMap;
use std::thread;
use std::time::Instant;

const THREADS: usize = 2;

/// How often each was printed: a bare number, or (under 0) a text.
type Tally = BTreeMap<u32, u64>;

/// Where the program's text of this page parts from the judge's; else the number that both printed, 0 for a text.
fn compare(card: &Program, page: &[u8]) -> Result<u32, String> {
    let judged = oracle::card(page);
    let printed = card.prints(&[page])?;
    match parting(["judge", "program"], [&judged, &printed]) {
        Some(words) => Err(words),
        None => Ok(str::from_utf8(&judged).ok().and_then(|text| text.trim_end().parse().ok()).unwrap_or(0)),
    }
}

fn shown(page: &[u8]) -> String {
    match page.len() {
        0..2_000 => format!("page {}\n{}", hex(page), show(page)),
        bytes => format!("page of {bytes} bytes, its front {}", hex(&page[..100])),
    }
}

/// The smallest page found that still shows a difference, and its words.
fn smallest(card: &Program, page: Vec<u8>) -> String {
    let (scratch, room) = (LEAST_SCRATCH, Room::Exact);
    let case = Case { page, options: vec![], scratch, templates_room: room, page_room: room };
    let page = shrink(case, |case| compare(card, &case.page).is_err()).page;
    let words = compare(card, &page).err().unwrap_or_else(|| "no difference any more when run again".to_string());
    format!("{words}\n{}", shown(&page))
}

/// The generator's page of that seed; of every fourth seed a copy in which bytes are flipped, cut off or put in.
fn page_of_seed(seed: u64) -> Vec<u8> {
    let mut page = generate::case(seed).page;
    if seed % 4 == 3 {
        damage(&mut Rng::new(!seed), &mut page);
    }
    page
}

fn damage(rng: &mut Rng, page: &mut Vec<u8>) {
    let at = rng.below(page.len() + 1);
    match rng.below(4) {
        0 => page.truncate(at),
        1 => {
            let some: Vec<u8> = (0..rng.within(1, 4)).map(|_| rng.draw() as u8).collect();
            page.splice(at..at, some);
        }
        _ if at == page.len() => {}
        2 => page[at] ^= 1 << rng.below(8),
        _ => page[at] = rng.draw() as u8,
    }
}

fn tally(card: &Program, seeds: impl Iterator<Item = u64>) -> Result<Tally, String> {
    let mut tally = Tally::new();
    for seed in seeds {
        let page = page_of_seed(seed);
        match compare(card, &page) {
            Ok(number) => *tally.entry(number).or_default() += 1,
            Err(words) => {
                // Said before the page is made small, which takes minutes where it is long.
                say(&format!("card: seed {seed}: {words}"));
                return Err(format!("seed {seed}: {}", smallest(card, page)));
            }
        }
    }
    Ok(tally)
}

#[test]
fn seeds() {
    if no_judge() {
        return;
    }
    let card = &Program::found("card");
    let count: u64 = std::env::var("CARD_PAGES").map_or(10_000, |word| word.parse().expect("CARD_PAGES is a number"));
    let start = Instant::now();
    let mut all = Tally::new();
    for first in (0..count).step_by(1_000) {
        let end = count.min(first + 1_000);
        let tallies = thread::scope(|scope| {
            let part = |nth| scope.spawn(move || tally(card, (first..end).skip(nth).step_by(THREADS)));
            let threads: Vec<_> = (0..THREADS).map(part).collect();
            threads.into_iter().map(|thread| thread.join().expect("it ends")).collect::<Vec<_>>()
        });
        for tally in tallies {
            for (number, times) in tally.unwrap_or_else(|words| panic!("{words}")) {
                *all.entry(number).or_default() += times;
            }
        }
        say(&format!("card: {end} of {count} pages, no difference, {} s", start.elapsed().as_secs()));
    }
    let taken = all.get(&0).copied().unwrap_or(0);
    let numbers: Vec<String> =
        all.iter().filter(|(number, _)| **number > 0).map(|(number, times)| format!("{number}: {times}")).collect();
    say(&format!("card: {taken} texts, and the numbers {}", numbers.join(", ")));
    assert!(3 * taken >= count && 10 * (count - taken) >= count, "too few pages are taken, or too few refused");
}

/// The marks of document 01, those with options too, as pages without any.
#[test]
fn limits_and_marks() {
    if no_judge() {
        return;
    }
    let card = Program::found("card");
    let marks = marks::all();
    for mark in &marks {
        if let Err(words) = compare(&card, &mark.case.page) {
            panic!("mark {}: {words}\n{}", mark.name, shown(&mark.case.page));
        }
    }
    say(&format!("card: {} marks, no difference", marks.len()));
}

/// const a = <p class="t">Hi {n}</p>;
fn worked() -> Vec<u8> {
    let tag = element("p", &[attribute_string("class", "t"), text("Hi "), braces(code("n"))]);
    page(&[statement(&[source("const a = "), tag, source(";")])])
}

/// No byte at all is 3; the longest page is taken; one byte more, and any number more, is 2.
#[test]
fn lengths() {
    if no_judge() {
        return;
    }
    let card = Program::found("card");
    let inputs = [
        (vec![], 3),
        (padded(worked(), MOST_PAGE - 1), 0),
        (padded(worked(), MOST_PAGE), 0),
        (padded(worked(), MOST_PAGE + 1), 2),
        (padded(worked(), 2 * MOST_PAGE - 1), 2),
        (vec![0; MOST_PAGE], 4),
        (vec![0; MOST_PAGE + 1], 2),
        (vec![1; 1_000_000], 2),
        ([padded(worked(), MOST_PAGE), vec![0]].concat(), 2),
        ([worked(), vec![0]].concat(), 3),
    ];
    for (input, expected) in &inputs {
        let bytes = input.len();
        match compare(&card, input) {
            Ok(number) => assert_eq!(number, *expected, "of {bytes} bytes"),
            Err(words) => panic!("of {bytes} bytes: {words}"),
        }
    }
    say(&format!("card: {} lengths, no difference", inputs.len()));
}

/// A page that comes in parts is the same page: one read need not give all of it.
#[test]
fn in_parts() {
    if no_judge() {
        return;
    }
    let card = Program::found("card");
    let same = |parts: &[&[u8]]| {
        let printed = card.prints(parts).unwrap_or_else(|words| panic!("{words}"));
        if let Some(words) = parting(["judge", "program"], [&oracle::card(&parts.concat()), &printed]) {
            let lengths: Vec<usize> = parts.iter().map(|part| part.len()).collect();
            panic!("in parts of {lengths:?} bytes: {words}");
        }
    };
    let page = worked();
    for at in 1..page.len() {
        let (front, back) = page.split_at(at);
        same(&[front, back]);
    }
    same(&page.chunks(1).collect::<Vec<_>>());
    for long in [padded(worked(), MOST_PAGE), padded(worked(), MOST_PAGE + 1)] {
        same(&long.chunks(1_000).collect::<Vec<_>>());
        let (front, back) = long.split_at(MOST_PAGE);
        same(&[front, back]);
    }
    say("card: pages in parts, no difference");
}
