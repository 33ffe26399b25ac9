//! The library's lookup of templates against the judge's: the number, the count of records and all 256 places, call by
//! call.

mod common;

use common::say;
use jsx_precompile::limits::MAX_NUMBERS;
use jsx_precompile::out::Templates;
use jsx_precompile::{FindAnswer, Refusal, find, find_answer};
use oracle::outs::Layout;
use oracle::outs::compare::first_find;
use oracle::outs::exhaustive;
use oracle::outs::find::{Places, find as judge, outcome};
use oracle::outs::generate::{FindCase, find_case};
use oracle::outs::marks::{self, Mark, Out};
use oracle::outs::templates::{Template, write};
use oracle::outs::vectors::{Found, lookup_by};
use std::path::Path;
use std::time::Instant;

const STACK: usize = 512 * 1024;

/// The library as the judge's own call.
fn library(templates: &[u8], numbers: &[u32]) -> Places {
    let FindAnswer { number, records, places } = find_answer(templates, numbers);
    Places { number, records, places }
}

fn agree(templates: &[u8], numbers: &[u32]) -> u32 {
    let (ours, theirs) = (judge(templates, numbers), library(templates, numbers));
    assert!(ours == theirs, "judge {ours:?}, library {theirs:?}\n{}\n{numbers:?}", oracle::show::hex(templates));
    ours.number
}

fn word(name: &str, other: u64) -> u64 {
    std::env::var(name).map_or(other, |word| word.parse().unwrap_or_else(|_| panic!("{name} is no number: {word}")))
}

fn rising(numbers: impl IntoIterator<Item = usize>) -> Vec<u32> {
    numbers.into_iter().map(|number| number as u32).collect()
}

/// Templates without gaps, with these numbers.
fn numbered(numbers: impl IntoIterator<Item = u32>) -> Vec<u8> {
    let one = |number: u32| Template { number, kinds: vec![], strings: vec![b"<br>".to_vec()] };
    write(&numbers.into_iter().map(one).collect::<Vec<_>>(), Layout::New).expect("short strings")
}

#[test]
fn seeds() {
    let (from, count) = (word("HOST_FIND_SEEDS_FROM", 0), word("HOST_FIND_SEEDS", 20_000));
    let start = Instant::now();
    let step = (count / 10).clamp(1, 100_000);
    for first in (0..count).step_by(step as usize) {
        let some = step.min(count - first);
        if let Some(words) = first_find(from + first, some, &library) {
            panic!("{words}");
        }
        say(&format!("find: {} of {count} seeds, no difference, {} s", first + some, start.elapsed().as_secs()));
    }
}

/// Each sentence of A7 on what templates are, of both layouts, asked for what is there and what is not, and for what is
/// refused.
#[test]
fn every_mark() {
    let marks: Vec<Mark> = marks::all().into_iter().filter(|mark| mark.out == Out::Templates).collect();
    let asked = [vec![], vec![0], vec![1], vec![0, 1, u32::MAX], vec![1, 1], vec![1, 0], rising(0..257)];
    let mut calls = 0;
    for mark in &marks {
        for numbers in &asked {
            let number = agree(&mark.bytes, numbers);
            let rising = numbers.is_sorted_by(|one, next| one < next) && numbers.len() <= MAX_NUMBERS;
            // What is wrong with the templates comes before what is wrong with the numbers.
            let due = if mark.number == 0 && !rising { 20 } else { mark.number };
            assert!(mark.layout == Layout::Old || number == due, "{}, {numbers:?}: {number}", mark.name);
            calls += 1;
        }
    }
    assert!(marks.len() > 40);
    say(&format!("find: {} marks, {calls} calls, no difference", marks.len()));
}

/// The first of several, the last one found, an absent one, none named; 256 numbers and one more; the greatest number.
#[test]
fn limits() {
    let templates = numbered([7, 3, 7, u32::MAX, 0, 3]);
    for (numbers, records) in [
        (vec![], 0),
        (vec![7], 1),
        (vec![3], 2),
        (vec![3, 7], 2),
        (vec![u32::MAX], 4),
        (vec![0, 3, 7, u32::MAX], 5),
        (vec![7, 8], 6),
    ] {
        assert_eq!(agree(&templates, &numbers), 0);
        assert_eq!(library(&templates, &numbers).records, records, "{numbers:?}");
    }
    let many = numbered((0..70_000).rev());
    for numbers in [
        rising(0..256),
        rising(69_744..70_000),
        rising((0..256).map(|one| one * 273)),
        rising(69_745..70_001),
        rising(0..1),
        rising(69_999..70_000),
    ] {
        assert_eq!(agree(&many, &numbers), 0);
    }
    assert_eq!(library(&many, &rising(69_744..70_000)).records, 256);
    for numbers in
        [rising(0..257), vec![0; 257], rising(0..100_000), vec![5, 5], vec![5, 4], vec![1, 2, 2], vec![2, 3, 1]]
    {
        assert_eq!(agree(&many, &numbers), 20, "{} numbers", numbers.len());
    }
    say(&format!("find: {} bytes of templates, places up to the last of them, no difference", many.len()));
}

/// All strings of up to two bytes, alone, behind a template and within one; every byte of a row changed to every other.
#[test]
fn all_bytes() {
    let mut calls = 0;
    let sound = numbered([2, 1]);
    exhaustive::bytes(2, &mut |bytes| {
        let length = bytes.len() as u8;
        for (front, back) in [
            (&[][..], &[][..]),
            (&sound, &[]),
            (&[0x84, 0, length], &[]),
            (&[0x84, 0, 9 + length, 0, 0, 0, 1], &[0x81, 0, 0, 0x81, 0]),
            (&[0x84, 0, 9 + length, 0, 0, 0, 1, 0, 0, 0x81, 0, length], &[]),
        ] {
            agree(&[front, bytes, back].concat(), &[1, 2]);
            calls += 1;
        }
    });
    let strings = [&b"<p "[..], b" ", b"></p>"].map(<[u8]>::to_vec).to_vec();
    let row = write(&[Template { number: 1, kinds: vec![1, 1], strings }], Layout::New).expect("short strings");
    let row = [row, sound].concat();
    for at in 0..row.len() {
        for byte in 0..=u8::MAX {
            let mut bytes = row.clone();
            bytes[at] = byte;
            agree(&bytes, &[1, 2, 3]);
            calls += 1;
        }
        agree(&row[..at], &[1, 2]);
    }
    say(&format!("find: {calls} calls with all bytes in a place, no difference"));
}

/// Answers of another implementation, made from the papers alone; where they are not there, that is said.
#[test]
fn stored_answers() {
    const FILE: &str = "../../shared/vectors/lookup.txt";
    let Ok(text) = std::fs::read_to_string(Path::new(env!("CARGO_MANIFEST_DIR")).join(FILE)) else {
        say(&format!("skipped: {FILE} is not there"));
        return;
    };
    let found: Vec<Found> = text.lines().map(|line| lookup_by(line, library).expect("six words")).collect();
    let differing: Vec<&String> = found.iter().filter_map(|found| found.difference.as_ref()).collect();
    assert!(differing.is_empty(), "{differing:#?}");
    assert!(found.iter().any(|found| found.number == 20));
    say(&format!("find: {} answers of another implementation, no difference", found.len()));
}

/// The safe call says the same.
#[test]
fn the_safe_call() {
    let (mut places, mut absent, mut located) = (0, 0, 0);
    for seed in 0..5_000 {
        let FindCase { templates, numbers } = find_case(seed);
        match (find(&templates, &numbers), outcome(&templates, &numbers)) {
            (Ok(found), Ok((records, all))) => {
                assert_eq!((found.records(), found.places().len()), (records, numbers.len()), "seed {seed}");
                for ((place, other), number) in found.places().iter().zip(all).zip(numbers) {
                    assert_eq!(place.unwrap_or(FindAnswer::ABSENT), other, "seed {seed}");
                    let Some(at) = *place else {
                        absent += 1;
                        continue;
                    };
                    let read = Templates::read(&templates[at..]).expect("templates");
                    assert_eq!(read.map(|template| template.number()).next(), Some(number), "seed {seed}");
                    places += 1;
                }
            }
            (Err(refusal), Err(other)) => {
                assert_eq!(refusal.number(), other as u32, "seed {seed}");
                // The reader of this crate says where; it reads 80s too.
                if refusal != Refusal::NotRising && templates[0] != 0x80 {
                    let read = Templates::read(&templates).map(drop).map_err(|fault| fault.refusal);
                    assert_eq!(read, Err(refusal), "seed {seed}");
                    located += 1;
                }
            }
            (ours, theirs) => panic!("seed {seed}: {ours:?}, judge {theirs:?}"),
        }
    }
    assert!(places > 1_000 && absent > 1_000 && located > 100);
    say(&format!(
        "find: safe calls of 5000 seeds, {places} places, {absent} absent, {located} refused templates, no difference"
    ));
}

/// Many templates, a template of many strings, and the longest strings.
#[test]
fn half_a_megabyte_is_enough() {
    let of = |strings: Vec<Vec<u8>>| {
        let kinds = vec![2; strings.len() - 1];
        write(&[Template { number: 1, kinds, strings }], Layout::New).expect("it fits")
    };
    let shelves = [numbered(0..100_000), of(vec![vec![]; 16_382]), of(vec![vec![b'a'; 65_526]])];
    let calls = move || {
        for templates in &shelves {
            assert_eq!(library(templates, &rising(1..MAX_NUMBERS + 1)).number, 0);
        }
        shelves.len()
    };
    let thread = std::thread::Builder::new().stack_size(STACK).spawn(calls).expect("a thread");
    say(&format!("find: {} rows of templates within {STACK} bytes of stack", thread.join().expect("it ends")));
}
