//! Answers of another implementation, made from the papers alone, with the requests of 02 that the judge has: the judge
//! gives the same. They are no part of this repository; where they are not there, that is said.

use oracle::decimal::bodies;
use oracle::field;
use oracle::vectors::Vector;
use oracle::{judge, sums};
use std::fs;
use std::path::Path;

/// A1, A2, A4, A10 and A6.
const KINDS: &str = "../../shared/vectors/transform-a6.txt";
/// These and A12: all that the judge has.
const SUMS: &str = "../../shared/vectors/transform-a12.txt";

/// A line begins with its seed, and goes on as the stored answers do.
fn vectors(file: &str) -> Option<Vec<Vector>> {
    let Ok(text) = fs::read_to_string(Path::new(env!("CARGO_MANIFEST_DIR")).join(file)) else {
        println!("skipped: {file} is not there");
        return None;
    };
    let vector = |line: &str| {
        let (seed, rest) = line.split_once(' ').expect("a seed");
        Vector::parse(&format!("{rest} outside-{seed}")).expect("twelve words")
    };
    Some(text.lines().map(vector).collect())
}

/// The answer and what is written, call by call.
fn all_agree(vectors: &[Vector]) {
    let mut differing = vec![];
    for vector in vectors {
        let [mut scratch, mut templates, mut page] =
            [vector.scratch, vector.templates_out, vector.page_out].map(|length| vec![9; length]);
        let answer = judge(&vector.page, &vector.options, &mut scratch, &mut templates, &mut page);
        let written = (&templates[..answer.templates_bytes], &page[..answer.page_bytes]);
        if (answer, written) != (vector.answer, (&vector.templates_written, &vector.page_written)) {
            differing.push(&vector.name);
        }
    }
    assert!(differing.is_empty(), "{differing:?}");
}

fn count(vectors: &[Vector], holds: impl Fn(&Vector) -> bool) -> usize {
    vectors.iter().filter(|vector| holds(vector)).count()
}

#[test]
#[cfg_attr(not(jsx_source), ignore = "jsx_precompile.rs is not there")]
fn the_judge_answers_alike() {
    let Some(mut vectors) = vectors(KINDS) else { return };
    // Without A12 a 05 was no option.
    vectors.retain(|vector| !sums::asked(&vector.options));
    all_agree(&vectors);
    let [repeated, mixed_case] = [16, 19].map(|number| count(&vectors, |vector| vector.answer.number == number));
    let decimals = count(&vectors, |vector| !bodies(&vector.page).is_empty());
    let taken = count(&vectors, |vector| !bodies(&vector.page).is_empty() && vector.answer.number == 0);
    let kinds = [1, 2].map(|kind| kinds(&vectors, kind));
    println!(
        "{} answers, {repeated} of them 16, {mixed_case} of them 19; {decimals} to pages with decimals, {taken} of \
         these taken; {} attribute gaps, {} child gaps",
        vectors.len(),
        kinds[0],
        kinds[1]
    );
    assert!(taken > 0 && repeated > 0 && mixed_case > 0 && kinds.iter().all(|kind| *kind > 0));
}

/// How many gaps of that kind stand in the templates.
fn kinds(vectors: &[Vector], kind: u8) -> usize {
    let templates = vectors.iter().flat_map(|v| field::read(&v.templates_written).expect("a row of fields"));
    templates.map(|template| template.bytes[6..].iter().filter(|one| **one == kind).count()).sum()
}

#[test]
#[cfg_attr(not(jsx_source), ignore = "jsx_precompile.rs is not there")]
fn sums_are_worked_out_alike() {
    let Some(vectors) = vectors(SUMS) else { return };
    all_agree(&vectors);
    let taken = count(&vectors, |vector| vector.answer.number == 0);
    let with_sums = count(&vectors, |vector| {
        vector.answer.number == 0 && sums::asked(&vector.options) && sums::worked(&vector.page) != vector.page
    });
    println!("{} answers, {taken} taken, {with_sums} of these with a sum worked out", vectors.len());
    assert!(with_sums > 0);
}
