//! Answers of another implementation to tag text, made from the papers alone: the judge gives the same, every lent byte
//! too. They are no part of this repository; where they are not there, that is said.

use oracle::tag::judge;
use oracle::tag::vectors::TagVector;
use std::collections::BTreeMap;
use std::fs;
use std::path::Path;

const FILE: &str = "../../shared/vectors/tag.txt";

#[test]
fn the_judge_answers_alike() {
    let Ok(text) = fs::read_to_string(Path::new(env!("CARGO_MANIFEST_DIR")).join(FILE)) else {
        println!("skipped: {FILE} is not there");
        return;
    };
    let vectors: Vec<TagVector> = text.lines().map(|line| TagVector::parse(line).expect("six words")).collect();
    let differing: Vec<String> = vectors.iter().filter_map(|vector| vector.difference(judge)).collect();
    assert!(differing.is_empty(), "{differing:#?}");
    let mut numbers = BTreeMap::new();
    vectors.iter().for_each(|vector| *numbers.entry(vector.answer.number).or_insert(0) += 1);
    println!("{} answers, by number {numbers:?}", vectors.len());
    // 2 and 11 are matters of long texts; the marks have them.
    assert!([0, 6, 7, 8, 13, 14, 15].iter().all(|number| numbers.contains_key(number)), "{numbers:?}");
}
