//! Answers of another implementation to the calls over templates out and page out, made from the papers alone: the judge
//! gives the same, every lent byte too. They are no part of this repository; where they are not there, that is said.

use oracle::outs::vectors::{self, Found};
use std::collections::BTreeMap;
use std::fs;
use std::path::Path;

const FOLDER: &str = "../../shared/vectors";

/// Every line of a file by the judge; the file must have all these numbers.
fn answers_alike(file: &str, judge: impl Fn(&str) -> Option<Found>, numbers: &[u32]) {
    let path = Path::new(env!("CARGO_MANIFEST_DIR")).join(FOLDER).join(file);
    let Ok(text) = fs::read_to_string(path) else {
        println!("skipped: {FOLDER}/{file} is not there");
        return;
    };
    let mut counts = BTreeMap::new();
    let mut differing = vec![];
    for line in text.lines() {
        let found = judge(line).unwrap_or_else(|| panic!("{file}: not read: {line}"));
        *counts.entry(found.number).or_insert(0) += 1;
        differing.extend(found.difference.map(|words| format!("{line}\n{words}")));
    }
    println!("{file}: {} answers, by number {counts:?}", text.lines().count());
    assert!(differing.is_empty(), "{} differ\n{}", differing.len(), differing.join("\n"));
    assert!(numbers.iter().all(|number| counts.contains_key(number)), "{counts:?}");
}

/// 02, A7. 11 is a matter of long inputs.
#[test]
fn converted_alike() {
    answers_alike("convert.txt", vectors::convert, &[0, 3, 4, 5, 6, 7, 12, 13, 17]);
}

/// 02, A8.
#[test]
fn filled_alike() {
    answers_alike("fill.txt", vectors::filling, &[0, 3, 4, 6, 8, 13, 18]);
}

/// 02, A11.
#[test]
fn found_alike() {
    answers_alike("lookup.txt", vectors::lookup, &[0, 3, 4, 6, 20]);
}

/// 02, A13.
#[test]
fn catalogued_alike() {
    answers_alike("catalogue.txt", vectors::catalogue_call, &[0, 3, 4, 5, 6, 7, 17, 21, 22, 23]);
}

/// 02, A14.
#[test]
fn shared_alike() {
    answers_alike("shares.txt", vectors::shares_call, &[0, 3, 4, 5, 6, 7, 17, 21, 22, 24, 25, 26]);
}
