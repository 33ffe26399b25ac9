//! The stored answers are the judge's, and among them is everything that they are stored for.

use oracle::answer::{NOT_GIVEN, NUMBERS};
use oracle::judge::{outcome_and_copy, outcome_with};
use oracle::transform::Copy;
use oracle::vectors::{Reached, Vector};
use oracle::{arms, judge, marks};
use std::collections::HashSet;

const STORED: &str = include_str!("../../crates/replay/stdin");
const REPLAYED: &str = include_str!("../../crates/replay/stdout");

fn stored() -> Vec<Vector> {
    STORED.lines().map(|line| Vector::parse(line).expect("twelve words")).collect()
}

#[test]
fn lines_read_back() {
    assert!(STORED.len() < 1_600_000);
    let again: String = stored().iter().map(Vector::line).collect();
    assert!(again == STORED);
}

#[test]
fn the_replay_is_of_all_lines() {
    assert_eq!(REPLAYED, format!("{} lines, 0 differences\n", stored().len()));
}

#[test]
#[cfg_attr(not(jsx_source), ignore = "jsx_precompile.rs is not there")]
fn the_judge_answers_as_stored() {
    let vectors = stored();
    for vector in &vectors {
        let (mut scratch, mut templates, mut page) =
            (vec![9; vector.scratch], vec![9; vector.templates_out], vec![9; vector.page_out]);
        let answer = judge(&vector.page, &vector.options, &mut scratch, &mut templates, &mut page);
        assert_eq!(answer, vector.answer, "{}", vector.name);
        assert_eq!(templates[..answer.templates_bytes], vector.templates_written, "{}", vector.name);
        assert_eq!(page[..answer.page_bytes], vector.page_written, "{}", vector.name);
        let _ = outcome_with(Copy::Counted, &vector.page, &vector.options);
    }
    println!("{} vectors", vectors.len());
    for (arm, (line, function, text)) in arms::ARMS.iter().enumerate() {
        assert!(arms::is_dead(arm) || arms::hits(arm) > 0, "no vector reaches line {line} {function}: {text}");
    }
}

#[test]
fn answers_and_marks_are_all_there() {
    let vectors = stored();
    for number in 0..NUMBERS as u32 {
        let stored = vectors.iter().filter(|v| v.answer.number == number).count();
        let enough = if NOT_GIVEN.contains(&(number as usize)) { stored == 0 } else { stored >= 5 };
        assert!(enough, "answer {number}: {stored}");
    }
    let names: HashSet<&str> = vectors.iter().map(|v| &v.name[..]).collect();
    let missing: Vec<String> = marks::all().into_iter().map(|m| m.name).filter(|n| !names.contains(&n[..])).collect();
    // Those whose lines are too long to store.
    assert!(missing.iter().all(|n| n.contains("65") || n.contains("32")), "{missing:?}");
}

#[test]
#[cfg_attr(not(jsx_source), ignore = "jsx_precompile.rs is not there")]
fn the_patched_copy_has_its_share() {
    let patched = |v: &Vector| outcome_and_copy(&v.page, &v.options).1 == Some(Copy::Patched);
    let accepted = stored().iter().filter(|v| v.answer.number == 0 && patched(v)).count();
    println!("{accepted} accepted by the patched copy");
    assert!(accepted >= 100, "{accepted}");
}

/// Decimals and sums in every place where they may stand, of every kind; decimals refused for each reason; attributes
/// that stand twice and void names in mixed case, refused and not.
#[test]
#[cfg_attr(not(jsx_source), ignore = "jsx_precompile.rs is not there")]
fn the_requests_have_their_share() {
    let mut reached = Reached::default();
    stored().iter().for_each(|vector| reached.meet(vector));
    print!("{}{}", reached.decimals.table(), reached.sums.table());
    print!("{}{}", reached.repeats.table(), reached.mixed_case.table());
    assert_eq!(reached.missing(), Vec::<String>::new());
}
