//! Seeds of tag text: the generator reaches what it must, and the comparison sees a reader that is wrong in one thing.

use oracle::tag::compare::{difference, first_difference};
use oracle::tag::generate::{self, TagCase};
use oracle::tag::sweep::sweep;
use oracle::tag::{TagAnswer, judge, marks};

#[test]
fn a_hundred_thousand_seeds() {
    let report = sweep(0, 100_000);
    print!("{}", report.table());
    assert_eq!(report.shortfalls(), Vec::<String>::new());
}

#[test]
fn a_seed_gives_the_same_case_again() {
    for seed in 0..300 {
        assert_eq!(format!("{:?}", generate::case(seed)), format!("{:?}", generate::case(seed)));
    }
}

#[test]
fn the_judge_agrees_with_itself() {
    for mark in marks::all() {
        let case = TagCase { text: mark.text, room: oracle::generate::Room::More(3) };
        assert_eq!(difference(&case, &judge), None, "{}", mark.name);
    }
    assert_eq!(first_difference(0, 2_000, &judge), None);
}

/// A reader that answers as the judge does, but for one thing.
fn but(change: impl Fn(&[u8], &mut [u8], TagAnswer) -> TagAnswer) -> impl Fn(&[u8], &mut [u8]) -> TagAnswer {
    move |text, out| {
        let answer = judge(text, out);
        change(text, out, answer)
    }
}

#[test]
fn one_wrong_answer_is_seen() {
    let shown = |name: &str, words: Option<String>| {
        let words = words.unwrap_or_else(|| panic!("{name}: no difference is seen"));
        println!("{name}: {words}");
    };
    let refused = |number| TagAnswer { number, tag_bytes: 0 };
    let no_15 = but(|_, _, answer| if answer.number == 15 { refused(14) } else { answer });
    shown("14 for 15", first_difference(0, 1_000, &no_15));
    let behind = but(|_, out, answer| {
        if answer.number == 0 && answer.tag_bytes < out.len() {
            out[answer.tag_bytes] = 0;
        }
        answer
    });
    shown("a byte behind the end", first_difference(0, 1_000, &behind));
    let not_cleared = but(|_, out, answer| {
        if let Some(last) = out.last_mut().filter(|_| answer.number == 14) {
            *last = 1;
        }
        answer
    });
    shown("a byte not cleared", first_difference(0, 1_000, &not_cleared));
    let trims = |text: &[u8], out: &mut [u8]| judge(text.trim_ascii_end(), out);
    shown("white space behind the tag", first_difference(0, 20_000, &trims));
    let form_feed = |text: &[u8], out: &mut [u8]| {
        let text: Vec<u8> = text.iter().map(|byte| if *byte == 0x0c { b' ' } else { *byte }).collect();
        judge(&text, out)
    };
    shown("form feed as white space", first_difference(0, 20_000, &form_feed));
}
