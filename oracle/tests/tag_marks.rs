//! The named tag texts: each has the answer that A3 fixes.

use oracle::show::show;
use oracle::tag::vectors::{TagVector, sample};
use oracle::tag::{NUMBERS, judge, marks, outcome};

#[test]
fn every_mark_has_its_answer() {
    let marks = marks::all();
    for mark in &marks {
        let outcome = outcome(&mark.text);
        if outcome != mark.answer {
            let [ours, theirs] = [&outcome, &mark.answer].map(|answer| match answer {
                Ok(field) => show(field),
                Err(refusal) => format!("{refusal:?}\n"),
            });
            panic!("{}: {}\nthe judge\n{ours}the mark\n{theirs}", mark.name, mark.text.escape_ascii());
        }
    }
    let taken = marks.iter().filter(|mark| mark.answer.is_ok()).count();
    println!("{} marks, {taken} of them taken", marks.len());
}

#[test]
fn names_of_marks_are_words_and_differ() {
    let mut names: Vec<String> = marks::all().into_iter().map(|mark| mark.name).collect();
    assert!(names.iter().all(|name| name.bytes().all(|c| c.is_ascii_alphanumeric() || c == b'-')));
    names.sort();
    let count = names.len();
    names.dedup();
    assert_eq!(names.len(), count);
}

/// Stored answers are read as they were written, and have every number.
#[test]
fn stored_answers() {
    let sample = sample();
    for vector in &sample {
        let line = vector.line();
        let read = TagVector::parse(line.trim_end()).expect("six words");
        assert_eq!(read.line(), line);
        assert_eq!(read.difference(judge), None);
    }
    for number in NUMBERS {
        assert!(sample.iter().any(|vector| vector.answer.number == number), "{number}");
    }
    let bytes: usize = sample.iter().map(|vector| vector.line().len()).sum();
    println!("{} answers in {bytes} bytes", sample.len());
}
