//! The named cases of 01: the worked card, K1 to K10, the limits, every reading.

use oracle::generate::rng::Rng;
use oracle::{card, demand3, judge, kept, marks, outcome};

#[test]
#[cfg_attr(not(jsx_source), ignore = "jsx_precompile.rs is not there")]
fn every_mark_has_its_answer() {
    let marks = marks::all();
    for mark in &marks {
        let case = &mark.case;
        let outcome = outcome(&case.page, &case.options);
        let (templates, page) = case.outs(&outcome);
        let (mut scratch, mut templates, mut page) = (vec![7; case.scratch], vec![7; templates], vec![7; page]);
        let answer = judge(&case.page, &case.options, &mut scratch, &mut templates, &mut page);
        assert_eq!(answer.number, mark.number, "{}", mark.name);
        if let Some(written) = &mark.written {
            let found = [&templates[..answer.templates_bytes], &page[..answer.page_bytes]];
            assert_eq!(found, [&written[0][..], &written[1][..]], "{}", mark.name);
        }
        let Some(printed) = &mark.printed else { continue };
        let text = oracle::card::printed(&templates[..answer.templates_bytes], &page[..answer.page_bytes]);
        assert_eq!(&String::from_utf8(text).unwrap(), printed, "{}", mark.name);
        if case.options.is_empty() {
            assert_eq!(&String::from_utf8(card(&case.page)).unwrap(), printed, "{}", mark.name);
        }
    }
    println!("{} marks", marks.len());
}

#[test]
#[cfg_attr(not(jsx_source), ignore = "jsx_precompile.rs is not there")]
fn accepted_marks_meet_demand_3_and_a9() {
    let mut accepted = 0;
    for mark in marks::all() {
        let case = &mark.case;
        let Ok(output) = outcome(&case.page, &case.options) else { continue };
        accepted += 1;
        let violation = demand3::violation(&output.templates, &output.page, output.count, &mut Rng::new(accepted));
        assert_eq!(violation, None, "{}", mark.name);
        assert!(kept::compare(&case.page, &case.options, &output.page).is_ok(), "{}", mark.name);
    }
    println!("{accepted} accepted marks");
}

#[test]
#[cfg_attr(not(jsx_source), ignore = "jsx_precompile.rs is not there")]
fn a_refusal_prints_its_number() {
    let mark = marks::all().into_iter().find(|m| m.name == "k7-nested").unwrap();
    assert_eq!(card(&mark.case.page), b"10\n");
    assert_eq!(card(b""), b"3\n");
}

#[test]
fn names_of_marks_are_words_and_differ() {
    let mut names: Vec<String> = marks::all().into_iter().map(|m| m.name).collect();
    assert!(names.iter().all(|n| !n.is_empty() && n.bytes().all(|c| c.is_ascii_alphanumeric() || c == b'-')));
    names.sort();
    let count = names.len();
    names.dedup();
    assert_eq!(names.len(), count);
}
