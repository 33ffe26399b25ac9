//! The comparison that other crates use: it agrees with the judge, and sees one wrong byte or number.

use oracle::compare::{difference, first_difference};
use oracle::{Answer, judge, marks};

#[test]
#[cfg_attr(not(jsx_source), ignore = "jsx_precompile.rs is not there")]
fn the_judge_agrees_with_itself() {
    for mark in marks::all() {
        assert_eq!(difference(&mark.case, &judge), None, "{}", mark.name);
    }
    assert_eq!(first_difference(0, 2_000, &judge), None);
}

#[test]
#[cfg_attr(not(jsx_source), ignore = "jsx_precompile.rs is not there")]
fn one_wrong_byte_is_seen() {
    let scratch_left = |page: &[u8], options: &[u8], scratch: &mut [u8], t: &mut [u8], p: &mut [u8]| {
        let answer = judge(page, options, scratch, t, p);
        if let Some(last) = scratch.last_mut() {
            *last = 77;
        }
        answer
    };
    let behind_the_end = |page: &[u8], options: &[u8], scratch: &mut [u8], t: &mut [u8], p: &mut [u8]| {
        let answer = judge(page, options, scratch, t, p);
        if answer.number == 0 && answer.page_bytes < p.len() {
            p[answer.page_bytes] = 0;
        }
        answer
    };
    let one_template_more = |page: &[u8], options: &[u8], scratch: &mut [u8], t: &mut [u8], p: &mut [u8]| {
        let answer = judge(page, options, scratch, t, p);
        Answer { templates: answer.templates + usize::from(answer.templates > 2), ..answer }
    };
    for words in [
        first_difference(0, 1_000, &scratch_left),
        first_difference(0, 1_000, &behind_the_end),
        first_difference(0, 1_000, &one_template_more),
    ] {
        let words = words.expect("a difference");
        assert!(words.contains("page"), "{words}");
        println!("{words}");
    }
}
