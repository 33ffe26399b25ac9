//! All short inputs: byte strings up to three bytes as page and as options, pages with few fields.

use oracle::exhaustive::{byte_strings, count_small_pages};
use oracle::{Refusal, outcome, sweep};

#[test]
#[cfg_attr(not(jsx_source), ignore = "jsx_precompile.rs is not there")]
fn byte_strings_as_page() {
    let mut count = 0_u64;
    byte_strings(3, &mut |page| {
        count += 1;
        let expected = match page {
            [1, 0, 0] => None,
            [_, 0, 0] => Some(Refusal::Misplaced),
            _ => Some(Refusal::Truncated),
        };
        assert_eq!(outcome(page, &[]).err(), expected, "{page:02x?}");
    });
    assert_eq!(count, 1 + 256 + 256 * 256 + 256 * 256 * 256);
}

#[test]
#[cfg_attr(not(jsx_source), ignore = "jsx_precompile.rs is not there")]
fn byte_strings_as_options() {
    byte_strings(3, &mut |options| {
        let expected = match options {
            [] | [2 | 3 | 5, 0, 0] => None,
            [_, 0, 0] => Some(Refusal::Misplaced),
            _ => Some(Refusal::Truncated),
        };
        let answer = outcome(&[1, 0, 0], options);
        assert_eq!(answer.clone().err(), expected, "{options:02x?}");
        assert!(answer.is_err() || answer.is_ok_and(|o| o.templates.is_empty() && o.page.is_empty() && o.count == 0));
    });
}

#[test]
#[cfg_attr(not(jsx_source), ignore = "jsx_precompile.rs is not there")]
fn pages_up_to_seven_fields() {
    for fields in 1..=7 {
        let report = sweep::small(fields);
        println!("pages of {fields} fields: {report:?}");
        assert_eq!(report.violations, 0);
        assert_eq!(report.calls, 4 * count_small_pages(fields) as u64);
    }
}
