//! The patched copy: one arm of the source is another, and where the source does not stop both give the same.

#[path = "../build/fill_todo.rs"]
mod fill_todo;

use oracle::judge::{outcome_and_copy, outcome_with};
use oracle::transform::Copy;
use oracle::{SOURCE, generate, marks};

#[test]
#[cfg_attr(not(jsx_source), ignore = "jsx_precompile.rs is not there")]
fn one_line_of_the_source_differs() {
    let patched = fill_todo::filled(SOURCE).unwrap();
    assert_eq!(patched.lines().count(), SOURCE.lines().count());
    let differing: Vec<&str> =
        SOURCE.lines().zip(patched.lines()).filter(|(a, b)| a != b).map(|(a, _)| a.trim()).collect();
    assert_eq!(differing, ["JSXAttrValue::JSXExprContainer(_) => todo!(),"]);
}

#[test]
#[cfg_attr(not(jsx_source), ignore = "jsx_precompile.rs is not there")]
fn another_number_of_todos_is_no_source() {
    for source in [SOURCE.replace("todo!()", "panic!()"), format!("{SOURCE}fn f() {{ todo!() }}"), SOURCE.repeat(2)] {
        let words = fill_todo::filled(&source).unwrap_err();
        assert!(words.contains("`todo!`"), "{words}");
    }
}

/// Pages that never reach the arm: the unchanged copy judged them, and the patched one gives the same.
#[test]
#[cfg_attr(not(jsx_source), ignore = "jsx_precompile.rs is not there")]
fn elsewhere_both_copies_agree() {
    let seeds = (0..50_000).map(|seed| (format!("seed {seed}"), generate::case(seed)));
    let marks = marks::all().into_iter().map(|mark| (mark.name, mark.case));
    let (mut both, mut patched_alone) = (0, 0);
    for (name, case) in marks.chain(seeds) {
        let (outcome, copy) = outcome_and_copy(&case.page, &case.options);
        match copy {
            Some(Copy::Unchanged) => {
                both += 1;
                assert!(outcome_with(Copy::Patched, &case.page, &case.options) == outcome, "{name}");
            }
            Some(_) => patched_alone += 1,
            None => {}
        }
    }
    println!("{both} pages by both copies, {patched_alone} by the patched one alone");
    assert!(both > 0 && patched_alone > 0);
}
