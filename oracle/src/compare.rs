//! Another implementation held against the judge: its answer and every byte that it was lent, call by call.

use crate::answer::Answer;
use crate::generate::{self, Case};
use crate::judge::{outcome, settle};
use crate::show::{hex, show};
use crate::shrink::shrink;

/// The call that is compared: page, options, scratch, templates out, page out.
pub trait Call: Fn(&[u8], &[u8], &mut [u8], &mut [u8], &mut [u8]) -> Answer {}
impl<F: Fn(&[u8], &[u8], &mut [u8], &mut [u8], &mut [u8]) -> Answer> Call for F {}

/// Where the two part on this case; nothing where they agree.
pub fn difference(case: &Case, other: &impl Call) -> Option<String> {
    let outcome = outcome(&case.page, &case.options);
    let (templates, page) = case.outs(&outcome);
    let [mut scratch, mut templates, mut page] = [case.scratch, templates, page].map(marked);
    let mut lent = [scratch.clone(), templates.clone(), page.clone()];
    let answer = settle(&outcome, &mut scratch, &mut templates, &mut page);
    let [other_scratch, other_templates, other_page] = &mut lent;
    let other_answer = other(&case.page, &case.options, other_scratch, other_templates, other_page);
    if answer != other_answer {
        return Some(format!("judge {answer:?}, other {other_answer:?}"));
    }
    let names = ["scratch", "templates out", "page out"];
    names.iter().zip([scratch, templates, page].iter().zip(&lent)).find_map(|(name, (ours, theirs))| {
        if ours == theirs {
            return None;
        }
        let at = ours.iter().zip(theirs).position(|(a, b)| a != b)?;
        Some(format!("{name} differs at byte {at}: judge {:02x}, other {:02x}", ours[at], theirs[at]))
    })
}

/// Lent bytes in which a byte that was moved or cleared shows.
fn marked(length: usize) -> Vec<u8> {
    const TURN: [u8; 251] = {
        let mut turn = [0; 251];
        let mut i = 0;
        while i < turn.len() {
            turn[i] = i as u8 + 1;
            i += 1;
        }
        turn
    };
    let mut bytes = TURN.repeat(length / TURN.len() + 1);
    bytes.truncate(length);
    bytes
}

/// The first seed on which the two part, its case made small and printed as fields.
pub fn first_difference(first: u64, count: u64, other: &impl Call) -> Option<String> {
    (first..first + count).find_map(|seed| {
        let case = generate::case(seed);
        difference(&case, other)?;
        let small = shrink(case, |case| difference(case, other).is_some());
        let words = difference(&small, other)?;
        Some(format!(
            "seed {seed}: {words}\noptions {}\n{}page {}\n{}",
            hex(&small.options),
            show(&small.options),
            hex(&small.page),
            show(&small.page)
        ))
    })
}
