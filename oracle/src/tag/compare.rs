//! Another reader of tag text held against the judge: its answer and every lent byte, call by call.

use super::generate::{self, TagCase};
use super::{TagAnswer, outcome, settle};
use crate::generate::Room;
use crate::show::{hex, show};
use crate::shrink::smaller_bytes;

/// The call that is compared: text, tag out.
pub trait Call: Fn(&[u8], &mut [u8]) -> TagAnswer {}
impl<F: Fn(&[u8], &mut [u8]) -> TagAnswer> Call for F {}

/// Where the two part on this case; nothing where they agree.
pub fn difference(case: &TagCase, other: &impl Call) -> Option<String> {
    let outcome = outcome(&case.text);
    let lent: Vec<u8> = (0..case.lent(&outcome)).map(|i| (i % 251) as u8 + 1).collect();
    let [mut ours, mut theirs] = [lent.clone(), lent];
    let answer = settle(&outcome, &mut ours);
    let other_answer = other(&case.text, &mut theirs);
    if answer != other_answer {
        return Some(format!("judge {answer:?}, other {other_answer:?}"));
    }
    let at = ours.iter().zip(&theirs).position(|(one, other)| one != other)?;
    Some(format!("tag out differs at byte {at}: judge {:02x}, other {:02x}", ours[at], theirs[at]))
}

/// The first seed on which the two part, its text made small.
pub fn first_difference(first: u64, count: u64, other: &impl Call) -> Option<String> {
    (first..first + count).find_map(|seed| {
        let case = generate::case(seed);
        difference(&case, other)?;
        Some(format!("seed {seed}: {}", small(case, other)))
    })
}

/// The case with a plain room and a short text that still shows a difference, in words.
pub fn small(case: TagCase, other: &impl Call) -> String {
    let plain = TagCase { room: Room::Exact, ..case.clone() };
    let mut case = if difference(&plain, other).is_some() { plain } else { case };
    let room = case.room;
    case.text = smaller_bytes(&case.text, &|text| difference(&TagCase { text, room }, other).is_some());
    let words = difference(&case, other).unwrap_or_default();
    let field = outcome(&case.text).map_or(String::new(), |field| show(&field));
    format!("{words}\ntext {}\n     {}\n{field}", case.text.escape_ascii(), hex(&case.text))
}
