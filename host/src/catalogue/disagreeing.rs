//! The place at which a page's gaps, kinds and numbers do not agree: the library says only that there is one.

use super::renumber::numbers;
use crate::check::Input;
use crate::field::{Field, Fields, HEADER, NUMBER_AND_COUNT};
use crate::out::Kind;
use std::collections::{HashMap, HashSet};
use std::ops::RangeInclusive;

/// What does not agree, and where: in which of both outs, at which byte.
pub(super) type Disagreeing = (Input, usize, String);

/// The first place, and what does not agree there; none where all agrees. So many templates are counted before the page.
pub(super) fn disagreeing(templates: &[u8], page: &[u8], before: u32) -> Option<Disagreeing> {
    let in_templates = |(at, reason)| (Input::Templates, at, reason);
    Fields::new(templates).find_map(in_kinds).map(in_templates).or_else(|| in_numbers(templates, page, before))
}

/// A gap of a template whose kind is not that of its place.
fn in_kinds(template: Field) -> Option<(usize, String)> {
    let number = template.number()?;
    let mut joined = Joined::default();
    let mut gaps = template.kinds()?.iter().zip(template.inner()).enumerate();
    gaps.find_map(|(gap, (kind, string))| {
        joined.add(string.body);
        let at = template.at + HEADER + NUMBER_AND_COUNT + gap;
        let said = Kind::from_byte(*kind)?;
        match joined.kind() {
            Some(kind) if kind == said => None,
            Some(kind) => {
                let (said, is) = (said.name(), kind.name());
                Some((at, format!("gap {gap} of template {number} is said to be of kind {said}, and is of kind {is}")))
            }
            None => Some((
                at,
                format!(
                    "gap {gap} of template {number} lies neither in an opening tag behind a space nor outside of tags"
                ),
            )),
        }
    })
}

/// The strings before a gap, joined.
#[derive(Default)]
struct Joined {
    /// `<` or `>` out of turn.
    out_of_turn: bool,
    /// Behind a `<` and before its `>`.
    open: bool,
    /// Open, with a `/` right behind the `<`.
    closing: bool,
    last: Option<u8>,
}

impl Joined {
    fn add(&mut self, string: &[u8]) {
        for byte in string {
            match byte {
                b'<' => {
                    self.out_of_turn |= self.open;
                    (self.open, self.closing) = (true, false);
                }
                b'>' => {
                    self.out_of_turn |= !self.open;
                    self.open = false;
                }
                b'/' if self.last == Some(b'<') => self.closing = true,
                _ => {}
            }
            self.last = Some(*byte);
        }
    }

    /// The kind of a gap here; none where neither fits.
    fn kind(&self) -> Option<Kind> {
        if self.out_of_turn {
            return None;
        }
        match self.open {
            false => Some(Kind::Child),
            true => (!self.closing && self.last == Some(b' ')).then_some(Kind::Attribute),
        }
    }
}

/// A number that is recorded or called, and ought not to be, or twice; one that is not called.
fn in_numbers(templates: &[u8], page: &[u8], before: u32) -> Option<Disagreeing> {
    let recorded: Vec<(usize, u32)> =
        Fields::new(templates).filter_map(|field| Some((field.at, field.number()?))).collect();
    let due = before + 1..=before + recorded.len() as u32;
    let called = numbers(page);
    let each = |input, all: &[(usize, u32)], verb| not_once(all, &due, verb).map(|(at, reason)| (input, at, reason));
    each(Input::Templates, &recorded, "recorded").or_else(|| each(Input::PageOut, &called, "called")).or_else(|| {
        let called: HashSet<u32> = called.iter().map(|(_, number)| *number).collect();
        let (at, number) = recorded.iter().find(|(_, number)| !called.contains(number))?;
        Some((Input::Templates, *at, format!("template {number} is not called")))
    })
}

fn not_once(all: &[(usize, u32)], due: &RangeInclusive<u32>, verb: &str) -> Option<(usize, String)> {
    let mut seen = HashMap::new();
    all.iter().find_map(|(at, number)| {
        if !due.contains(number) {
            let has = match (due.is_empty(), due.start() == due.end()) {
                (true, _) => "the page has no templates".to_string(),
                (_, true) => format!("the page's template is {}", due.start()),
                _ => format!("the page's templates are {} to {}", due.start(), due.end()),
            };
            return Some((*at, format!("template {number} is {verb}, and {has}")));
        }
        let before = seen.insert(*number, *at)?;
        Some((*at, format!("template {number} is {verb} again; it was at byte {before}")))
    })
}
