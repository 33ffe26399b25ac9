//! Whether bytes are a sound catalogue, with the place and the reason where they are not.

use super::arrives::arrives;
use super::page::{FRONT, Front, HOUSE, PAGE};
use crate::check::{Fault, Input};
use crate::field::Fields;
use crate::limits::{HOUSES, MAX_CATALOGUE};
use crate::path::Path;
use crate::refusal::Refusal;
use std::collections::HashMap;

/// What a sound catalogue holds.
#[derive(Default)]
pub(super) struct Held {
    pub used: usize,
    pub pages: usize,
}

/// A refusal of the catalogue is always the same one.
fn unsound<T>(at: usize, reason: impl Into<String>) -> Result<T, Fault> {
    let (input, refusal) = (Input::Catalogue, Refusal::Misplaced);
    Err(Fault { input, at, path: Path::default(), refusal, reason: reason.into() })
}

/// A row of pages, each as it may arrive but for its numbers, which follow on those before it; no name twice; then zeros.
pub(super) fn read(bytes: &[u8]) -> Result<Held, Fault> {
    if bytes.len() > MAX_CATALOGUE {
        return unsound(MAX_CATALOGUE, format!("{} bytes, at most {MAX_CATALOGUE} are taken", bytes.len()));
    }
    let mut held = Held::default();
    let mut names = HashMap::new();
    let mut before = 0;
    while bytes.get(held.used) == Some(&PAGE) {
        let at = held.used;
        let (name, templates, page) = framed(bytes, at)?;
        if let Some(first) = names.insert(name, at) {
            return unsound(at, format!("page {name} stands at byte {first} already"));
        }
        if let Err(fault) = arrives(templates, page, before) {
            let front = if fault.input == Input::Templates { FRONT } else { FRONT + templates.len() };
            return unsound(at + front + fault.at, format!("page {name}: {fault}"));
        }
        before += Fields::new(templates).count() as u32;
        held.used += FRONT + templates.len() + page.len();
        held.pages += 1;
    }
    match bytes[held.used..].iter().position(|byte| *byte != 0) {
        Some(behind) => {
            let at = held.used + behind;
            unsound(at, format!("{:02x} behind the last page, where zeros must stand", bytes[at]))
        }
        None => Ok(held),
    }
}

/// The page that begins here with a 97: its name, its templates and its page out.
fn framed(bytes: &[u8], at: usize) -> Result<(u32, &[u8], &[u8]), Fault> {
    let rest = &bytes[at..];
    let Some(Front { name, house, templates, page }) = Front::read(rest) else {
        return unsound(at, format!("97 with {} bytes behind it, and a page has {}", rest.len() - 1, FRONT - 1));
    };
    if !(1..=HOUSES).contains(&usize::from(house)) {
        return unsound(at + HOUSE, format!("page {name} is of house {house}, and they are 1 to {HOUSES}"));
    }
    let behind = &rest[FRONT..];
    let parts = behind.split_at_checked(templates).and_then(|(templates, behind)| {
        let (page, _) = behind.split_at_checked(page)?;
        Some((name, templates, page))
    });
    match parts {
        Some(parts) => Ok(parts),
        None => {
            let long = format!("{templates} bytes of templates out and {page} of page out");
            unsound(at, format!("page {name} has {long}, where {} are left", behind.len()))
        }
    }
}
