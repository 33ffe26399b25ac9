//! What an arriving page must meet, with the place and the reason where it does not.

use super::disagreeing::{Disagreeing, disagreeing};
use super::marker;
use crate::check::{Fault, Input, check};
use crate::field::{Field, Fields, HEADER, OLD_TEMPLATE, TEMPLATE};
use crate::path::Path;
use crate::refusal::Refusal;

/// The import of helpers, and the string that it begins with.
const IMPORT: u8 = 0x82;
const STRING: u8 = 0x81;

/// 3, 4 and 6 for its templates, 3 to 7 for its page out, 17. So many templates are
/// counted before it.
pub(super) fn arrives(templates: &[u8], page: &[u8], before: u32) -> Result<(), Fault> {
    check_new_templates(templates)?;
    check_page(page)?;
    match disagreeing(templates, page, before) {
        None => Ok(()),
        Some((input, at, reason)) => Err(disagree(templates, page, (input, at, reason))),
    }
}

fn disagree(templates: &[u8], page: &[u8], (input, at, reason): Disagreeing) -> Fault {
    let path = match input {
        // A kind stands before the strings of its template.
        Input::Templates => {
            let template = Fields::new(templates).take_while(|template| template.at <= at).last();
            Path::to(templates, template.map_or(at, |template| template.at))
        }
        _ => Path::to(page, at),
    };
    Fault { input, at, path, refusal: Refusal::Disagreeing, reason }
}

/// The check takes an 83 anywhere among the items. What is met first, from front to back, is what is refused; a header
/// that is torn before its tag is looked at.
fn check_page(page: &[u8]) -> Result<(), Fault> {
    if let Some((at, refusal, reason)) = Fields::new(page).next().and_then(import) {
        return Err(Fault { input: Input::PageOut, at, path: Path::to(page, 0), refusal, reason });
    }
    let checked = check(Input::PageOut, page);
    let misplaced = match &checked {
        Ok(()) => marker::misplaced(page).or_else(|| marker::without_item(page)),
        Err(fault) => marker::misplaced(page).filter(|(at, _)| *at < fault.at),
    };
    match misplaced {
        None => checked,
        Some((at, reason)) => {
            let (input, refusal) = (Input::PageOut, Refusal::Misplaced);
            Err(Fault { input, at, path: Path::to(page, at), refusal, reason })
        }
    }
}

/// What is wrong in an 82 in front, an 81 and a byte, front to back; the check looks at the byte first.
fn import(field: Field) -> Option<(usize, Refusal, String)> {
    let (at, body) = (field.at + HEADER, field.body);
    if field.tag != IMPORT || body.is_empty() {
        return None;
    }
    let mut row = Fields::new(body);
    let Some(source) = row.next() else {
        return Some((
            at,
            Refusal::Truncated,
            format!("{} bytes where a string (81) and a byte must stand", body.len()),
        ));
    };
    if source.tag != STRING {
        return Some((at, Refusal::Misplaced, format!("{:02x} stands where a string (81) must stand", source.tag)));
    }
    if let Err(error) = std::str::from_utf8(source.body) {
        let bad = error.valid_up_to();
        let reason = format!("byte {:02x} in 81 (static string) is not UTF-8", source.body[bad]);
        return Some((at + HEADER + bad, Refusal::NotUtf8, reason));
    }
    let count = row.rest().len();
    (count != 1).then(|| {
        (
            at + row.place(),
            Refusal::Misplaced,
            format!("{count} bytes behind the string, where a sum of one must stand"),
        )
    })
}

/// The check takes templates of before too; these have no place in a catalogue.
fn check_new_templates(templates: &[u8]) -> Result<(), Fault> {
    match check(Input::Templates, templates) {
        Ok(()) if templates.first().is_none_or(|tag| *tag == TEMPLATE) => Ok(()),
        Err(fault)
            if templates.first() != Some(&OLD_TEMPLATE) || fault.at == 0 && fault.refusal == Refusal::Truncated =>
        {
            Err(fault)
        }
        _ => {
            let reason = "80s do not stand in a catalogue; `upgrade` makes 84s of them".to_string();
            let (input, refusal) = (Input::Templates, Refusal::Misplaced);
            Err(Fault { input, at: 0, path: Path::to(templates, 0), refusal, reason })
        }
    }
}
