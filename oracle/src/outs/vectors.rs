//! Stored answers, one call on a line, words parted by one space, bytes as small hex digits, `-` where there are none.

use super::catalogue::{self, Catalogued};
use super::compare::{Catalogue, Convert, Fill};
use super::convert::{Converted, Way, downgrade, upgrade};
use super::fill::{Filled, fill};
use super::find::{ABSENT, MOST_NUMBERS, Places, find};
use super::generate::history::Call;
use crate::vectors::unhex;

/// What lies in each lent byte before a call: of templates out and HTML, and of page out.
pub const TEMPLATES_BEFORE: u8 = 0xa5;
pub const PAGE_BEFORE: u8 = 0x5a;

/// What was found on a line: the number that it has stored, and where the call that is asked parts from it.
pub struct Found {
    pub number: u32,
    pub difference: Option<String>,
}

fn found<T: PartialEq + std::fmt::Debug>(number: u32, answered: T, stored: T) -> Option<Found> {
    let difference = (answered != stored).then(|| format!("answered {answered:02x?}, stored {stored:02x?}"));
    Some(Found { number, difference })
}

/// A lent buffer after a call: taken, what was written and the bytes behind it; refused, zeros.
fn after(number: u32, before: u8, lent: usize, written: &[u8]) -> Vec<u8> {
    let mut bytes = vec![if number == 0 { before } else { 0 }; lent];
    bytes[..written.len()].copy_from_slice(written);
    bytes
}

pub fn convert(line: &str) -> Option<Found> {
    convert_by(line, upgrade, downgrade)
}

/// seed up|down templates page templates-lent page-lent number templates-bytes page-bytes TEMPLATES PAGE; `up` and `down`
/// are the judge's or another's.
pub fn convert_by(line: &str, up: impl Convert, down: impl Convert) -> Option<Found> {
    let words: Vec<&str> = line.split(' ').collect();
    let [_, way, templates, page, lent, page_lent, number, bytes, page_bytes, written, page_written] = words[..] else {
        return None;
    };
    let way = if way == "up" { Way::Up } else { Way::Down };
    let number = number.parse().ok()?;
    let (lent, page_lent): (usize, usize) = (lent.parse().ok()?, page_lent.parse().ok()?);
    let stored = Converted { number, templates_bytes: bytes.parse().ok()?, page_bytes: page_bytes.parse().ok()? };
    let (mut out, mut page_out) = (vec![TEMPLATES_BEFORE; lent], vec![PAGE_BEFORE; page_lent]);
    let (templates, page) = (unhex(templates)?, unhex(page)?);
    let answer = match way {
        Way::Up => up(&templates, &page, &mut out, &mut page_out),
        Way::Down => down(&templates, &page, &mut out, &mut page_out),
    };
    let stored_out = after(number, TEMPLATES_BEFORE, lent, &unhex(written)?);
    let stored_page = after(number, PAGE_BEFORE, page_lent, &unhex(page_written)?);
    found(number, (answer, out, page_out), (stored, stored_out, stored_page))
}

pub fn filling(line: &str) -> Option<Found> {
    filling_by(line, fill)
}

/// seed templates order out-lent number bytes HTML; `fill` is the judge's or another's.
pub fn filling_by(line: &str, fill: impl Fill) -> Option<Found> {
    let [_, templates, order, lent, number, bytes, html] = line.split(' ').collect::<Vec<_>>()[..] else { return None };
    let (number, lent) = (number.parse().ok()?, lent.parse().ok()?);
    let mut out = vec![TEMPLATES_BEFORE; lent];
    let answer = fill(&unhex(templates)?, &unhex(order)?, &mut out);
    let stored = Filled { number, html_bytes: bytes.parse().ok()? };
    found(number, (answer, out), (stored, after(number, TEMPLATES_BEFORE, lent, &unhex(html)?)))
}

pub fn lookup(line: &str) -> Option<Found> {
    lookup_by(line, find)
}

/// seed templates numbers number records places; `find` is the judge's or another.
pub fn lookup_by(line: &str, find: impl Fn(&[u8], &[u32]) -> Places) -> Option<Found> {
    let [_, templates, numbers, number, records, places] = line.split(' ').collect::<Vec<_>>()[..] else {
        return None;
    };
    let listed =
        |words: &str| -> Vec<String> { words.split(',').filter(|word| *word != "-").map(str::to_string).collect() };
    let numbers: Vec<u32> = listed(numbers).iter().map(|word| word.parse().ok()).collect::<Option<_>>()?;
    let number = number.parse().ok()?;
    let mut stored = Places { number, records: records.parse().ok()?, places: [ABSENT; MOST_NUMBERS] };
    for (place, word) in stored.places.iter_mut().zip(listed(places)) {
        *place = if word == "x" { ABSENT } else { word.parse().ok()? };
    }
    found(number, find(&unhex(templates)?, &numbers), stored)
}

/// seed call CATALOGUE number AFTER, before A14
pub fn catalogue_call(line: &str) -> Option<Found> {
    let [_, call, before, number, after] = line.split(' ').collect::<Vec<_>>()[..] else { return None };
    let mut bytes = unhex(before)?;
    let answer = match Called::parse(call)? {
        Called::Arrive { name, templates, page, .. } => catalogue::add(&mut bytes, name, &templates, &page),
        Called::Leave { name } => catalogue::remove(&mut bytes, name),
    };
    stored_catalogue(number.parse().ok()?, answer, bytes, unhex(after)?, false)
}

pub fn shares_call(line: &str) -> Option<Found> {
    shares_call_by(line, |call, bytes| call.judge(true, bytes))
}

/// seed call guarantees mosts CATALOGUE number AFTER; `by` is the judge's call or another's.
pub fn shares_call_by(line: &str, by: impl Catalogue) -> Option<Found> {
    let [_, call, guaranteed, most, before, number, after] = line.split(' ').collect::<Vec<_>>()[..] else {
        return None;
    };
    let numbers = |word: &str| word.split(',').map(|word| word.parse().ok()).collect::<Option<Vec<u32>>>();
    let shares: Vec<u32> = numbers(guaranteed)?.into_iter().zip(numbers(most)?).flat_map(<[u32; 2]>::from).collect();
    let mut bytes = unhex(before)?;
    let call = match Called::parse(call)? {
        Called::Arrive { name, house, templates, page } => Call::Add { name, house, shares, templates, page },
        Called::Leave { name } => Call::Remove { name },
    };
    let answer = by(&call, &mut bytes);
    stored_catalogue(number.parse().ok()?, answer, bytes, unhex(after)?, true)
}

/// The stored answers say nothing of used bytes and pages: these are counted in the catalogue that they have.
fn stored_catalogue(number: u32, answer: Catalogued, bytes: Vec<u8>, after: Vec<u8>, housed: bool) -> Option<Found> {
    let (used, pages) = match catalogue::read(&after, housed) {
        Some(pages) if number == 0 => (pages.iter().map(|page| page.bytes()).sum(), pages.len()),
        _ => (0, 0),
    };
    found(number, (answer, bytes), (Catalogued { number, used, pages }, after))
}

/// A call of the catalogue: `arrive:name:house:TEMPLATES:PAGE` or `leave:name`.
enum Called {
    Arrive { name: u32, house: u32, templates: Vec<u8>, page: Vec<u8> },
    Leave { name: u32 },
}

impl Called {
    fn parse(word: &str) -> Option<Called> {
        match word.split(':').collect::<Vec<_>>()[..] {
            ["arrive", name, house, templates, page] => Some(Called::Arrive {
                name: name.parse().ok()?,
                house: house.parse().ok()?,
                templates: unhex(templates)?,
                page: unhex(page)?,
            }),
            ["leave", name] => Some(Called::Leave { name: name.parse().ok()? }),
            _ => None,
        }
    }
}
