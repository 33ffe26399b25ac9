//! Another implementation of the calls over both outs held against the judge: its answers and every lent byte.

use super::Layout;
use super::catalogue::Catalogued;
use super::convert::{self, Converted, Way};
use super::fill::{self, Filled};
use super::find::{Places, find};
use super::generate::history::{Call, History, history, history_of, run};
use super::generate::{ConvertCase, FillCase, FindCase, convert_case, fill_case, find_case};
use super::shrink::{smaller_page, smaller_templates};
use crate::generate::Room;
use crate::show::hex;
use crate::shrink::smaller_bytes;

/// `upgrade` or `downgrade`: templates, page, templates out, page out.
pub trait Convert: Fn(&[u8], &[u8], &mut [u8], &mut [u8]) -> Converted {}
impl<F: Fn(&[u8], &[u8], &mut [u8], &mut [u8]) -> Converted> Convert for F {}

/// Lent bytes in which a byte that was moved or cleared shows.
fn marked(length: usize) -> Vec<u8> {
    (0..length).map(|at| (at % 251) as u8 + 1).collect()
}

fn bytes_differ(name: &str, ours: &[u8], theirs: &[u8]) -> Option<String> {
    let at = ours.iter().zip(theirs).position(|(one, other)| one != other)?;
    Some(format!("{name} differs at byte {at}: judge {:02x}, other {:02x}", ours[at], theirs[at]))
}

fn answers_differ<T: PartialEq + std::fmt::Debug>(ours: T, theirs: T) -> Option<String> {
    (ours != theirs).then(|| format!("judge {ours:?}, other {theirs:?}"))
}

/// Where the two part on this case; nothing where they agree.
pub fn convert(case: &ConvertCase, up: &impl Convert, down: &impl Convert) -> Option<String> {
    let outcome = convert::outcome(case.way, &case.templates, &case.page);
    let (templates, page) = case.lent(&outcome);
    let (mut ours, mut our_page) = (marked(templates), marked(page));
    let (mut theirs, mut their_page) = (ours.clone(), our_page.clone());
    let answer = convert::settle(&outcome, &mut ours, &mut our_page);
    let other = match case.way {
        Way::Up => up(&case.templates, &case.page, &mut theirs, &mut their_page),
        Way::Down => down(&case.templates, &case.page, &mut theirs, &mut their_page),
    };
    answers_differ(answer, other)
        .or_else(|| bytes_differ("templates out", &ours, &theirs))
        .or_else(|| bytes_differ("page out", &our_page, &their_page))
}

/// The first seed on which the two part, its case made small.
pub fn first_convert(first: u64, count: u64, up: &impl Convert, down: &impl Convert) -> Option<String> {
    (first..first + count).find_map(|seed| {
        let mut case = convert_case(seed);
        convert(&case, up, down)?;
        let plain = ConvertCase { templates_room: Room::Exact, page_room: Room::Exact, ..case.clone() };
        if convert(&plain, up, down).is_some() {
            case = plain;
        }
        let differs = |templates: Vec<u8>, page: Vec<u8>| {
            convert(&ConvertCase { templates, page, ..case.clone() }, up, down).is_some()
        };
        let from = case.way.layouts().0;
        let templates = smaller_templates(&case.templates, from, &|templates| differs(templates, case.page.clone()));
        let page = smaller_page(&case.page, from, &|page| differs(templates.clone(), page));
        case = ConvertCase { templates, page, ..case };
        let words = convert(&case, up, down)?;
        Some(format!(
            "seed {seed}, {:?}: {words}\ntemplates {}\npage {}",
            case.way,
            hex(&case.templates),
            hex(&case.page)
        ))
    })
}

/// `find`: templates, numbers.
pub fn first_find(first: u64, count: u64, other: &impl Fn(&[u8], &[u32]) -> Places) -> Option<String> {
    (first..first + count).find_map(|seed| {
        let FindCase { templates, numbers } = find_case(seed);
        let differs = |templates: &[u8]| find(templates, &numbers) != other(templates, &numbers);
        if !differs(&templates) {
            return None;
        }
        let small = smaller_templates(&templates, Layout::New, &|templates| differs(&templates));
        let shown = |places: Places| (places.number, places.records, places.places[..numbers.len().min(256)].to_vec());
        let (ours, theirs) = (shown(find(&small, &numbers)), shown(other(&small, &numbers)));
        Some(format!("seed {seed}: judge {ours:?}, other {theirs:?}\nnumbers {numbers:?}\ntemplates {}", hex(&small)))
    })
}

/// `fill`: templates, order, HTML out.
pub trait Fill: Fn(&[u8], &[u8], &mut [u8]) -> Filled {}
impl<F: Fn(&[u8], &[u8], &mut [u8]) -> Filled> Fill for F {}

pub fn fill(case: &FillCase, other: &impl Fill) -> Option<String> {
    let outcome = fill::outcome(&case.templates, &case.order);
    let mut ours = marked(case.lent(&outcome));
    let mut theirs = ours.clone();
    let answer = fill::settle(&outcome, &mut ours);
    answers_differ(answer, other(&case.templates, &case.order, &mut theirs))
        .or_else(|| bytes_differ("HTML out", &ours, &theirs))
}

pub fn first_fill(first: u64, count: u64, other: &impl Fill) -> Option<String> {
    (first..first + count).find_map(|seed| {
        let mut case = fill_case(seed);
        fill(&case, other)?;
        let differs =
            |templates: Vec<u8>, order: Vec<u8>| fill(&FillCase { templates, order, room: case.room }, other).is_some();
        let templates =
            smaller_templates(&case.templates, Layout::New, &|templates| differs(templates, case.order.clone()));
        let order = smaller_bytes(&case.order, &|order| differs(templates.clone(), order));
        case = FillCase { templates, order, ..case };
        let words = fill(&case, other)?;
        Some(format!("seed {seed}: {words}\ntemplates {}\norder {}", hex(&case.templates), hex(&case.order)))
    })
}

/// A call of the catalogue, on these bytes.
pub trait Catalogue: Fn(&Call, &mut [u8]) -> Catalogued {}
impl<F: Fn(&Call, &mut [u8]) -> Catalogued> Catalogue for F {}

/// Where the two part in this history; the other starts each call from the judge's catalogue.
pub fn catalogue(history: &History, other: &impl Catalogue) -> Option<String> {
    let mut found = None;
    run(history, |step, before, after, answer| {
        if found.is_none() {
            let mut theirs = before.to_vec();
            let other_answer = other(&step.call, &mut theirs);
            let words = answers_differ(answer, other_answer).or_else(|| bytes_differ("the catalogue", after, &theirs));
            found = words.map(|words| format!("{words}\ncatalogue {}\n{:02x?}", hex(before), step.call));
        }
    });
    found
}

/// Histories with shares of so many calls.
pub fn first_history(calls: usize, first: u64, count: u64, other: &impl Catalogue) -> Option<String> {
    (first..first + count).find_map(|seed| {
        let words = catalogue(&history_of(seed, calls), other)?;
        Some(format!("seed {seed}: {words}"))
    })
}

/// With shares (A14) or without (A13).
pub fn first_catalogue(housed: bool, first: u64, count: u64, other: &impl Catalogue) -> Option<String> {
    (first..first + count).find_map(|seed| {
        let words = catalogue(&history(seed, housed), other)?;
        Some(format!("seed {seed}: {words}"))
    })
}
