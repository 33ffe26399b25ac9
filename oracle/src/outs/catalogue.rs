//! 02, A13: the pages of all houses in one buffer. A14's house byte stands in the same layout, and is left out before it.

use super::convert::with_kinds;
use super::page::{self, Part};
use super::row::ensure;
use super::templates::{self, Template};
use super::{Layout, Read, Refusal};

pub const MOST_CATALOGUE: usize = 16_777_216;
pub const PAGE: u8 = 0x97;

/// What a call answers; laid out as hosts see it over the C convention. A refusal has its number and zeros.
#[derive(Clone, Copy, Debug, PartialEq, Eq)]
#[repr(C)]
pub struct Catalogued {
    pub number: u32,
    pub used: usize,
    pub pages: usize,
}

/// A page as it arrived: its templates are numbered from 1.
#[derive(Clone, Debug, PartialEq, Eq)]
pub struct Page {
    pub name: u32,
    /// None before A14.
    pub house: Option<u8>,
    pub templates: Vec<Template>,
    pub parts: Vec<Part>,
    /// How long both outs are.
    outs: usize,
}

impl Page {
    /// An arriving page: 3, 4 and 6 for its templates, 3 to 7 for its page out, then 17.
    pub fn arriving(name: u32, house: Option<u8>, templates: &[u8], page: &[u8]) -> Read<Page> {
        Page::standing(name, house, templates, page, 0)
    }

    /// A page whose numbers follow on so many templates before it.
    fn standing(name: u32, house: Option<u8>, templates: &[u8], page: &[u8], before: u32) -> Read<Page> {
        let outs = templates.len() + page.len();
        let templates = templates::read(templates, Layout::New)?;
        let parts = page::read(page, Layout::New)?;
        let templates = with_kinds(&templates, Layout::New)?;
        // Each recorded once and called once.
        let due: Vec<u32> = (1..=templates.len() as u32).map(|number| before + number).collect();
        let recorded = templates.iter().map(|template| template.number).collect();
        ensure(sorted(recorded) == due && sorted(page::called(&parts)) == due, Refusal::Disagreeing)?;
        Ok(Page { name, house, templates, parts, outs }.renumbered(|number| number - before))
    }

    fn renumbered(mut self, change: impl Fn(u32) -> u32) -> Page {
        self.templates.iter_mut().for_each(|template| template.number = change(template.number));
        for part in &mut self.parts {
            if let Part::Number(number) = part {
                *number = change(*number);
            }
        }
        self
    }

    /// As it stands behind so many templates.
    pub fn written(&self, before: u32) -> Vec<u8> {
        let page = self.clone().renumbered(|number| number + before);
        let templates = templates::write(&page.templates, Layout::New).expect("what was read can be written");
        let parts = page::write(&page.parts, Layout::New).expect("what was read can be written");
        let lengths = [templates.len() as u32, parts.len() as u32].map(u32::to_be_bytes).concat();
        [vec![PAGE], self.name.to_be_bytes().to_vec(), Vec::from_iter(self.house), lengths, templates, parts].concat()
    }

    /// Its bytes in the catalogue, counted from its 97.
    pub fn bytes(&self) -> usize {
        // The 97, the name, the house and two lengths.
        1 + 4 + usize::from(self.house.is_some()) + 8 + self.outs
    }
}

fn sorted(mut numbers: Vec<u32>) -> Vec<u32> {
    numbers.sort();
    numbers
}

/// The pages of a sound catalogue in the order of their arrival; none where it is not sound, which is 4.
pub fn read(catalogue: &[u8], housed: bool) -> Option<Vec<Page>> {
    if catalogue.len() > MOST_CATALOGUE {
        return None;
    }
    let (pages, rest) = row_of(catalogue, housed);
    let names = sorted(pages.iter().map(|page| page.name).collect());
    let once = names.is_sorted_by(|one, next| one < next);
    (once && rest.iter().all(|byte| *byte == 0)).then_some(pages)
}

/// The row of pages, and what follows from the first byte on that begins none.
pub fn row_of(catalogue: &[u8], housed: bool) -> (Vec<Page>, &[u8]) {
    let mut pages: Vec<Page> = vec![];
    let mut before = 0;
    let mut rest = catalogue;
    while let Some((page, behind)) = first_page(rest, housed, before) {
        before += page.templates.len() as u32;
        pages.push(page);
        rest = behind;
    }
    (pages, rest)
}

/// A page that begins here with so many templates before it, and what follows it.
fn first_page(rest: &[u8], housed: bool, before: u32) -> Option<(Page, &[u8])> {
    let (name, rest) = four(rest.strip_prefix(&[PAGE])?)?;
    let (house, rest) = match rest {
        [house @ 1..=16, rest @ ..] if housed => (Some(*house), rest),
        _ if housed => return None,
        _ => (None, rest),
    };
    let (templates, rest) = four(rest)?;
    let (page, rest) = four(rest)?;
    let (templates, rest) = rest.split_at_checked(templates as usize)?;
    let (page, rest) = rest.split_at_checked(page as usize)?;
    Some((Page::standing(name, house, templates, page, before).ok()?, rest))
}

fn four(bytes: &[u8]) -> Option<(u32, &[u8])> {
    let (number, rest) = bytes.split_first_chunk::<4>()?;
    Some((u32::from_be_bytes(*number), rest))
}

/// The bytes of these pages one behind the other.
fn row(pages: &[Page]) -> Vec<u8> {
    let mut before = 0;
    let mut out = vec![];
    for page in pages {
        out.extend(page.written(before));
        before += page.templates.len() as u32;
    }
    out
}

/// Builds the catalogue afresh from these pages: zeros follow the last one. `full` is given where they do not fit.
pub fn build(catalogue: &mut [u8], pages: &[Page], full: Refusal) -> Read<Catalogued> {
    let row = row(pages);
    ensure(row.len() <= catalogue.len(), full)?;
    catalogue.fill(0);
    catalogue[..row.len()].copy_from_slice(&row);
    Ok(Catalogued { number: 0, used: row.len(), pages: pages.len() })
}

pub fn answer(outcome: Read<Catalogued>) -> Catalogued {
    outcome.unwrap_or_else(|refusal| Catalogued { number: refusal as u32, used: 0, pages: 0 })
}

/// `jsx_precompile_catalogue_add` before A14: 4 for the catalogue; the page's own; 21; 23.
pub fn add(catalogue: &mut [u8], name: u32, templates: &[u8], page: &[u8]) -> Catalogued {
    answer(read(catalogue, false).ok_or(Refusal::Misplaced).and_then(|mut pages| {
        let page = Page::arriving(name, None, templates, page)?;
        ensure(pages.iter().all(|page| page.name != name), Refusal::NamePresent)?;
        pages.push(page);
        build(catalogue, &pages, Refusal::CatalogueTooSmall)
    }))
}

/// `jsx_precompile_catalogue_remove` before A14.
pub fn remove(catalogue: &mut [u8], name: u32) -> Catalogued {
    leave(catalogue, false, name)
}

/// 4 for the catalogue, then 22; later pages close up.
pub fn leave(catalogue: &mut [u8], housed: bool, name: u32) -> Catalogued {
    answer(read(catalogue, housed).ok_or(Refusal::Misplaced).and_then(|mut pages| {
        let at = pages.iter().position(|page| page.name == name).ok_or(Refusal::NameAbsent)?;
        pages.remove(at);
        build(catalogue, &pages, Refusal::CatalogueTooSmall)
    }))
}
