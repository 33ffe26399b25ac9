//! 02, A7: old templates and page out made new, and new ones made old.

use super::row::ensure;
use super::templates::{self, Template};
use super::{Layout, Read, Refusal, page};

#[derive(Clone, Copy, Debug, PartialEq, Eq)]
pub enum Way {
    Up,
    Down,
}

impl Way {
    /// The layouts from which and to which.
    pub fn layouts(self) -> (Layout, Layout) {
        match self {
            Way::Up => (Layout::Old, Layout::New),
            Way::Down => (Layout::New, Layout::Old),
        }
    }
}

/// The highest number that an 80 has room for.
pub const MOST_OLD_NUMBER: u32 = 65_535;

/// What a call answers; laid out as hosts see it over the C convention.
#[derive(Clone, Copy, Debug, PartialEq, Eq)]
#[repr(C)]
pub struct Converted {
    pub number: u32,
    pub templates_bytes: usize,
    pub page_bytes: usize,
}

/// Both outs, written.
#[derive(Clone, Debug, PartialEq, Eq)]
pub struct Outs {
    pub templates: Vec<u8>,
    pub page: Vec<u8>,
}

/// What is given before any lent byte is looked at: 3 to 7 for the templates, then for the page, 17, 11, or both outs.
pub fn outcome(way: Way, templates: &[u8], page: &[u8]) -> Read<Outs> {
    let (from, to) = way.layouts();
    let templates = templates::read(templates, from)?;
    let parts = page::read(page, from)?;
    let templates = with_kinds(&templates, from)?;
    let mut numbers = templates.iter().map(|template| template.number).chain(page::called(&parts));
    if way == Way::Down && numbers.any(|number| number > MOST_OLD_NUMBER) {
        return Err(Refusal::Disagreeing);
    }
    let written = templates::write(&templates, to).zip(page::write(&parts, to));
    let (templates, page) = written.ok_or(Refusal::OutputTooLong)?;
    Ok(Outs { templates, page })
}

/// The templates with the kinds that their strings give; 17 where neither fits a gap or those of an 84 are others.
pub fn with_kinds(templates: &[Template], layout: Layout) -> Read<Vec<Template>> {
    let with_kinds = |template: &Template| {
        let kinds = templates::kinds(&template.strings).ok_or(Refusal::Disagreeing)?;
        if layout == Layout::New && template.kinds != kinds {
            return Err(Refusal::Disagreeing);
        }
        Ok(Template { kinds, ..template.clone() })
    };
    templates.iter().map(with_kinds).collect()
}

/// `jsx_precompile_upgrade`.
pub fn upgrade(templates: &[u8], page: &[u8], templates_out: &mut [u8], page_out: &mut [u8]) -> Converted {
    settle(&outcome(Way::Up, templates, page), templates_out, page_out)
}

/// `jsx_precompile_downgrade`.
pub fn downgrade(templates: &[u8], page: &[u8], templates_out: &mut [u8], page_out: &mut [u8]) -> Converted {
    settle(&outcome(Way::Down, templates, page), templates_out, page_out)
}

/// The last step: 12, then 13. Taken: bytes behind the written ends stay. Refused: both outs are zero.
pub fn settle(outcome: &Read<Outs>, templates_out: &mut [u8], page_out: &mut [u8]) -> Converted {
    let fitting = outcome.as_ref().map_err(|refusal| *refusal).and_then(|outs| {
        ensure(outs.templates.len() <= templates_out.len(), Refusal::TemplatesTooSmall)?;
        ensure(outs.page.len() <= page_out.len(), Refusal::PageTooSmall)?;
        Ok(outs)
    });
    match fitting {
        Ok(Outs { templates, page }) => {
            templates_out[..templates.len()].copy_from_slice(templates);
            page_out[..page.len()].copy_from_slice(page);
            Converted { number: 0, templates_bytes: templates.len(), page_bytes: page.len() }
        }
        Err(refusal) => {
            templates_out.fill(0);
            page_out.fill(0);
            Converted { number: refusal as u32, templates_bytes: 0, page_bytes: 0 }
        }
    }
}
