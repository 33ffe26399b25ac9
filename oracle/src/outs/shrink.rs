//! Makes templates out or page out that show something small. What is read becomes smaller field by field, the rest byte by
//! byte; a change is kept where it still shows.

use super::Layout;
use super::page::{self, Part};
use super::templates::{self, Template};
use crate::shrink::smaller_bytes;

/// A deep nest has more fields than are worth a try each.
const MOST_TRIES: usize = 3_000;

pub fn smaller_templates(bytes: &[u8], layout: Layout, shows: &dyn Fn(Vec<u8>) -> bool) -> Vec<u8> {
    let Ok(mut templates) = templates::read(bytes, layout) else { return smaller_bytes(bytes, shows) };
    let shown = |templates: &[Template]| templates::write(templates, layout).is_some_and(shows);
    let mut at = 0;
    while at < templates.len() {
        let change = changes(&templates, at).into_iter().take(MOST_TRIES).find(|changed| shown(changed));
        match change {
            Some(smaller) => templates = smaller,
            None => at += 1,
        }
    }
    templates::write(&templates, layout).unwrap_or(bytes.to_vec())
}

/// Without this template; without one of its strings and a gap; with one of its strings shorter.
fn changes(templates: &[Template], at: usize) -> Vec<Vec<Template>> {
    let with = |change: &dyn Fn(&mut Template)| {
        let mut changed = templates.to_vec();
        change(&mut changed[at]);
        changed
    };
    let mut out = vec![[&templates[..at], &templates[at + 1..]].concat()];
    for string in 0..templates[at].strings.len() {
        let length = templates[at].strings[string].len();
        if string < templates[at].kinds.len().max(templates[at].strings.len() - 1) {
            out.push(with(&|template| {
                template.strings.remove(string);
                template.kinds.drain(string.min(template.kinds.len())..(string + 1).min(template.kinds.len()));
            }));
        }
        if length > 0 {
            out.push(with(&|template| template.strings[string].truncate(length / 2)));
            out.push(with(&|template| drop(template.strings[string].drain(..length.div_ceil(2)))));
        }
    }
    out
}

pub fn smaller_page(bytes: &[u8], layout: Layout, shows: &dyn Fn(Vec<u8>) -> bool) -> Vec<u8> {
    let Ok(mut parts) = page::read(bytes, layout) else { return smaller_bytes(bytes, shows) };
    let shown = |parts: &[Part]| page::write(parts, layout).is_some_and(shows);
    let (mut at, mut tries) = (0, 0);
    while at < parts.len() && tries < MOST_TRIES {
        let end = end_of(&parts, at);
        let shorter = match &parts[at] {
            Part::Open(_) => {
                let null = vec![Part::Open(0x73), Part::Bytes(vec![]), Part::Close];
                let instead = [vec![], null, parts[at + 1..end - 1].to_vec()];
                instead.into_iter().filter(|parts| parts.len() < end - at).collect()
            }
            Part::Bytes(bytes) if !bytes.is_empty() => vec![vec![Part::Bytes(bytes[..bytes.len() / 2].to_vec())]],
            _ => vec![],
        };
        let change = shorter.into_iter().find_map(|instead| {
            tries += 1;
            let tried = [&parts[..at], &instead, &parts[end..]].concat();
            shown(&tried).then_some(tried)
        });
        match change {
            Some(smaller) => parts = smaller,
            None => at += 1,
        }
    }
    page::write(&parts, layout).unwrap_or(bytes.to_vec())
}

/// Where the field that begins here ends; of another part, the place behind it.
fn end_of(parts: &[Part], at: usize) -> usize {
    let mut depth = 0;
    for (place, part) in parts.iter().enumerate().skip(at) {
        match part {
            Part::Open(_) => depth += 1,
            Part::Close if depth > 0 => depth -= 1,
            _ => {}
        }
        if depth == 0 {
            return place + 1;
        }
    }
    parts.len()
}
