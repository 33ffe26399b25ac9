//! The place at which fillings do not fit their templates: the library says only that there is one.

use crate::field::{ATTRIBUTE_TEXT, Field, Fields, HEADER, ORDER, PLAIN_TEXT, tag_name};
use crate::out::{Kind, Template, Templates};
use std::collections::HashMap;

/// The first place in the order, and what does not fit there; none where all fits.
pub(super) fn unfitting(templates: &[u8], order: &[u8]) -> Option<(usize, String)> {
    let mut by_number: ByNumber = HashMap::new();
    Templates::of(templates).for_each(|template| by_number.entry(template.number()).or_default().push(template));
    in_order(&by_number, Fields::new(order).next()?)
}

type ByNumber<'a> = HashMap<u32, Vec<Template<'a>>>;

/// It calls itself at most 48 deep: the order was checked.
fn in_order(templates: &ByNumber, order: Field) -> Option<(usize, String)> {
    let number = order.number()?;
    let template = match templates.get(&number).map(Vec::as_slice) {
        None => return Some((order.at, format!("there is no template {number}"))),
        Some([template]) => template,
        Some(all) => return Some((order.at, format!("template {number} is recorded {} times", all.len()))),
    };
    let kinds = template.kinds()?;
    let given = order.inner().count();
    if given != kinds.len() {
        let (gaps, fillings) = (counted(kinds.len(), "gap"), counted(given, "filling"));
        return Some((order.at, format!("template {number} has {gaps} and is given {fillings}")));
    }
    order.inner().zip(kinds).enumerate().find_map(|(gap, (filling, kind))| match (kind, filling.tag) {
        (Kind::Attribute, ATTRIBUTE_TEXT) => in_attribute(filling),
        (Kind::Child, PLAIN_TEXT) => None,
        (Kind::Child, ORDER) => in_order(templates, filling),
        (kind, tag) => {
            let given = format!("{tag:02x} ({})", tag_name(tag).unwrap_or("no tag"));
            Some((filling.at, format!("gap {gap} of template {number} takes {}, not {given}", takes(kind))))
        }
    })
}

fn takes(kind: Kind) -> &'static str {
    match kind {
        Kind::Attribute => "86 (attribute text)",
        Kind::Child => "87 (plain text) or 85 (order)",
    }
}

/// The first sign that would begin or end a tag.
fn in_attribute(filling: Field) -> Option<(usize, String)> {
    let sign = filling.body.iter().position(|byte| matches!(byte, b'<' | b'>'))?;
    let reason = format!("'{}' may not stand in an attribute text", char::from(filling.body[sign]));
    Some((filling.at + HEADER + sign, reason))
}

fn counted(count: usize, what: &str) -> String {
    match count {
        0 => format!("no {what}s"),
        1 => format!("1 {what}"),
        _ => format!("{count} {what}s"),
    }
}
