//! 02, A8: a template filled by an order, and those in it, as HTML.

use super::row::{ensure, first, text};
use super::templates::{self, ATTRIBUTE, CHILD, Template};
use super::{Layout, Read, Refusal};
use crate::answer::MOST_DEPTH;
use std::collections::HashMap;

pub const ORDER: u8 = 0x85;
pub const ATTRIBUTE_TEXT: u8 = 0x86;
pub const PLAIN_TEXT: u8 = 0x87;

/// What a call answers; laid out as hosts see it over the C convention.
#[derive(Clone, Copy, Debug, PartialEq, Eq)]
#[repr(C)]
pub struct Filled {
    pub number: u32,
    pub html_bytes: usize,
}

/// An 85: the number of a template, and a filling for each of its gaps.
#[derive(Clone, Debug, PartialEq, Eq)]
pub struct Order {
    pub number: u32,
    pub fillings: Vec<Filling>,
}

#[derive(Clone, Debug, PartialEq, Eq)]
pub enum Filling {
    /// 86
    Attribute(Vec<u8>),
    /// 87, escaped when it is written
    Text(Vec<u8>),
    Order(Order),
}

/// 3, 4, 6 and 8; 3 for no bytes and, after all that is wrong in the order, for bytes behind it.
pub fn read_order(bytes: &[u8]) -> Read<Order> {
    let (tag, body, behind) = first(bytes)?;
    ensure(tag == ORDER, Refusal::Misplaced)?;
    let order = order(body, 1)?;
    ensure(behind.is_empty(), Refusal::Truncated)?;
    Ok(order)
}

/// The body of an 85 at this depth: at each filling its header, then its depth, then its body. It calls itself at most 48
/// deep.
fn order(body: &[u8], depth: usize) -> Read<Order> {
    let (number, mut row) = Layout::New.read_number(body)?;
    let mut fillings = vec![];
    while !row.is_empty() {
        let (tag, body, behind) = first(row)?;
        ensure(matches!(tag, ORDER | ATTRIBUTE_TEXT | PLAIN_TEXT), Refusal::Misplaced)?;
        ensure(depth < MOST_DEPTH, Refusal::TooDeep)?;
        fillings.push(match tag {
            ORDER => Filling::Order(order(body, depth + 1)?),
            ATTRIBUTE_TEXT => Filling::Attribute(text(body)?),
            _ => Filling::Text(text(body)?),
        });
        row = behind;
    }
    Ok(Order { number, fillings })
}

/// What is given before any lent byte is looked at: 3, 4 and 6 for the templates, these and 8 for the order, 18, or the
/// HTML.
pub fn outcome(templates: &[u8], order: &[u8]) -> Read<Vec<u8>> {
    let templates = templates::read(templates, Layout::New)?;
    let order = read_order(order)?;
    let mut by_number: HashMap<u32, Vec<&Template>> = HashMap::new();
    templates.iter().for_each(|template| by_number.entry(template.number).or_default().push(template));
    let mut html = vec![];
    write(&order, &by_number, &mut html)?;
    Ok(html)
}

/// First string, first filling, second string, and so on to the last string.
fn write(order: &Order, templates: &HashMap<u32, Vec<&Template>>, html: &mut Vec<u8>) -> Read<()> {
    // Recorded, and once.
    let Some([template]) = templates.get(&order.number).map(Vec::as_slice) else { return Err(Refusal::Unfitting) };
    ensure(order.fillings.len() == template.kinds.len(), Refusal::Unfitting)?;
    for (at, filling) in order.fillings.iter().enumerate() {
        html.extend(&template.strings[at]);
        match (template.kinds[at], filling) {
            (ATTRIBUTE, Filling::Attribute(text)) => {
                ensure(!text.iter().any(|byte| matches!(byte, b'<' | b'>')), Refusal::Unfitting)?;
                html.extend(text);
            }
            (CHILD, Filling::Text(text)) => html.extend(escaped(text)),
            (CHILD, Filling::Order(inner)) => write(inner, templates, html)?,
            _ => return Err(Refusal::Unfitting),
        }
    }
    html.extend(&template.strings[order.fillings.len()]);
    Ok(())
}

/// 01, Text run: the five escapes.
pub fn escaped(text: &[u8]) -> Vec<u8> {
    let escape = |byte: &u8| match byte {
        b'&' => b"&amp;".to_vec(),
        b'<' => b"&lt;".to_vec(),
        b'>' => b"&gt;".to_vec(),
        b'\'' => b"&#39;".to_vec(),
        b'"' => b"&quot;".to_vec(),
        other => vec![*other],
    };
    text.iter().flat_map(escape).collect()
}

/// `jsx_precompile_fill`.
pub fn fill(templates: &[u8], order: &[u8], html_out: &mut [u8]) -> Filled {
    settle(&outcome(templates, order), html_out)
}

/// The last step: 13. Taken: bytes behind the HTML stay. Refused: all lent bytes are zero.
pub fn settle(outcome: &Read<Vec<u8>>, html_out: &mut [u8]) -> Filled {
    let refusal = match outcome {
        Ok(html) if html.len() <= html_out.len() => {
            html_out[..html.len()].copy_from_slice(html);
            return Filled { number: 0, html_bytes: html.len() };
        }
        Ok(_) => Refusal::PageTooSmall,
        Err(refusal) => *refusal,
    };
    html_out.fill(0);
    Filled { number: refusal as u32, html_bytes: 0 }
}
