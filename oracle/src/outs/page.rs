//! Page out: read with 3 to 7, and written in either layout. A page out is a flat list of parts, and what is open stands
//! on a stack of its own: a body of 65,535 bytes has room for 21,845 fields within each other.

use super::grammar::{Body, Row, Top, body_of};
use super::row::{ensure, first, first_of, text};
use super::{Layout, Read, Refusal};
use crate::answer::{MOST_NAME, MOST_NUMBER};
use crate::field::{begin, finish};

#[derive(Clone, Debug, PartialEq, Eq)]
pub enum Part {
    /// A field with this tag begins.
    Open(u8),
    /// The number of a 90.
    Number(u32),
    /// What is no field: the body of a leaf, the sum of an 82.
    Bytes(Vec<u8>),
    /// The field that began last ends.
    Close,
}

/// 3 to 7, front to back, at each field its header, then its body; an empty page out is read.
pub fn read(bytes: &[u8], layout: Layout) -> Read<Vec<Part>> {
    let mut parts = vec![];
    let mut rest = bytes;
    let mut row = Row::Top(Top::Start);
    // The rows around: what is left of each, and what it expects there.
    let mut around: Vec<(&[u8], Row)> = vec![];
    loop {
        if rest.is_empty() {
            ensure(row.may_end(), Refusal::Misplaced)?;
            let Some(outer) = around.pop() else { return Ok(parts) };
            (rest, row) = outer;
            parts.push(Part::Close);
            continue;
        }
        let (tag, body, behind) = first(rest)?;
        let next = row.behind(tag).ok_or(Refusal::Misplaced)?;
        parts.push(Part::Open(tag));
        let fields = match body_of(tag) {
            Body::Fields(inner) => Some((body, inner)),
            Body::NumberThenGaps => {
                let (number, gaps) = layout.read_number(body)?;
                parts.push(Part::Number(number));
                Some((gaps, Row::Gaps))
            }
            kind => {
                leaf(kind, body, row, &mut parts)?;
                parts.push(Part::Close);
                None
            }
        };
        (rest, row) = match fields {
            Some(inner) => {
                around.push((behind, next));
                inner
            }
            None => (behind, next),
        };
    }
}

/// A body without fields, or that of an 82.
fn leaf(kind: Body, body: &[u8], row: Row, parts: &mut Vec<Part>) -> Read<()> {
    match kind {
        Body::Import => return import(body, parts),
        Body::Text => drop(text(body)?),
        Body::Identifier => identifier(body, matches!(row, Row::Members(_)))?,
        Body::Whole => whole(body)?,
        Body::Decimal => decimal(body)?,
        Body::Boolean => ensure(matches!(body, [0 | 1]), Refusal::Misplaced)?,
        _ => ensure(body.is_empty(), Refusal::Misplaced)?,
    }
    parts.push(Part::Bytes(body.to_vec()));
    Ok(())
}

/// An 81 and one byte, a sum of helpers.
fn import(body: &[u8], parts: &mut Vec<Part>) -> Read<()> {
    ensure(!body.is_empty(), Refusal::Misplaced)?;
    let (source, behind) = first_of(body, 0x81)?;
    let source = text(source)?;
    ensure(matches!(behind, [1..=15]), Refusal::Misplaced)?;
    parts.extend([Part::Open(0x81), Part::Bytes(source), Part::Close, Part::Bytes(behind.to_vec())]);
    Ok(())
}

/// 01: 1 to 128 bytes, a letter, `_` or `$`, then also digits and `-`, which a member has not.
fn identifier(body: &[u8], member: bool) -> Read<()> {
    let begins = |byte: u8| byte.is_ascii_alphabetic() || matches!(byte, b'_' | b'$');
    let goes_on = |byte: u8| begins(byte) || byte.is_ascii_digit() || (byte == b'-' && !member);
    let is_one = body.first().is_some_and(|byte| begins(*byte)) && body.iter().all(|byte| goes_on(*byte));
    ensure(is_one && body.len() <= MOST_NAME, Refusal::BadName)
}

fn whole(body: &[u8]) -> Read<()> {
    let bytes: [u8; 8] = body.try_into().map_err(|_| Refusal::Misplaced)?;
    ensure(u64::from_be_bytes(bytes) <= MOST_NUMBER, Refusal::NumberTooLarge)
}

/// 02, A2: eight bytes of digits and one of places.
fn decimal(body: &[u8]) -> Read<()> {
    let [digits @ .., places]: [u8; 9] = body.try_into().map_err(|_| Refusal::Misplaced)?;
    ensure(u64::from_be_bytes(digits) <= 999_999_999_999_999 && places <= 15, Refusal::NumberTooLarge)
}

/// The page out; none where a body is over 65,535 bytes.
pub fn write(parts: &[Part], layout: Layout) -> Option<Vec<u8>> {
    let mut out = vec![];
    let mut open = vec![];
    let mut fits = true;
    for part in parts {
        match part {
            Part::Open(tag) => open.push(begin(&mut out, *tag)),
            Part::Number(number) => layout.write_number(&mut out, *number),
            Part::Bytes(bytes) => out.extend(bytes),
            Part::Close => fits &= finish(&mut out, open.pop().expect("what ends has begun")),
        }
    }
    fits.then_some(out)
}

/// The numbers of all calls, front to back.
pub fn called(parts: &[Part]) -> Vec<u32> {
    parts.iter().filter_map(|part| if let Part::Number(number) = part { Some(*number) } else { None }).collect()
}
