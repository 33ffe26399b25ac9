//! A second reading of both outs: whether they are by the grammar, told from the whole row and not front to back. It calls
//! itself, and is for short inputs.

use super::Layout;
use super::templates::{ATTRIBUTE, CHILD};

type Field<'a> = (u8, &'a [u8]);

/// The bytes as a row of fields, where they are one.
fn row(mut bytes: &[u8]) -> Option<Vec<Field<'_>>> {
    let mut fields = vec![];
    while !bytes.is_empty() {
        let length = usize::from(*bytes.get(1)?) * 256 + usize::from(*bytes.get(2)?);
        fields.push((bytes[0], bytes.get(3..3 + length)?));
        bytes = &bytes[3 + length..];
    }
    Some(fields)
}

fn is_row_of(bytes: &[u8], is_one: impl Fn(Field) -> bool) -> bool {
    row(bytes).is_some_and(|fields| fields.into_iter().all(is_one))
}

fn is_text(bytes: &[u8]) -> bool {
    std::str::from_utf8(bytes).is_ok()
}

fn is_string((tag, body): Field) -> bool {
    tag == 0x81 && is_text(body)
}

pub fn is_templates(bytes: &[u8], layout: Layout) -> bool {
    is_row_of(bytes, |(tag, body)| match layout {
        Layout::Old => {
            tag == 0x80 && body.get(2..).is_some_and(|strings| !strings.is_empty() && is_row_of(strings, is_string))
        }
        Layout::New => tag == 0x84 && body.len() >= 6 && is_new_template(body),
    })
}

fn is_new_template(body: &[u8]) -> bool {
    let gaps = usize::from(body[4]) * 256 + usize::from(body[5]);
    let (Some(kinds), Some(strings)) = (body.get(6..6 + gaps), body.get(6 + gaps..)) else { return false };
    let count = row(strings).map(|fields| fields.len());
    kinds.iter().all(|kind| matches!(kind, 1 | 2)) && is_row_of(strings, is_string) && count == Some(gaps + 1)
}

/// A7's sentence on the strings before a gap, joined.
pub fn kind(joined: &[u8]) -> Option<u8> {
    let signs: Vec<u8> = joined.iter().copied().filter(|byte| b"<>".contains(byte)).collect();
    let in_turn = signs.iter().enumerate().all(|(at, sign)| *sign == b"<>"[at % 2]);
    let last = joined.iter().rposition(|byte| *byte == b'<');
    match (in_turn, signs.len() % 2, last) {
        (true, 0, _) => Some(CHILD),
        (true, _, Some(at)) if joined.get(at + 1) != Some(&b'/') && joined.ends_with(b" ") => Some(ATTRIBUTE),
        _ => None,
    }
}

pub fn is_page(bytes: &[u8], layout: Layout) -> bool {
    let Some(fields) = row(bytes) else { return false };
    let items = match &fields[..] {
        [(0x82, body), items @ ..] if is_import(body) => items,
        items => items,
    };
    let tags: Vec<u8> = items.iter().map(|(tag, _)| *tag).collect();
    let marks: Vec<usize> = (0..tags.len()).filter(|at| tags[*at] == 0x83).collect();
    let others: Vec<u8> = tags.into_iter().filter(|tag| *tag != 0x83).collect();
    // Before the first 10 or 12, else before all items.
    let place = others.iter().position(|tag| matches!(tag, 0x10 | 0x12)).unwrap_or(0);
    (marks.is_empty() || marks == [place])
        && items.iter().all(|(tag, body)| match tag {
            0x10..=0x12 => is_row_of(body, |field| is_piece(field, layout)),
            0x13 | 0x83 => body.is_empty(),
            _ => false,
        })
}

fn is_import(body: &[u8]) -> bool {
    let Some((sum, source)) = body.split_last() else { return false };
    (1..=15).contains(sum) && row(source).is_some_and(|fields| fields.len() == 1 && is_string(fields[0]))
}

fn is_piece(field: Field, layout: Layout) -> bool {
    let (tag, body) = field;
    tag == 0x20 && is_text(body) || is_expression(field, layout)
}

fn is_expression((tag, body): Field, layout: Layout) -> bool {
    let expression = |field: Field| is_expression(field, layout);
    let fields = || row(body).unwrap_or_default();
    let whole = |bytes: &[u8]| bytes.iter().fold(0_u128, |number, byte| number * 256 + u128::from(*byte));
    match tag {
        0x70 | 0x74 => is_text(body),
        0x71 | 0x75 => body.len() == 8 && whole(body) < 1 << 53,
        0x72 => matches!(body, [0] | [1]),
        0x73 => body.is_empty(),
        0x76 => is_row_of(body, |field| match field {
            (0x77, inner) => row(inner).is_some_and(|inner| inner.len() == 1 && expression(inner[0])),
            (0x78, inner) => inner.is_empty(),
            field => expression(field),
        }),
        0x79 => is_row_of(body, |field| is_piece(field, layout)),
        0x7a | 0x7b => body.len() == 9 && whole(&body[..8]) < 1_000_000_000_000_000 && body[8] < 16,
        0x90 => body.get(layout.number_bytes()..).is_some_and(|gaps| is_row_of(gaps, expression)),
        0x91 => matches!(fields()[..], [name, value] if is_string(name) && expression(value)),
        0x92 => matches!(fields()[..], [value] if expression(value)),
        0x93 => matches!(fields()[..], [value, name] if expression(value) && is_string(name)),
        0x94 => match fields()[..] {
            [name, props] => is_called(name) && is_props(props, layout),
            [name, props, key] => is_called(name) && is_props(props, layout) && expression(key),
            _ => false,
        },
        _ => false,
    }
}

fn is_called((tag, body): Field) -> bool {
    match tag {
        0x40 => is_identifier(body),
        0x41 => row(body).is_some_and(|parts| {
            let is_part = |(tag, body): &Field| *tag == 0x40 && is_identifier(body) && !body.contains(&b'-');
            (2..=8).contains(&parts.len()) && parts.iter().all(is_part)
        }),
        _ => is_string((tag, body)),
    }
}

fn is_identifier(body: &[u8]) -> bool {
    let Ok(name) = std::str::from_utf8(body) else { return false };
    let letter = |sign: char| sign.is_ascii_alphabetic() || sign == '_' || sign == '$';
    name.len() <= 128
        && name.starts_with(letter)
        && name.chars().all(|sign| letter(sign) || sign.is_ascii_digit() || sign == '-')
}

fn is_props((tag, body): Field, layout: Layout) -> bool {
    match tag {
        0x73 => body.is_empty(),
        0x95 => is_row_of(body, |(tag, inner)| match (tag, &row(inner).unwrap_or_default()[..]) {
            (0x53, [value]) => is_expression(*value, layout),
            (0x96, [name, value]) => is_string(*name) && is_expression(*value, layout),
            _ => false,
        }),
        _ => false,
    }
}
