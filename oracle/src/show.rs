//! Any bytes as indented fields, one on a line, with what they are; a catalogue as pages that hold fields. What is no field
//! is shown as bytes.

use crate::decimal::Decimal;
use crate::field::{Body, Node, body_of, front};
use crate::outs::catalogue::PAGE;
use std::fmt::Write;

pub fn show(bytes: &[u8]) -> String {
    let mut out = String::new();
    match bytes {
        [PAGE, ..] => pages(&mut out, bytes),
        _ => fields(&mut out, bytes, 0),
    }
    out
}

/// 02, A13 and A14: pages by their lengths, and what is behind them.
fn pages(out: &mut String, mut bytes: &[u8]) {
    let four = |bytes: &[u8]| u32::from_be_bytes(bytes.try_into().expect("four bytes"));
    while let Some((front, behind)) = bytes.split_first_chunk::<14>().filter(|(front, _)| front[0] == PAGE) {
        let lengths = [6, 10].map(|at| four(&front[at..at + 4]) as usize);
        let Some((templates, rest)) = behind.split_at_checked(lengths[0]) else { break };
        let Some((page, rest)) = rest.split_at_checked(lengths[1]) else { break };
        line(out, 0, &format!("97 page {} of house {}", four(&front[1..5]), front[5]));
        fields(out, templates, 1);
        fields(out, page, 1);
        bytes = rest;
    }
    match bytes.iter().all(|byte| *byte == 0) {
        true => line(out, 0, &format!("{} bytes are free", bytes.len())),
        false => line(out, 0, &format!("no page: {}", hex(bytes))),
    }
}

fn fields(out: &mut String, mut bytes: &[u8], indent: usize) {
    while let [tag, high, low, behind @ ..] = bytes {
        let length = usize::from(*high) << 8 | usize::from(*low);
        if behind.len() < length {
            break;
        }
        field(out, *tag, &behind[..length], indent);
        bytes = &behind[length..];
    }
    if !bytes.is_empty() {
        line(out, indent, &format!("no field: {}", hex(bytes)));
    }
}

fn field(out: &mut String, tag: u8, body: &[u8], indent: usize) {
    let head = format!("{tag:02x} {}", what(tag));
    match (body_of(tag), body) {
        (Body::Fields, _) => {
            line(out, indent, &head);
            fields(out, body, indent + 1);
        }
        (Body::FrontThenFields, _) if front(tag, body).is_some() => {
            let (bytes, inner) = body.split_at(front(tag, body).expect("there is one"));
            let kinds: Vec<String> = bytes.iter().skip(6).map(kind).collect();
            let colon = if kinds.is_empty() { "" } else { ": " };
            let number = Node::leaf(tag, bytes).number();
            line(out, indent, &format!("{head} {number}{colon}{}", kinds.join(", ")));
            fields(out, inner, indent + 1);
        }
        (Body::FieldsThenByte, [inner @ .., byte]) => {
            line(out, indent, &format!("{head} {byte}"));
            fields(out, inner, indent + 1);
        }
        (Body::Bytes, _) => line(out, indent, &format!("{head} {}", leaf(tag, body))),
        _ => line(out, indent, &format!("{head} {}", hex(body))),
    }
}

/// 02, A6: which gap it is.
fn kind(kind: &u8) -> String {
    match kind {
        1 => "attribute".into(),
        2 => "child".into(),
        other => format!("kind {other}"),
    }
}

fn line(out: &mut String, indent: usize, text: &str) {
    writeln!(out, "{}{}", "  ".repeat(indent), text.trim_end()).expect("a string can be written");
}

fn leaf(tag: u8, body: &[u8]) -> String {
    match (tag, body, std::str::from_utf8(body)) {
        (0x71 | 0x75, _, _) if body.len() == 8 => u64::from_be_bytes(body.try_into().expect("eight bytes")).to_string(),
        (0x7a | 0x7b, _, _) => Decimal::read(body).map_or(hex(body), Decimal::with_all_places),
        (0x05 | 0x13 | 0x73 | 0x78 | 0x83, [], _) => String::new(),
        (0x05 | 0x71..=0x73 | 0x75 | 0x78, _, _) | (_, _, Err(_)) => hex(body),
        (_, _, Ok(text)) if text.len() > 200 => {
            let head: String = text.chars().take(60).collect();
            format!("{head:?}... ({} bytes)", text.len())
        }
        (_, _, Ok(text)) => format!("{text:?}"),
    }
}

pub fn hex(bytes: &[u8]) -> String {
    bytes.iter().fold(String::new(), |mut out, b| {
        write!(out, "{b:02x}").expect("a string can be written");
        out
    })
}

fn what(tag: u8) -> &'static str {
    match tag {
        0x01 => "page",
        0x02 => "elements not serialized",
        0x03 => "attributes not serialized",
        0x04 => "import source",
        0x05 => "sums worked out",
        0x10 => "export",
        0x11 => "declaration",
        0x12 => "statement",
        0x13 => "empty statement",
        0x20 => "source",
        0x30 => "element",
        0x31 => "fragment",
        0x40 => "identifier",
        0x41 => "member",
        0x42 => "namespaced",
        0x50 => "attribute",
        0x51 => "attribute string",
        0x52 => "container",
        0x53 => "spread",
        0x60 => "text",
        0x61 => "spread child",
        0x70 => "string",
        0x71 => "number",
        0x72 => "boolean",
        0x73 => "null",
        0x74 => "literal",
        0x75 => "minus",
        0x76 => "array",
        0x77 => "array spread",
        0x78 => "hole",
        0x79 => "other",
        0x7a => "decimal",
        0x7b => "minus decimal",
        0x80 | 0x84 => "template",
        0x81 => "string out",
        0x82 => "import",
        0x83 => "templates stand here",
        0x85 => "order",
        0x86 => "attribute text",
        0x87 => "plain text",
        0x90 => "jsxTemplate",
        0x91 => "jsxAttr",
        0x92 => "jsxEscape",
        0x93 => "choice",
        0x94 => "jsx",
        0x95 => "props",
        0x96 => "prop",
        _ => "unknown",
    }
}
