//! Pages, options and outputs by hand, for tests and marks. Each function gives the bytes of one field.

use crate::decimal::Decimal;
use crate::field::{begin, finish};

pub fn field(tag: u8, body: &[u8]) -> Vec<u8> {
    let mut out = vec![];
    let at = begin(&mut out, tag);
    out.extend(body);
    assert!(finish(&mut out, at), "a body of {} bytes has no length", body.len());
    out
}

pub fn row(tag: u8, fields: &[Vec<u8>]) -> Vec<u8> {
    field(tag, &fields.concat())
}

pub fn page(items: &[Vec<u8>]) -> Vec<u8> {
    row(0x01, items)
}

/// A page of one statement that is one tag: what most tests ask.
pub fn page_of(tag: Vec<u8>) -> Vec<u8> {
    page(&[statement(&[tag])])
}

pub fn export(pieces: &[Vec<u8>]) -> Vec<u8> {
    row(0x10, pieces)
}

pub fn declaration(pieces: &[Vec<u8>]) -> Vec<u8> {
    row(0x11, pieces)
}

pub fn statement(pieces: &[Vec<u8>]) -> Vec<u8> {
    row(0x12, pieces)
}

pub fn empty_statement() -> Vec<u8> {
    field(0x13, b"")
}

pub fn source(text: &str) -> Vec<u8> {
    field(0x20, text.as_bytes())
}

/// An element; `parts` are its attributes, then its children.
pub fn element(name: &str, parts: &[Vec<u8>]) -> Vec<u8> {
    row(0x30, &[vec![name_of(name)], parts.to_vec()].concat())
}

pub fn fragment(children: &[Vec<u8>]) -> Vec<u8> {
    row(0x31, children)
}

/// A name as it is written: `a`, `a.b`, `a:b`.
pub fn name_of(name: &str) -> Vec<u8> {
    let ident = |part: &str| field(0x40, part.as_bytes());
    if name.contains('.') {
        row(0x41, &name.split('.').map(ident).collect::<Vec<_>>())
    } else if name.contains(':') {
        row(0x42, &name.split(':').map(ident).collect::<Vec<_>>())
    } else {
        ident(name)
    }
}

pub fn attribute(name: &str) -> Vec<u8> {
    row(0x50, &[name_of(name)])
}

pub fn attribute_with(name: &str, value: Vec<u8>) -> Vec<u8> {
    row(0x50, &[name_of(name), value])
}

pub fn attribute_string(name: &str, value: &str) -> Vec<u8> {
    attribute_with(name, field(0x51, value.as_bytes()))
}

pub fn braces(expression: Vec<u8>) -> Vec<u8> {
    field(0x52, &expression)
}

pub fn empty_braces() -> Vec<u8> {
    field(0x52, b"")
}

pub fn spread(expression: Vec<u8>) -> Vec<u8> {
    field(0x53, &expression)
}

pub fn text(text: &str) -> Vec<u8> {
    field(0x60, text.as_bytes())
}

pub fn spread_child(expression: Vec<u8>) -> Vec<u8> {
    field(0x61, &expression)
}

pub fn string(text: &str) -> Vec<u8> {
    field(0x70, text.as_bytes())
}

pub fn number(value: u64) -> Vec<u8> {
    field(0x71, &value.to_be_bytes())
}

pub fn boolean(value: bool) -> Vec<u8> {
    field(0x72, &[value.into()])
}

pub fn null() -> Vec<u8> {
    field(0x73, b"")
}

pub fn literal(text: &str) -> Vec<u8> {
    field(0x74, text.as_bytes())
}

pub fn minus(value: u64) -> Vec<u8> {
    field(0x75, &value.to_be_bytes())
}

/// 02, A2: digits over a power of ten.
pub fn decimal(digits: u64, places: u8) -> Vec<u8> {
    field(0x7a, &Decimal { digits, places }.bytes())
}

pub fn minus_decimal(digits: u64, places: u8) -> Vec<u8> {
    field(0x7b, &Decimal { digits, places }.bytes())
}

pub fn array(elements: &[Vec<u8>]) -> Vec<u8> {
    row(0x76, elements)
}

pub fn array_spread(expression: Vec<u8>) -> Vec<u8> {
    field(0x77, &expression)
}

pub fn hole() -> Vec<u8> {
    field(0x78, b"")
}

pub fn other(pieces: &[Vec<u8>]) -> Vec<u8> {
    row(0x79, pieces)
}

/// An expression that is source text alone.
pub fn code(text: &str) -> Vec<u8> {
    other(&[source(text)])
}

pub fn elements_listed(names: &[&str]) -> Vec<u8> {
    row(0x02, &names.iter().map(|n| source(n)).collect::<Vec<_>>())
}

pub fn attributes_listed(names: &[&str]) -> Vec<u8> {
    row(0x03, &names.iter().map(|n| source(n)).collect::<Vec<_>>())
}

pub fn import_source(text: &str) -> Vec<u8> {
    field(0x04, text.as_bytes())
}

/// 02, A6: an 84 with these kinds.
pub fn template(number: u32, kinds: &[u8], strings: &[&str]) -> Vec<u8> {
    let count = (kinds.len() as u16).to_be_bytes();
    let strings: Vec<Vec<u8>> = strings.iter().map(|string| string_out(string)).collect();
    field(0x84, &[&number.to_be_bytes(), &count[..], kinds, &strings.concat()].concat())
}

/// A 90.
pub fn template_call(number: u32, gaps: &[Vec<u8>]) -> Vec<u8> {
    field(0x90, &[&number.to_be_bytes()[..], &gaps.concat()].concat())
}

/// An 81.
pub fn string_out(text: &str) -> Vec<u8> {
    field(0x81, text.as_bytes())
}

/// 02, A12: sums are worked out.
pub fn sums() -> Vec<u8> {
    field(0x05, b"")
}
