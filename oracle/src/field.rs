//! 01, Field: a tag byte, a two-byte length with the high byte first, a body. Also a loose reading of any bytes as a
//! tree of fields, for the checks on outputs, the shrinker and the printer.

use crate::answer::MOST_BODY;

/// Starts a field whose body is appended next; the place is for `finish`.
pub fn begin(out: &mut Vec<u8>, tag: u8) -> usize {
    let at = out.len();
    out.extend([tag, 0, 0]);
    at
}

/// Writes the length of the field that began at `at`; whether its body fits a length.
pub fn finish(out: &mut [u8], at: usize) -> bool {
    let length = out.len() - at - 3;
    out[at + 1] = (length >> 8) as u8;
    out[at + 2] = length as u8;
    length <= MOST_BODY
}

/// What stands in a field's body.
#[derive(Clone, Copy, Debug, PartialEq, Eq)]
pub enum Body {
    Bytes,
    Fields,
    /// A number and what else `front` counts, then fields (80, 84, 85 and 90).
    FrontThenFields,
    /// Fields, then one byte (82).
    FieldsThenByte,
    Unknown,
}

pub fn body_of(tag: u8) -> Body {
    match tag {
        0x01..=0x03 | 0x10..=0x12 | 0x30 | 0x31 | 0x41 | 0x42 | 0x50 | 0x52 | 0x53 | 0x61 => Body::Fields,
        0x76 | 0x77 | 0x79 | 0x91..=0x96 => Body::Fields,
        0x04 | 0x05 | 0x13 | 0x20 | 0x40 | 0x51 | 0x60 | 0x70..=0x75 | 0x78 | 0x7a | 0x7b => Body::Bytes,
        0x81 | 0x83 | 0x86 | 0x87 => Body::Bytes,
        0x80 | 0x84 | 0x85 | 0x90 => Body::FrontThenFields,
        0x82 => Body::FieldsThenByte,
        _ => Body::Unknown,
    }
}

/// How many bytes stand before the fields of such a body: in an 80 a number of two bytes; in an 84 one of four, a count of
/// two, and as many kinds; in an 85 or 90 a number of four.
pub fn front(tag: u8, body: &[u8]) -> Option<usize> {
    let length = match (tag, body) {
        (0x80, _) => 2,
        (0x84, [_, _, _, _, high, low, ..]) => 6 + usize::from(u16::from_be_bytes([*high, *low])),
        (0x84, _) => return None,
        _ => 4,
    };
    (length <= body.len()).then_some(length)
}

/// A field read as a tree. `bytes` is the body of a leaf, what stands before the fields of an 80, 84, 85 or 90, or the byte
/// of an 82.
#[derive(Clone, Debug, PartialEq, Eq)]
pub struct Node {
    pub tag: u8,
    pub bytes: Vec<u8>,
    pub inner: Vec<Node>,
}

impl Node {
    pub fn leaf(tag: u8, bytes: impl Into<Vec<u8>>) -> Self {
        Node { tag, bytes: bytes.into(), inner: vec![] }
    }

    pub fn row(tag: u8, inner: Vec<Node>) -> Self {
        Node { tag, bytes: vec![], inner }
    }

    pub fn write(&self, out: &mut Vec<u8>) {
        let at = begin(out, self.tag);
        if self.tag != 0x82 {
            out.extend(&self.bytes);
        }
        for node in &self.inner {
            node.write(out);
        }
        if self.tag == 0x82 {
            out.extend(&self.bytes);
        }
        finish(out, at);
    }

    /// The number of an 80, 84, 85 or 90.
    pub fn number(&self) -> u32 {
        let bytes = &self.bytes[..if self.tag == 0x80 { 2 } else { 4 }];
        bytes.iter().fold(0, |number, byte| number << 8 | u32::from(*byte))
    }

    pub fn fields(&self) -> usize {
        1 + self.inner.iter().map(Node::fields).sum::<usize>()
    }

    /// Calls `each` on this field and all fields in it, outer before inner.
    pub fn each<'a>(&'a self, each: &mut impl FnMut(&'a Node)) {
        each(self);
        for node in &self.inner {
            node.each(each);
        }
    }
}

/// The bytes as a row of fields, where they are one; the kinds of fields are not looked at.
pub fn read(mut bytes: &[u8]) -> Option<Vec<Node>> {
    let mut row = vec![];
    while !bytes.is_empty() {
        let header = bytes.get(..3)?;
        let length = usize::from(header[1]) << 8 | usize::from(header[2]);
        row.push(node(header[0], bytes.get(3..3 + length)?)?);
        bytes = &bytes[3 + length..];
    }
    Some(row)
}

fn node(tag: u8, body: &[u8]) -> Option<Node> {
    Some(match body_of(tag) {
        Body::Bytes => Node::leaf(tag, body),
        Body::Fields => Node::row(tag, read(body)?),
        Body::FrontThenFields => {
            let (bytes, fields) = body.split_at(front(tag, body)?);
            Node { tag, bytes: bytes.to_vec(), inner: read(fields)? }
        }
        Body::FieldsThenByte => {
            let (byte, fields) = body.split_last()?;
            Node { tag, bytes: vec![*byte], inner: read(fields)? }
        }
        Body::Unknown => return None,
    })
}

pub fn write(row: &[Node]) -> Vec<u8> {
    let mut out = vec![];
    for node in row {
        node.write(&mut out);
    }
    out
}

/// Calls `change` with the row that holds field number `left` (outer before inner), and its place there; whether there
/// is such a field.
pub fn at_nth(row: &mut Vec<Node>, left: &mut usize, change: &mut impl FnMut(&mut Vec<Node>, usize)) -> bool {
    for i in 0..row.len() {
        if *left == 0 {
            change(row, i);
            return true;
        }
        *left -= 1;
        if at_nth(&mut row[i].inner, left, change) {
            return true;
        }
    }
    false
}

/// How deep the deepest header of the bytes lies, read loosely (01 is 1).
pub fn depth(bytes: &[u8]) -> usize {
    let mut rest = bytes;
    let mut most = 0;
    while rest.len() >= 3 {
        let length = (usize::from(rest[1]) << 8 | usize::from(rest[2])).min(rest.len() - 3);
        let inside = if body_of(rest[0]) == Body::Fields { depth(&rest[3..3 + length]) } else { 0 };
        most = most.max(1 + inside);
        rest = &rest[3 + length..];
    }
    most
}
