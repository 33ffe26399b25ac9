//! Damaged copies: a page or options changed in one or two places, as fields or as bytes.

use super::decimals;
use super::rng::Rng;
use crate::field::{self, Node, at_nth};

const TAGS: [u8; 42] = [
    0x00, 0x01, 0x02, 0x03, 0x04, 0x05, 0x06, 0x10, 0x11, 0x12, 0x13, 0x20, 0x30, 0x31, 0x40, 0x41, 0x42, 0x50, 0x51,
    0x52, 0x53, 0x60, 0x61, 0x70, 0x71, 0x72, 0x73, 0x74, 0x75, 0x76, 0x77, 0x78, 0x79, 0x7a, 0x7b, 0x7c, 0x81, 0x84,
    0x90, 0x94, 0x95, 0xff,
];

pub const BAD_TEXTS: [&[u8]; 12] = [
    b"\xff",
    b"\x80",
    b"\xc0\x80",
    b"\xc1\xbf",
    b"\xe0\x9f\xbf",
    b"\xed\xa0\x80",
    b"\xf0\x8f\xbf\xbf",
    b"\xf4\x90\x80\x80",
    b"\xf5\x80\x80\x80",
    b"\xe2\x82",
    b"\xc3",
    b"\xf0\x9f\x98",
];

const BAD_NAMES: [&[u8]; 10] = [b"", b"-a", b"1a", b"a b", b"a.b", b"a:b", b"\xc3\xa9", b"a\xc3\xa9", b"a\0", b"a<b"];

pub fn damaged(rng: &mut Rng, bytes: &[u8]) -> Vec<u8> {
    if rng.chance(65)
        && let Some(mut row) = field::read(bytes)
        && !row.is_empty()
    {
        for _ in 0..rng.within(1, 2) {
            damage_fields(rng, &mut row);
        }
        return field::write(&row);
    }
    let mut out = bytes.to_vec();
    for _ in 0..rng.within(1, 2) {
        damage_bytes(rng, &mut out);
    }
    out
}

/// With another body in one of its numbers, where it has one; now and then that is a number still.
pub fn with_number(rng: &mut Rng, bytes: &[u8]) -> Vec<u8> {
    let Some(mut row) = field::read(bytes) else { return bytes.to_vec() };
    let mut places = vec![];
    let mut place = 0;
    for node in &row {
        node.each(&mut |node| {
            if matches!(node.tag, 0x71 | 0x75 | 0x7a | 0x7b) {
                places.push(place);
            }
            place += 1;
        });
    }
    if !places.is_empty() {
        let mut one = places[rng.below(places.len())];
        at_nth(&mut row, &mut one, &mut |row, i| damage_leaf(rng, &mut row[i]));
    }
    field::write(&row)
}

fn damage_bytes(rng: &mut Rng, out: &mut Vec<u8>) {
    let at = rng.below(out.len() + 1);
    match rng.below(7) {
        0 => out.truncate(at),
        1 => out.insert(at, rng.draw() as u8),
        2 => out.extend((0..rng.within(1, 4)).map(|_| rng.draw() as u8)),
        _ if at == out.len() => {}
        3 => {
            out.remove(at);
        }
        4 => out[at] = rng.draw() as u8,
        5 => out[at] = out[at].wrapping_add(1),
        _ => out[at] = out[at].wrapping_sub(1),
    }
}

fn damage_fields(rng: &mut Rng, row: &mut Vec<Node>) {
    let count: usize = row.iter().map(Node::fields).sum();
    if count == 0 {
        return;
    }
    let (one, other) = (rng.below(count), rng.below(count));
    let copy = nth(row, &mut { other }).cloned();
    at_nth(row, &mut { one }, &mut |row, i| match rng.below(8) {
        0 => {
            row.remove(i);
        }
        1 => row.insert(i, row[i].clone()),
        2 => row[i].tag = TAGS[rng.below(TAGS.len())],
        3 => {
            let inner = row.remove(i).inner;
            row.splice(i..i, inner);
        }
        4 => {
            let tag = TAGS[rng.below(TAGS.len())];
            row[i] = Node::row(tag, vec![row[i].clone()]);
        }
        5 => row.insert(i, copy.clone().expect("there are fields")),
        _ => damage_leaf(rng, &mut row[i]),
    });
}

fn damage_leaf(rng: &mut Rng, node: &mut Node) {
    match node.tag {
        0x40 if rng.chance(30) => node.bytes = vec![b'n'; rng.within(127, 130)],
        0x40 if rng.chance(30) => node.bytes.extend(b"-h"),
        0x40 => node.bytes = BAD_NAMES[rng.below(BAD_NAMES.len())].to_vec(),
        0x71 | 0x75 if rng.chance(70) => {
            let near = 1_u64 << 53;
            node.bytes = (near - 2 + rng.below(4) as u64).to_be_bytes().to_vec();
        }
        0x7a | 0x7b => node.bytes = decimals::at_bounds(rng),
        0x72 => node.bytes = vec![rng.below(4) as u8],
        0x71 | 0x73 | 0x75 | 0x78 | 0x13 | 0x05 => node.bytes.push(0),
        0x20 | 0x51 | 0x60 | 0x70 | 0x74 | 0x04 => {
            let at = rng.below(node.bytes.len() + 1);
            let bad = BAD_TEXTS[rng.below(BAD_TEXTS.len())];
            node.bytes.splice(at..at, bad.iter().copied());
        }
        0x41 if rng.chance(50) => {
            let more: Vec<Node> = node.inner.iter().cycle().take(rng.within(0, 9)).cloned().collect();
            node.inner = more;
        }
        _ => node.inner.reverse(),
    }
}

fn nth<'a>(row: &'a [Node], left: &mut usize) -> Option<&'a Node> {
    for node in row {
        if *left == 0 {
            return Some(node);
        }
        *left -= 1;
        if let Some(found) = nth(&node.inner, left) {
            return Some(found);
        }
    }
    None
}
