//! Damaged copies: bytes changed in one or two places, or fields, with lengths that fit again.

use super::pair::Pair;
use crate::generate::damage::BAD_TEXTS;
use crate::generate::rng::Rng;
use crate::outs::page::Part;

const TAGS: [u8; 46] = [
    0x00, 0x01, 0x10, 0x11, 0x12, 0x13, 0x20, 0x30, 0x31, 0x40, 0x41, 0x42, 0x50, 0x52, 0x53, 0x60, 0x70, 0x71, 0x72,
    0x73, 0x74, 0x75, 0x76, 0x77, 0x78, 0x79, 0x7a, 0x7b, 0x7c, 0x80, 0x81, 0x82, 0x83, 0x84, 0x85, 0x86, 0x87, 0x90,
    0x91, 0x92, 0x93, 0x94, 0x95, 0x96, 0x97, 0xff,
];

pub fn tag(rng: &mut Rng) -> u8 {
    TAGS[rng.below(TAGS.len())]
}

/// A byte changed, cut off, put in, taken out, one more or one less, which puts a length off by one.
pub fn bytes(rng: &mut Rng, out: &mut Vec<u8>) {
    for _ in 0..rng.within(1, 2) {
        let at = rng.below(out.len() + 1);
        match rng.below(9) {
            0 => out.truncate(at),
            1 => out.insert(at, rng.draw() as u8),
            2 => out.insert(at, tag(rng)),
            3 => out.extend((0..rng.within(1, 4)).map(|_| rng.draw() as u8)),
            _ if at == out.len() => {}
            4 => drop(out.remove(at)),
            5 => out[at] = rng.draw() as u8,
            6 => out[at] = out[at].wrapping_add(1),
            7 => out[at] = out[at].wrapping_sub(1),
            _ => {
                let end = (at + rng.within(1, 8)).min(out.len());
                let copy = out[at..end].to_vec();
                out.splice(at..at, copy);
            }
        }
    }
}

/// In its templates or in its page out.
pub fn fields(rng: &mut Rng, pair: &mut Pair) {
    if !pair.templates.is_empty() && (pair.parts.is_empty() || rng.chance(40)) {
        template(rng, pair);
    } else if !pair.parts.is_empty() {
        page(rng, &mut pair.parts);
    }
}

fn template(rng: &mut Rng, pair: &mut Pair) {
    let at = rng.below(pair.templates.len());
    let template = &mut pair.templates[at];
    let string = rng.below(template.strings.len());
    match rng.below(8) {
        0 => drop(template.strings.remove(string)),
        1 => template.strings.insert(string, vec![]),
        2 => template.kinds.push([0, 1, 2, 3][rng.below(4)]),
        3 => drop(template.kinds.pop()),
        4 => template.strings[string].push([b'<', b'>', b'/', b' '][rng.below(4)]),
        5 => template.strings[string].insert(0, [b'<', b'>', b'/', b' '][rng.below(4)]),
        6 => bad_text(rng, &mut template.strings[string]),
        _ => template.strings.swap(0, string),
    }
}

fn bad_text(rng: &mut Rng, text: &mut Vec<u8>) {
    let at = rng.below(text.len() + 1);
    let bad = BAD_TEXTS[rng.below(BAD_TEXTS.len())];
    text.splice(at..at, bad.iter().copied());
}

/// A field taken out, doubled, turned with its neighbour, put in another place, given another tag or another body.
fn page(rng: &mut Rng, parts: &mut Vec<Part>) {
    let fields = ranges(parts);
    let (from, to) = fields[rng.below(fields.len())];
    match rng.below(8) {
        0 => drop(parts.drain(from..to)),
        1 => {
            let copy = parts[from..to].to_vec();
            parts.splice(from..from, copy);
        }
        2 => {
            let neighbour = fields.iter().find(|field| field.0 == to);
            if let Some((_, end)) = neighbour {
                parts[from..*end].rotate_left(to - from);
            }
        }
        3 => {
            let copy = parts[from..to].to_vec();
            let (place, _) = fields[rng.below(fields.len())];
            parts.splice(place..place, copy);
        }
        4 => parts[from] = Part::Open(tag(rng)),
        5 => {
            parts.insert(to, Part::Close);
            parts.insert(from, Part::Open(tag(rng)));
        }
        _ => leaf(rng, parts),
    }
}

/// Another body for one of the leaves.
fn leaf(rng: &mut Rng, parts: &mut [Part]) {
    let leaves: Vec<usize> = (1..parts.len()).filter(|at| matches!(parts[*at], Part::Bytes(_))).collect();
    if leaves.is_empty() {
        return;
    }
    let at = leaves[rng.below(leaves.len())];
    // The sum of an 82 stands behind a field; all others right behind their header.
    let tag = if let Part::Open(tag) = parts[at - 1] { Some(tag) } else { None };
    let Part::Bytes(bytes) = &mut parts[at] else { return };
    let Some(tag) = tag else {
        *bytes = vec![[0, 15, 16, 255][rng.below(4)]; rng.below(3)];
        return;
    };
    match tag {
        0x40 => {
            let long = vec![b'n'; rng.within(127, 130)];
            let names: [&[u8]; 8] = [b"", b"-a", b"1a", b"a b", b"a-b", b"\xc3\xa9", b"a\xff", &long];
            *bytes = rng.pick(&names).to_vec();
        }
        0x71 | 0x75 | 0x7a | 0x7b if rng.chance(25) => bytes.push(0),
        0x71 | 0x75 => *bytes = ((1_u64 << 53) - 2 + rng.below(4) as u64).to_be_bytes().to_vec(),
        0x7a | 0x7b => {
            let digits = 999_999_999_999_998 + rng.below(4) as u64;
            *bytes = [digits.to_be_bytes().to_vec(), vec![rng.within(14, 17) as u8]].concat();
        }
        0x72 => *bytes = vec![rng.below(4) as u8; rng.below(3)],
        0x13 | 0x73 | 0x78 | 0x83 => bytes.push(0),
        _ => bad_text(rng, bytes),
    }
}

/// Where each field begins and ends in the list of parts.
fn ranges(parts: &[Part]) -> Vec<(usize, usize)> {
    let mut open = vec![];
    let mut fields = vec![];
    for (at, part) in parts.iter().enumerate() {
        match part {
            Part::Open(_) => open.push(at),
            Part::Close => fields.push((open.pop().expect("what ends has begun"), at + 1)),
            _ => {}
        }
    }
    fields
}
