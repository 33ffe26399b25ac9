//! All short outs: all byte strings of a few bytes, all page outs of a few fields, all templates of a few signs.

use super::Layout;
use super::page::{self, Part};
use crate::field::{begin, finish};

/// Every byte string of at most so many bytes.
pub fn bytes(most: usize, each: &mut impl FnMut(&[u8])) {
    let mut out: Vec<u8> = vec![];
    loop {
        each(&out);
        match out.iter().rposition(|byte| *byte < 0xff) {
            Some(at) => {
                out[at] += 1;
                out[at + 1..].fill(0);
            }
            None if out.len() == most => return,
            None => out = vec![0; out.len() + 1],
        }
    }
}

/// Fields with these tags, within each other or beside each other, and the tags of what stands around them.
pub struct Family {
    pub name: &'static str,
    pub around: &'static [u8],
    pub tags: &'static [u8],
    /// How many fields there are at the most, where they stand beside each other and where they may also nest.
    pub most_flat: usize,
    pub most: usize,
}

const fn family(name: &'static str, around: &'static [u8], tags: &'static [u8], most: (usize, usize)) -> Family {
    Family { name, around, tags, most_flat: most.0, most: most.1 }
}

/// Every field of a page out, and two of a page.
const ALL: &[u8] = &[
    0x10, 0x11, 0x12, 0x13, 0x20, 0x30, 0x40, 0x41, 0x42, 0x53, 0x70, 0x71, 0x72, 0x73, 0x74, 0x75, 0x76, 0x77, 0x78,
    0x79, 0x7a, 0x7b, 0x81, 0x82, 0x83, 0x90, 0x91, 0x92, 0x93, 0x94, 0x95, 0x96,
];

pub const FAMILIES: &[Family] = &[
    family("all", &[], ALL, (3, 3)),
    family("all in a statement", &[0x12], ALL, (3, 2)),
    family("all in a call", &[0x12, 0x94], ALL, (3, 3)),
    family("all in an array", &[0x11, 0x76], ALL, (3, 2)),
    family("items", &[], &[0x82, 0x83, 0x10, 0x11, 0x12, 0x13], (7, 3)),
    family("import", &[0x82], &[0x81, 0x20], (3, 3)),
    family("arrays", &[0x12], &[0x76, 0x77, 0x78, 0x79, 0x20, 0x73], (5, 5)),
    family("calls of templates", &[0x12], &[0x90, 0x91, 0x92, 0x93, 0x81, 0x73], (5, 5)),
    family("calls", &[0x12], &[0x94, 0x81, 0x40, 0x41, 0x73, 0x95, 0x96, 0x53], (5, 4)),
    family("props", &[0x12, 0x94], &[0x81, 0x40, 0x73, 0x95, 0x96, 0x53], (6, 5)),
    family("members", &[0x12, 0x94], &[0x40, 0x41, 0x73], (6, 6)),
];

impl Family {
    /// Every page out of these; a leaf that holds others has their bytes as its body.
    pub fn pages(&self, layout: Layout, each: &mut impl FnMut(&[u8])) {
        for count in 0..=self.most_flat.max(self.most) {
            for shape in shapes(count, count <= self.most) {
                self.with_tags(&shape, layout, each);
            }
        }
    }

    fn with_tags(&self, shape: &[bool], layout: Layout, each: &mut impl FnMut(&[u8])) {
        let mut tags = vec![0; shape.len() / 2];
        loop {
            each(&self.written(shape, &tags, layout));
            match tags.iter().rposition(|tag| tag + 1 < self.tags.len()) {
                Some(at) => {
                    tags[at] += 1;
                    tags[at + 1..].fill(0);
                }
                None => return,
            }
        }
    }

    fn written(&self, shape: &[bool], tags: &[usize], layout: Layout) -> Vec<u8> {
        let mut parts: Vec<Part> = vec![];
        let mut open = vec![];
        let mut left = tags.iter();
        let begin = |tag: u8, parts: &mut Vec<Part>, open: &mut Vec<u8>| {
            parts.push(Part::Open(tag));
            parts.push(front(tag));
            open.push(tag);
        };
        let end = |parts: &mut Vec<Part>, open: &mut Vec<u8>| {
            if open.pop() == Some(0x82) {
                parts.push(Part::Bytes(vec![1]));
            }
            parts.push(Part::Close);
        };
        self.around.iter().for_each(|tag| begin(*tag, &mut parts, &mut open));
        for opens in shape {
            match opens {
                true => begin(self.tags[*left.next().expect("a tag for each field")], &mut parts, &mut open),
                false => end(&mut parts, &mut open),
            }
        }
        self.around.iter().for_each(|_| end(&mut parts, &mut open));
        page::write(&parts, layout).expect("a few fields")
    }
}

/// What a field begins with so that it can stand alone.
fn front(tag: u8) -> Part {
    match tag {
        0x40 => Part::Bytes(b"a".to_vec()),
        0x71 | 0x75 => Part::Bytes(vec![0; 8]),
        0x72 => Part::Bytes(vec![0]),
        0x7a | 0x7b => Part::Bytes(vec![0; 9]),
        0x90 => Part::Number(1),
        _ => Part::Bytes(vec![]),
    }
}

/// All ways in which so many fields can stand: a field begins (true) or ends; all beside each other, or nested too.
fn shapes(count: usize, nested: bool) -> Vec<Vec<bool>> {
    if !nested {
        return vec![[true, false].repeat(count)];
    }
    let mut shapes = vec![];
    for bits in 0..1_u32 << (2 * count) {
        let shape: Vec<bool> = (0..2 * count).map(|at| bits >> at & 1 == 1).collect();
        let mut open = 0_i32;
        let fits = shape.iter().all(|opens| {
            open += if *opens { 1 } else { -1 };
            open >= 0
        });
        if fits && open == 0 {
            shapes.push(shape);
        }
    }
    shapes
}

/// What a template's body may have behind its number: counts, kinds, strings, and what is none.
const SIGNS: [&[u8]; 12] = [
    &[0],
    &[1],
    &[2],
    &[3],
    &[0, 0],
    &[0, 1, 1],
    &[0, 1, 2],
    &[0x81, 0, 0],
    &[0x81, 0, 1, b'<'],
    &[0x81, 0, 2, b'>', b' '],
    &[0x81, 0, 1, 0xff],
    &[0x80, 0, 0],
];

/// Every template of at most so many signs behind its number.
pub fn templates(most: usize, layout: Layout, each: &mut impl FnMut(&[u8])) {
    let mut signs: Vec<usize> = vec![];
    loop {
        let mut out = vec![];
        let at = begin(&mut out, layout.template_tag());
        layout.write_number(&mut out, 1);
        signs.iter().for_each(|sign| out.extend(SIGNS[*sign]));
        finish(&mut out, at);
        each(&out);
        match signs.iter().rposition(|sign| sign + 1 < SIGNS.len()) {
            Some(at) => {
                signs[at] += 1;
                signs[at + 1..].fill(0);
            }
            None if signs.len() == most => return,
            None => signs = vec![0; signs.len() + 1],
        }
    }
}

/// Every row of static strings of at most so many signs; `|` parts them.
pub fn strings(most: usize, each: &mut impl FnMut(&[Vec<u8>])) {
    const LETTERS: &[u8] = b"<>/ a|";
    let mut signs: Vec<usize> = vec![];
    loop {
        let text: Vec<u8> = signs.iter().map(|sign| LETTERS[*sign]).collect();
        each(&text.split(|letter| *letter == b'|').map(<[u8]>::to_vec).collect::<Vec<_>>());
        match signs.iter().rposition(|sign| sign + 1 < LETTERS.len()) {
            Some(at) => {
                signs[at] += 1;
                signs[at + 1..].fill(0);
            }
            None if signs.len() == most => return,
            None => signs = vec![0; signs.len() + 1],
        }
    }
}
