//! Outs at the limits: nests as deep as a body has room for, bodies around 65,535 bytes, thousands of gaps.

use super::pair::{Pair, set_numbers, template};
use super::parts::{expression, leaf};
use super::strings::strings;
use crate::answer::MOST_BODY;
use crate::generate::rng::Rng;
use crate::outs::Layout;
use crate::outs::page::{self, Part};
use crate::outs::templates::{self, Template};

/// What stands before and behind one expression so that they are one expression, and its bytes but for numbers.
fn around(which: usize) -> (Vec<Part>, Vec<Part>) {
    let name = || leaf(0x81, b"n").to_vec();
    let open = |tag: u8| vec![Part::Open(tag)];
    let close = || vec![Part::Close];
    match which {
        0 => (open(0x76), close()),
        1 => (open(0x79), close()),
        2 => (open(0x92), close()),
        3 => ([open(0x76), open(0x77)].concat(), [close(), close()].concat()),
        4 => (vec![Part::Open(0x90), Part::Number(1)], close()),
        5 => ([open(0x91), name()].concat(), close()),
        6 => (open(0x93), [name(), close()].concat()),
        7 => {
            let front = [open(0x94), name(), open(0x95), open(0x96), name()].concat();
            (front, [close(), close(), close()].concat())
        }
        _ => {
            let front = [open(0x94), name(), leaf(0x73, b"").to_vec()].concat();
            (front, close())
        }
    }
}

const WAYS: usize = 9;

fn bytes(parts: &[Part], layout: Layout) -> usize {
    parts
        .iter()
        .map(|part| match part {
            Part::Open(_) => 3,
            Part::Number(_) => layout.number_bytes(),
            Part::Bytes(bytes) => bytes.len(),
            Part::Close => 0,
        })
        .sum()
}

/// One item, its expressions within each other until its body is full in this layout, with up to so many bytes left.
pub fn nest(rng: &mut Rng, layout: Layout) -> Vec<Part> {
    let one_way = rng.chance(50).then(|| rng.below(WAYS));
    let most = if rng.chance(70) { MOST_BODY - rng.below(4) } else { rng.within(300, 20_000) };
    // An empty array is the shortest that holds nothing.
    let inner = if rng.chance(60) { leaf(0x76, b"").to_vec() } else { expression(rng, 3) };
    let mut left = most.saturating_sub(bytes(&inner, layout));
    let (mut front, mut back) = (vec![Part::Open(0x12)], vec![]);
    loop {
        let (before, behind) = around(one_way.unwrap_or_else(|| rng.below(WAYS)));
        let size = bytes(&before, layout) + bytes(&behind, layout);
        if size > left {
            break;
        }
        left -= size;
        front.extend(before);
        back.push(behind);
    }
    front.extend(inner);
    back.into_iter().rev().for_each(|behind| front.extend(behind));
    front.push(Part::Close);
    front
}

/// Four for a full body, else a few more or less.
fn near(rng: &mut Rng) -> usize {
    if rng.chance(50) { 4 } else { rng.below(9) }
}

/// A page out whose item is full, or nearly, in this layout, by a long source beside some calls.
fn full_item(rng: &mut Rng, layout: Layout) -> Vec<Part> {
    let calls: Vec<Part> = (0..rng.within(1, 6)).flat_map(|_| expression(rng, 6)).collect();
    let left = MOST_BODY + near(rng) - 4 - bytes(&calls, layout) - 3;
    let source = leaf(0x20, vec![b's'; left.min(MOST_BODY)]);
    [vec![Part::Open(0x12)], calls, source.to_vec(), vec![Part::Close]].concat()
}

/// A template whose body is full, or nearly, in this layout: by one long string, or by its gaps.
fn full_template(rng: &mut Rng, layout: Layout) -> Template {
    let gaps =
        if rng.chance(50) { rng.below(4) } else { [2_000, 10_001, 13_000, 16_381, 16_382, 21_843][rng.below(6)] };
    let mut strings = strings(rng, gaps, 0);
    if gaps > 1_000 {
        strings.iter_mut().for_each(Vec::clear);
        strings[0].extend(rng.pick(&[&b""[..], b"< ", b"<p "]));
    }
    let front = if layout == Layout::New { 6 + gaps } else { 2 };
    let used: usize = strings.iter().map(|string| 3 + string.len()).sum();
    let left = (MOST_BODY + near(rng)).saturating_sub(4 + front + used);
    // Many gaps make a body full by themselves, or grow it far when it is converted.
    let left = if gaps > 1_000 && rng.chance(50) { left.min(20) } else { left };
    strings.last_mut().expect("at least one").extend(vec![b's'; left]);
    let kinds = templates::kinds(&strings).expect("strings without a misfit");
    Template { number: 1, kinds, strings }
}

/// In this layout, mostly.
pub fn pair(rng: &mut Rng, layout: Layout) -> Pair {
    let measured = if rng.chance(70) { layout } else { [Layout::Old, Layout::New][rng.below(2)] };
    let mut pair = match rng.weighted(&[35, 25, 30, 10]) {
        0 => Pair { templates: vec![], parts: nest(rng, measured) },
        1 => Pair { templates: vec![], parts: full_item(rng, measured) },
        2 => Pair { templates: vec![full_template(rng, measured)], parts: vec![] },
        _ => Pair { templates: vec![full_template(rng, measured)], parts: full_item(rng, measured) },
    };
    let calls = page::called(&pair.parts).len();
    if pair.templates.is_empty() && rng.chance(50) {
        pair.templates = (0..calls.min(3)).map(|_| template(rng)).collect();
    }
    let numbers: Vec<u32> = (1..=calls.max(pair.templates.len()) as u32).collect();
    set_numbers(&mut pair, &numbers, &numbers);
    pair
}
