//! Random options that meet the grammar of 01.

use super::names;
use super::rng::Rng;
use super::texts;
use crate::answer::MOST_OPTIONS;
use crate::field::{begin, finish};
use crate::make::sums;

/// Options; the listed names are drawn from `few` where it is given, so that the page's names are met.
pub fn options(rng: &mut Rng, few: Option<&[String]>) -> Vec<u8> {
    let mut out = vec![];
    let (elements, attributes) = if few.is_some() { (50, 85) } else { (15, 15) };
    if rng.chance(elements) {
        list(rng, &mut out, 0x02, few);
    }
    if rng.chance(attributes) {
        list(rng, &mut out, 0x03, few);
    }
    if rng.chance(25) {
        source(rng, &mut out);
    }
    if rng.chance(40) {
        out.extend(sums());
    }
    out
}

fn list(rng: &mut Rng, out: &mut Vec<u8>, tag: u8, few: Option<&[String]>) {
    let at = begin(out, tag);
    for _ in 0..rng.weighted(&[8, 50, 30, 12]) {
        let inner = begin(out, 0x20);
        match few {
            Some(few) if rng.chance(80) => out.extend(few[rng.below(few.len())].bytes()),
            _ => match rng.below(4) {
                0 => out.extend(names::tag(rng).bytes()),
                1 => out.extend(names::attribute(rng).bytes()),
                2 => out.extend(names::namespaced(rng).join(":").to_lowercase().bytes()),
                _ => texts::text(rng, out, 20),
            },
        }
        finish(out, inner);
    }
    finish(out, at);
}

fn source(rng: &mut Rng, out: &mut Vec<u8>) {
    let at = begin(out, 0x04);
    out.extend(rng.pick(&["preact", "npm:preact@10", "\u{65e5}", "\"", "react", "a\nb\\"]).bytes());
    finish(out, at);
}

/// Options of exactly `length` bytes, where they have room for an import source and a 05.
pub fn padded(rng: &mut Rng, length: usize) -> Vec<u8> {
    let mut out = vec![];
    list(rng, &mut out, 0x02, None);
    if out.len() + 7 > length || length > MOST_OPTIONS + 2 {
        return out;
    }
    let more = if rng.chance(50) { sums() } else { vec![] };
    let at = begin(&mut out, 0x04);
    out.resize(length - more.len(), b's');
    finish(&mut out, at);
    [out, more].concat()
}
