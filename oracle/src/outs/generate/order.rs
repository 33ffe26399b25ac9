//! What is asked of templates: orders for `fill`, numbers for `find`.

use super::damage;
use crate::answer::MOST_DEPTH;
use crate::field::{begin, finish};
use crate::generate::rng::Rng;
use crate::outs::fill::{ATTRIBUTE_TEXT, ORDER, PLAIN_TEXT};
use crate::outs::find::MOST_NUMBERS;
use crate::outs::templates::{ATTRIBUTE, Template};

const ATTRIBUTES: [&str; 8] = ["", "a", "class=\"x\"", " ", "/", "a=\"&lt;\" b", "\u{e9}", "disabled"];
const TEXTS: [&str; 10] = ["", "a", "Hi", "<b>", "&", "'", "\"", "a > b & c < d", "\u{1f600}", "&amp;"];

/// An order for one of the templates. Of a hundred, 60 fit, 20 have a filling that does not, 5 are around the deepest, 10
/// are damaged, 5 are none.
pub fn order(rng: &mut Rng, templates: &[Template]) -> Vec<u8> {
    let kind = rng.weighted(&[60, 20, 5, 10, 5]);
    let depth = if kind == 2 { rng.within(MOST_DEPTH - 3, MOST_DEPTH) } else { rng.below(4) };
    let mut orders = Orders { rng, templates, misses: if kind == 1 { 15 } else { 0 }, out: vec![] };
    orders.order(1, depth + 1);
    let Orders { rng, mut out, .. } = orders;
    match kind {
        3 => damage::bytes(rng, &mut out),
        4 => match rng.below(4) {
            0 => out.clear(),
            1 => out.extend([0x85, 0, 4, 0, 0, 0, 1]),
            2 => out.push(rng.draw() as u8),
            _ => out[0] = damage::tag(rng),
        },
        _ => {}
    }
    out
}

struct Orders<'a> {
    rng: &'a mut Rng,
    templates: &'a [Template],
    /// Of a hundred choices, so many do not fit.
    misses: usize,
    out: Vec<u8>,
}

impl Orders<'_> {
    fn misses(&mut self) -> bool {
        self.rng.chance(self.misses)
    }

    /// At this depth, with orders in it down to `deepest`.
    fn order(&mut self, depth: usize, deepest: usize) {
        // Where others are to lie in it, one with a gap for a child.
        let deeper = |template: &&Template| depth >= deepest || template.kinds.iter().any(|kind| *kind != ATTRIBUTE);
        let fitting: Vec<&Template> = self.templates.iter().filter(deeper).collect();
        let of = if fitting.is_empty() { self.templates.iter().collect() } else { fitting };
        let template = if of.is_empty() { None } else { Some(of[self.rng.below(of.len())]) };
        let number = template.map_or(1, |template| template.number);
        let number = if self.misses() { [0, 7, number ^ 1, number << 16, u32::MAX][self.rng.below(5)] } else { number };
        let mut kinds = template.map_or(vec![], |template| template.kinds.clone());
        if self.misses() {
            match self.rng.below(2) {
                0 => drop(kinds.pop()),
                _ => kinds.push(self.rng.within(1, 2) as u8),
            }
        }
        let at = begin(&mut self.out, ORDER);
        self.out.extend(number.to_be_bytes());
        let children: Vec<usize> = (0..kinds.len()).filter(|gap| kinds[*gap] != ATTRIBUTE).collect();
        let inner = if children.is_empty() { None } else { Some(children[self.rng.below(children.len())]) };
        for (gap, kind) in kinds.iter().enumerate() {
            if self.out.len() > 20_000 {
                break;
            }
            let attribute = (*kind == ATTRIBUTE) != self.misses();
            if !attribute && depth < deepest && (inner == Some(gap) || self.rng.chance(10)) {
                self.order(depth + 1, if inner == Some(gap) { deepest } else { depth + 1 });
            } else {
                self.text(attribute);
            }
        }
        finish(&mut self.out, at);
    }

    fn text(&mut self, attribute: bool) {
        let at = begin(&mut self.out, if attribute { ATTRIBUTE_TEXT } else { PLAIN_TEXT });
        let text = if attribute { self.rng.pick(&ATTRIBUTES) } else { self.rng.pick(&TEXTS) };
        self.out.extend(text.bytes());
        if attribute && self.misses() {
            self.out.push([b'<', b'>'][self.rng.below(2)]);
        }
        finish(&mut self.out, at);
    }
}

/// Numbers to look up: mostly rising, some recorded and some absent, up to 256 and a little over.
pub fn asked(rng: &mut Rng, recorded: &[u32]) -> Vec<u32> {
    let count =
        [rng.below(4), rng.within(4, 20), rng.within(MOST_NUMBERS - 2, MOST_NUMBERS + 2)][rng.weighted(&[60, 30, 10])];
    let recorded_in = [100, 70, 20][rng.below(3)];
    let mut numbers: Vec<u32> = (0..count)
        .map(|_| match recorded {
            [_, ..] if rng.chance(recorded_in) => recorded[rng.below(recorded.len())],
            _ if rng.chance(50) => rng.below(1_000) as u32,
            _ => [0, 1, 65_535, 65_536, u32::MAX - 1, u32::MAX][rng.below(6)],
        })
        .collect();
    numbers.sort();
    numbers.dedup();
    // Filled up again at the end, so that there are as many as were drawn.
    while count > 20 && numbers.len() < count {
        let next = numbers.last().map_or(0, |last| last.wrapping_add(1));
        numbers.push(next);
        numbers.sort();
        numbers.dedup();
        if next == 0 {
            break;
        }
    }
    if numbers.len() > 1 && rng.chance(12) {
        let at = rng.within(1, numbers.len() - 1);
        if rng.chance(50) { numbers[at] = numbers[at - 1] } else { numbers.swap(at - 1, at) }
    }
    numbers
}
