//! Templates and a page out that belong together, or nearly.

use super::parts;
use super::strings::strings;
use super::transformed;
use crate::generate::rng::Rng;
use crate::outs::page::{self, Part};
use crate::outs::templates::{self, ATTRIBUTE, CHILD, Template};
use crate::outs::{Layout, convert::MOST_OLD_NUMBER};

#[derive(Clone, Debug, PartialEq, Eq)]
pub struct Pair {
    pub templates: Vec<Template>,
    pub parts: Vec<Part>,
}

/// Whose numbers a pair has.
#[derive(Clone, Copy, Debug, PartialEq, Eq)]
pub enum Numbers {
    /// 1 up to the count, each recorded once and called once.
    Proper,
    /// The same but for one of them.
    NearlyProper,
    /// Any, some twice, some out of the range of two bytes.
    Any,
}

impl Pair {
    pub fn written(&self, layout: Layout) -> Option<(Vec<u8>, Vec<u8>)> {
        templates::write(&self.templates, layout).zip(page::write(&self.parts, layout))
    }
}

/// Of a hundred, 30 are made by the transform's judge, where the Rust is there.
pub fn pair(rng: &mut Rng) -> Pair {
    if rng.chance(30)
        && let Some(mut pair) = transformed::pair(rng)
    {
        pair.templates.iter_mut().for_each(|template| other_kind(rng, template));
        return pair;
    }
    let numbers = [Numbers::Proper, Numbers::NearlyProper, Numbers::Any][rng.weighted(&[60, 10, 30])];
    let holders = [0, 3, 8, 30][rng.weighted(&[10, 40, 40, 10])];
    made(rng, numbers, holders)
}

/// By hand, off the transform's image.
pub fn made(rng: &mut Rng, numbers: Numbers, holders: usize) -> Pair {
    let parts = if rng.chance(6) { vec![] } else { parts::page(rng, holders) };
    let calls = page::called(&parts).len();
    let count = if numbers == Numbers::Any { rng.below(6) } else { calls };
    let templates = (0..count).map(|_| template(rng)).collect();
    numbered(rng, Pair { templates, parts }, numbers)
}

pub fn template(rng: &mut Rng) -> Template {
    let gaps = [0, rng.within(1, 3), rng.within(4, 12), rng.within(250, 300)][rng.weighted(&[300, 560, 135, 5])];
    let misfits = if rng.chance(4) { 300 } else { 0 };
    let strings = strings(rng, gaps, misfits);
    let kinds = templates::kinds(&strings).unwrap_or_else(|| vec![CHILD; gaps]);
    let mut template = Template { number: 0, kinds, strings };
    other_kind(rng, &mut template);
    template
}

/// Another kind for one of its gaps, now and then.
fn other_kind(rng: &mut Rng, template: &mut Template) {
    let kinds = &mut template.kinds;
    if !kinds.is_empty() && rng.chance(2) {
        let at = rng.below(kinds.len());
        kinds[at] = if rng.chance(80) { ATTRIBUTE + CHILD - kinds[at] } else { [0, 3, 255][rng.below(3)] };
    }
}

fn numbered(rng: &mut Rng, mut pair: Pair, numbers: Numbers) -> Pair {
    let count = pair.templates.len();
    let proper = |rng: &mut Rng| shuffled(rng, (1..=count as u32).collect());
    let (mut recorded, mut called) = match numbers {
        Numbers::Any => {
            let calls = page::called(&pair.parts).len();
            let few: Vec<u32> = (0..3).map(|_| any_number(rng)).collect();
            let mut draw = |count: usize| (0..count).map(|_| few[rng.below(few.len())]).collect::<Vec<u32>>();
            (draw(count), draw(calls))
        }
        _ => (proper(rng), proper(rng)),
    };
    if numbers == Numbers::NearlyProper && count > 0 {
        let at = rng.below(count);
        let wrong = [0, count as u32 + 1, recorded[(at + 1) % count], u32::MAX][rng.below(4)];
        match rng.below(3) {
            0 => recorded[at] = wrong,
            1 => called[at] = wrong,
            _ => (recorded[at], called[at]) = (wrong, wrong),
        }
    }
    set_numbers(&mut pair, &recorded, &called);
    pair
}

pub fn set_numbers(pair: &mut Pair, recorded: &[u32], called: &[u32]) {
    pair.templates.iter_mut().zip(recorded).for_each(|(template, number)| template.number = *number);
    let mut called = called.iter();
    for part in &mut pair.parts {
        if let Part::Number(number) = part {
            *number = *called.next().expect("a number for each call");
        }
    }
}

fn any_number(rng: &mut Rng) -> u32 {
    const NEAR: u32 = MOST_OLD_NUMBER;
    let of = [0, 1, 2, 3, 255, 256, NEAR - 1, NEAR, NEAR, NEAR + 1, 1 << 24, u32::MAX];
    // Those with more than two bytes are refused on the way down, and cut to two on the way up.
    if rng.chance(85) { of[rng.below(9)] } else { of[rng.below(of.len())] }
}

fn shuffled(rng: &mut Rng, mut numbers: Vec<u32>) -> Vec<u32> {
    if rng.chance(70) {
        (1..numbers.len()).for_each(|at| numbers.swap(at, rng.below(at + 1)));
    }
    numbers
}
