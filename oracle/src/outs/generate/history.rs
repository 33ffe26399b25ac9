//! Histories of a catalogue: pages that arrive and leave, some of them refused, now and then a catalogue that is not
//! sound.

use super::damage;
use super::pair::{Numbers, Pair, made};
use super::parts::leaf;
use super::transformed;
use crate::generate::rng::Rng;
use crate::outs::page::Part;
use crate::outs::shares::HOUSES;
use crate::outs::templates::Template;
use crate::outs::{Layout, catalogue, page, shares};

#[derive(Clone, Debug, PartialEq, Eq)]
pub enum Call {
    /// House and shares are of no account before A14.
    Add {
        name: u32,
        house: u32,
        shares: Vec<u32>,
        templates: Vec<u8>,
        page: Vec<u8>,
    },
    Remove {
        name: u32,
    },
}

impl Call {
    /// By the judge.
    pub fn judge(&self, housed: bool, bytes: &mut [u8]) -> catalogue::Catalogued {
        match self {
            Call::Add { name, templates, page, .. } if !housed => catalogue::add(bytes, *name, templates, page),
            Call::Add { name, house, shares, templates, page } => {
                shares::add(bytes, *name, *house, shares, templates, page)
            }
            Call::Remove { name } => catalogue::leave(bytes, housed, *name),
        }
    }
}

/// A call, and the change of one byte of the catalogue that it finds, and that is undone behind it.
#[derive(Clone, Debug)]
pub struct Step {
    pub damage: Option<(usize, u8)>,
    pub call: Call,
}

#[derive(Clone, Debug)]
pub struct History {
    pub housed: bool,
    pub catalogue: Vec<u8>,
    pub steps: Vec<Step>,
}

/// The judge's own run of it: before each step the catalogue as it is found, then what the judge made of it.
pub fn run(history: &History, mut each: impl FnMut(&Step, &[u8], &[u8], catalogue::Catalogued)) {
    let mut sound = history.catalogue.clone();
    for step in &history.steps {
        let mut bytes = sound.clone();
        if let Some((at, byte)) = step.damage {
            bytes[at] = byte;
        }
        let before = bytes.clone();
        let answer = step.call.judge(history.housed, &mut bytes);
        each(step, &before, &bytes, answer);
        if step.damage.is_none() {
            sound = bytes;
        }
    }
}

/// Room for several pages with more than 255 templates.
const LARGE: usize = 20_000;

/// A short one, with or without houses.
pub fn history(seed: u64, housed: bool) -> History {
    let rng = &mut Rng::new(seed ^ 0x97_9797);
    let calls = rng.within(4, 24);
    with_calls(rng, housed, calls)
}

/// One with houses of so many calls.
pub fn history_of(seed: u64, calls: usize) -> History {
    with_calls(&mut Rng::new(seed ^ 0x1497_9797), true, calls)
}

fn with_calls(rng: &mut Rng, housed: bool, calls: usize) -> History {
    let length =
        [rng.below(64), rng.within(64, 600), rng.within(600, 5_000), LARGE][rng.weighted(&[150, 450, 390, 10])];
    let mut bytes = vec![0; length];
    if length > 0 && rng.chance(1) {
        bytes[rng.below(length)] = rng.draw() as u8;
    }
    let mut steps = Steps { rng, housed, shares: vec![], names: vec![] };
    steps.shares = steps.shares(length);
    let mut history = History { housed, catalogue: bytes.clone(), steps: vec![] };
    for _ in 0..calls {
        let step = steps.step(&bytes);
        if step.damage.is_none() {
            step.call.judge(housed, &mut bytes);
        }
        history.steps.push(step);
    }
    history
}

struct Steps<'a> {
    rng: &'a mut Rng,
    housed: bool,
    /// Those of most arrivals.
    shares: Vec<u32>,
    /// Asked for so far.
    names: Vec<u32>,
}

impl Steps<'_> {
    fn step(&mut self, catalogue: &[u8]) -> Step {
        let damage = (!catalogue.is_empty() && self.rng.chance(8)).then(|| self.damage(catalogue));
        let call = if self.rng.chance(70) { self.add(catalogue) } else { Call::Remove { name: self.name(80) } };
        Step { damage, call }
    }

    /// A name twice now and then, else a byte, most often where pages stand.
    fn damage(&mut self, catalogue: &[u8]) -> (usize, u8) {
        let (pages, _) = catalogue::row_of(catalogue, self.housed);
        if pages.len() > 1 && self.rng.chance(10) {
            // The lowest byte of the second page's name; its others are most often those of the first.
            return (pages[0].bytes() + 4, pages[0].name as u8);
        }
        let used: usize = pages.iter().map(catalogue::Page::bytes).sum();
        let at = if used > 0 && self.rng.chance(85) { self.rng.below(used) } else { self.rng.below(catalogue.len()) };
        let byte = catalogue[at];
        let other = [byte.wrapping_add(1), byte.wrapping_sub(1), 0, 0x97, self.rng.draw() as u8];
        (at, other[self.rng.below(other.len())])
    }

    /// One that was asked for, in so many of a hundred.
    fn name(&mut self, known: usize) -> u32 {
        if !self.names.is_empty() && self.rng.chance(known) {
            return self.names[self.rng.below(self.names.len())];
        }
        [0, 1, 5, 97, 0x9797_9797, u32::MAX][self.rng.below(6)].wrapping_add(self.rng.below(40) as u32)
    }

    fn add(&mut self, catalogue: &[u8]) -> Call {
        let length = catalogue.len();
        let name = self.name(15);
        self.names.push(name);
        let house = if self.rng.chance(3) {
            [0, 17, 256, 257, u32::MAX][self.rng.below(5)]
        } else if self.rng.chance(80) {
            self.rng.within(1, 3) as u32
        } else {
            self.rng.within(1, HOUSES) as u32
        };
        let shares = if self.rng.chance(90) { self.shares.clone() } else { self.other_shares(length) };
        let (templates, page) = match self.rng.below(100) {
            0..5 => (vec![], self.filling(catalogue)),
            5..40 if length >= LARGE => self.many(),
            _ => self.page(),
        };
        Call::Add { name, house, shares, templates, page }
    }

    /// Of a hundred, 78 are sound, 8 have a wrong number, 14 are damaged.
    fn page(&mut self) -> (Vec<u8>, Vec<u8>) {
        let kind = self.rng.weighted(&[78, 8, 7, 7]);
        let numbers = if kind == 1 { Numbers::NearlyProper } else { Numbers::Proper };
        let transformed = if self.rng.chance(10) { transformed::pair(self.rng) } else { None };
        let holders = [0, 6, 14][self.rng.below(3)];
        let mut pair = transformed.unwrap_or_else(|| made(self.rng, numbers, holders));
        if kind == 2 {
            damage::fields(self.rng, &mut pair);
        }
        let (mut templates, mut page) = pair.written(Layout::New).unwrap_or_default();
        if kind == 3 {
            let out = if self.rng.chance(50) { &mut templates } else { &mut page };
            damage::bytes(self.rng, out);
        }
        (templates, page)
    }

    /// A page out that takes what is free, or one byte more.
    fn filling(&mut self, catalogue: &[u8]) -> Vec<u8> {
        let (_, free) = catalogue::row_of(catalogue, self.housed);
        // The page's own front, and the headers of an item and its source.
        let front = 13 + usize::from(self.housed) + 6;
        let source = (free.len() + self.rng.below(2)).saturating_sub(front).min(60_000);
        let parts = [vec![Part::Open(0x12)], leaf(0x20, vec![b's'; source]).to_vec(), vec![Part::Close]].concat();
        page::write(&parts, Layout::New).expect("a short source")
    }

    /// More templates than a byte can count.
    fn many(&mut self) -> (Vec<u8>, Vec<u8>) {
        let count = self.rng.within(250, 300) as u32;
        let template = |number| Template { number, kinds: vec![], strings: vec![vec![]] };
        let templates: Vec<Template> = (1..=count).rev().map(template).collect();
        let call = |number| [Part::Open(0x90), Part::Number(number), Part::Close];
        let calls = (1..=count).flat_map(call);
        let parts: Vec<Part> = [Part::Open(0x12)].into_iter().chain(calls).chain([Part::Close]).collect();
        Pair { templates, parts }.written(Layout::New).expect("short bodies")
    }

    /// Guarantees that add up to at most the catalogue, most of it for three houses.
    fn shares(&mut self, length: usize) -> Vec<u32> {
        if !self.housed {
            return vec![];
        }
        let mut left = if self.rng.chance(20) { length } else { self.rng.below(length + 1) };
        let mut shares = vec![];
        for house in 1..=HOUSES {
            let most = if house <= 3 { left } else { left / 8 };
            let guaranteed = if house == HOUSES && self.rng.chance(10) { left } else { self.rng.below(most + 1) };
            left -= guaranteed;
            let most = match self.rng.below(4) {
                0 => guaranteed as u32,
                1 => u32::MAX,
                _ => (guaranteed + self.rng.below(length + 1)) as u32,
            };
            shares.extend([guaranteed as u32, most]);
        }
        shares
    }

    /// Others, most of them refused.
    fn other_shares(&mut self, length: usize) -> Vec<u32> {
        let mut shares = self.shares.clone();
        if shares.is_empty() {
            return shares;
        }
        let at = 2 * self.rng.below(HOUSES);
        match self.rng.below(6) {
            0 => drop(shares.pop()),
            1 => shares.push(0),
            2 => shares.clear(),
            3 => shares[at] = shares[at + 1].saturating_add(1),
            4 => (shares[at], shares[at + 1]) = (length as u32 + 1, u32::MAX),
            _ => return self.shares(length),
        }
        shares
    }
}
