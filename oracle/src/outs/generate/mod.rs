//! From a seed a call over templates out and page out: whole ones of the transform's judge and by hand, damaged copies,
//! nests and bodies at the limits.

pub mod damage;
pub mod history;
pub mod long;
pub mod order;
pub mod pair;
pub mod parts;
pub mod strings;
pub mod transformed;

use super::convert::{Outs, Way};
use super::{Layout, Read};
use crate::generate::rng::Rng;
use crate::generate::{Room, room};
use pair::{Pair, pair};

/// One call of `upgrade` or `downgrade`, but for the bytes that are lent.
#[derive(Clone, Debug)]
pub struct ConvertCase {
    pub way: Way,
    pub templates: Vec<u8>,
    pub page: Vec<u8>,
    pub templates_room: Room,
    pub page_room: Room,
}

impl ConvertCase {
    /// The lengths of both outs. Where the call is refused anyway there are a few bytes to be cleared.
    pub fn lent(&self, outcome: &Read<Outs>) -> (usize, usize) {
        let (templates, page) = outcome.as_ref().map_or((40, 40), |outs| (outs.templates.len(), outs.page.len()));
        (self.templates_room.bytes(templates), self.page_room.bytes(page))
    }
}

pub fn convert_case(seed: u64) -> ConvertCase {
    let rng = &mut Rng::new(seed);
    let way = if rng.chance(50) { Way::Up } else { Way::Down };
    let (templates, page) = outs(rng, way.layouts().0);
    ConvertCase { way, templates, page, templates_room: room(rng), page_room: room(rng) }
}

/// Both outs in this layout.
pub fn outs(rng: &mut Rng, layout: Layout) -> (Vec<u8>, Vec<u8>) {
    // In ten thousandths: at a limit, a few bytes, and the usual.
    match rng.weighted(&[120, 300, 9580]) {
        0 => written(long::pair(rng, layout), layout),
        1 => (tiny(rng, layout.template_tag()), tiny(rng, 0x12)),
        _ => usual(rng, layout),
    }
}

/// Of a hundred, 60 are whole, 18 have a field damaged, 20 bytes; 2 are in the other layout.
fn usual(rng: &mut Rng, layout: Layout) -> (Vec<u8>, Vec<u8>) {
    let mut pair = pair(rng);
    let kind = rng.weighted(&[60, 18, 20, 2]);
    if kind == 1 {
        damage::fields(rng, &mut pair);
    }
    let other = if layout == Layout::New { Layout::Old } else { Layout::New };
    let (mut templates, mut page) = written(pair, if kind == 3 { other } else { layout });
    if kind == 2 {
        let out = if rng.chance(45) { &mut templates } else { &mut page };
        damage::bytes(rng, out);
    }
    (templates, page)
}

/// What is too long for a length is left out.
fn written(pair: Pair, layout: Layout) -> (Vec<u8>, Vec<u8>) {
    let Pair { templates, parts } = pair;
    let templates = super::templates::write(&templates, layout).unwrap_or_default();
    (templates, super::page::write(&parts, layout).unwrap_or_default())
}

/// A few bytes, most of them tags and small lengths.
fn tiny(rng: &mut Rng, first: u8) -> Vec<u8> {
    let byte = |rng: &mut Rng| match rng.below(10) {
        0..6 => [0, 0, 0, 1, 2, 3, 4, 6][rng.below(8)],
        6..9 => damage::tag(rng),
        _ => rng.draw() as u8,
    };
    let mut out: Vec<u8> = (0..rng.below(14)).map(|_| byte(rng)).collect();
    if out.len() >= 3 && rng.chance(60) {
        let length = out.len() as u8 - 3;
        out[..3].copy_from_slice(&[first, 0, length]);
    }
    out
}

/// One call of `find`.
#[derive(Clone, Debug)]
pub struct FindCase {
    pub templates: Vec<u8>,
    pub numbers: Vec<u32>,
}

pub fn find_case(seed: u64) -> FindCase {
    let rng = &mut Rng::new(seed ^ 0x11);
    // Many records now and then, so that a place is far and numbers stand twice.
    let templates = if rng.chance(5) {
        let templates: Vec<_> = (0..rng.within(100, 400)).map(|_| numbered(rng, 500)).collect();
        super::templates::write(&templates, Layout::New).expect("short strings")
    } else {
        recorded(rng)
    };
    let recorded: Vec<u32> = super::templates::read(&templates, Layout::New)
        .map_or(vec![], |templates| templates.iter().map(|template| template.number).collect());
    FindCase { templates, numbers: order::asked(rng, &recorded) }
}

/// Templates out of a pair. Many pairs have none; most of these get some.
fn recorded(rng: &mut Rng) -> Vec<u8> {
    let (templates, _) = outs(rng, Layout::New);
    if !templates.is_empty() || rng.chance(10) {
        return templates;
    }
    let mut templates: Vec<_> = (0..rng.within(1, 6)).map(|_| pair::template(rng)).collect();
    for template in &mut templates {
        template.number = rng.below(40) as u32;
    }
    super::templates::write(&templates, Layout::New).expect("short strings")
}

/// A short template with a number below this.
fn numbered(rng: &mut Rng, most: usize) -> super::templates::Template {
    let strings = vec![vec![b's'; rng.below(4)]];
    super::templates::Template { number: rng.below(most) as u32, kinds: vec![], strings }
}

/// One call of `fill`, but for the bytes that are lent.
#[derive(Clone, Debug)]
pub struct FillCase {
    pub templates: Vec<u8>,
    pub order: Vec<u8>,
    pub room: Room,
}

impl FillCase {
    pub fn lent(&self, outcome: &Read<Vec<u8>>) -> usize {
        self.room.bytes(outcome.as_ref().map_or(40, Vec::len))
    }
}

pub fn fill_case(seed: u64) -> FillCase {
    let rng = &mut Rng::new(seed ^ 0x8888);
    let templates = recorded(rng);
    let order = order::order(rng, &super::templates::read(&templates, Layout::New).unwrap_or_default());
    FillCase { templates, order, room: room(rng) }
}
