//! The seeded generator: from a seed a page, options and the sizes of all that is lent; whole pages and damaged ones,
//! small ones and those at each limit.

pub mod damage;
pub mod decimals;
pub mod long;
pub mod names;
pub mod options;
pub mod page;
pub mod rng;
pub mod sums;
pub mod texts;

use crate::answer::{LEAST_SCRATCH, MOST_DEPTH, MOST_OPTIONS, MOST_PAGE};
use crate::judge::Outcome;
use page::Shape;
use rng::Rng;

/// One call, but for the sizes of the outs, which depend on what the page gives.
#[derive(Clone, Debug)]
pub struct Case {
    pub page: Vec<u8>,
    pub options: Vec<u8>,
    pub scratch: usize,
    pub templates_room: Room,
    pub page_room: Room,
}

/// How much is lent for an out, measured by what would be written.
#[derive(Clone, Copy, Debug, PartialEq, Eq)]
pub enum Room {
    More(usize),
    Exact,
    Less(usize),
    None,
}

impl Room {
    pub fn bytes(self, written: usize) -> usize {
        match self {
            Room::More(by) => written + by,
            Room::Exact => written,
            Room::Less(by) => written.saturating_sub(by),
            Room::None => 0,
        }
    }
}

impl Case {
    /// The lengths of templates out and page out. A page that is refused anyway gets a few bytes to be cleared.
    pub fn outs(&self, outcome: &Outcome) -> (usize, usize) {
        let (templates, page) = match outcome {
            Ok(output) => (output.templates.len(), output.page.len()),
            Err(_) => (40, 40),
        };
        (self.templates_room.bytes(templates), self.page_room.bytes(page))
    }
}

pub fn case(seed: u64) -> Case {
    let mut rng = Rng::new(seed);
    let rng = &mut rng;
    let (page, options) = inputs(rng);
    Case { page, options, scratch: scratch(rng), templates_room: room(rng), page_room: room(rng) }
}

fn inputs(rng: &mut Rng) -> (Vec<u8>, Vec<u8>) {
    // In ten thousandths: at a limit, long outputs, deep, large, tiny, and the usual.
    match rng.weighted(&[30, 20, 200, 140, 200, 9410]) {
        0 => at_limits(rng),
        1 => long::inputs(rng),
        2 => {
            let depth = if rng.chance(85) { rng.within(39, MOST_DEPTH) } else { MOST_DEPTH + 1 };
            let shape = Shape { bytes: 1400, depth, chain: true, few_names: None, repeats: 0, mixed_case: 0 };
            usual(rng, shape)
        }
        3 => {
            let bytes = rng.within(16_000, 32_000);
            let depth = rng.within(6, 20);
            usual(rng, Shape { bytes, depth, chain: false, few_names: None, repeats: 0, mixed_case: 0 })
        }
        4 => (tiny(rng), if rng.chance(50) { vec![] } else { tiny(rng) }),
        _ => {
            let bytes = [60, 150, 400, 1200, 4000][rng.weighted(&[30, 35, 25, 9, 1])];
            let depth = rng.within(4, 18);
            usual(rng, Shape { bytes, depth, chain: false, few_names: None, repeats: 0, mixed_case: 0 })
        }
    }
}

/// A page of the given shape with options; three in ten of them damaged, some of these in a number.
fn usual(rng: &mut Rng, mut shape: Shape) -> (Vec<u8>, Vec<u8>) {
    if rng.chance(48) {
        shape.few_names = Some((0..rng.within(1, 4)).map(|_| few(rng)).collect());
    }
    if rng.chance(22) {
        // In a large page even a few would leave hardly one without.
        shape.repeats = if shape.bytes > 1000 { 1 } else { 45 };
    }
    if rng.chance(9) {
        shape.mixed_case = if shape.bytes > 1000 { 1 } else { 30 };
    }
    let listed = shape.few_names.clone();
    let mut page = page::page(rng, shape);
    let mut options = options::options(rng, listed.as_deref());
    match rng.weighted(&[69, 23, 3, 5]) {
        0 => {}
        1 => page = damage::damaged(rng, &page),
        2 => page = damage::with_number(rng, &page),
        _ => options = damage::damaged(rng, &options),
    }
    (page, options)
}

fn few(rng: &mut Rng) -> String {
    match rng.weighted(&[290, 10, 700]) {
        0 => names::tag(rng),
        1 => names::mixed_case_void(rng),
        _ => names::attribute(rng),
    }
}

/// Lengths within two of the limits of page and options.
fn at_limits(rng: &mut Rng) -> (Vec<u8>, Vec<u8>) {
    let shape =
        Shape { bytes: rng.within(100, 3000), depth: 10, chain: false, few_names: None, repeats: 0, mixed_case: 0 };
    let mut page = page::page(rng, shape);
    let mut given = vec![];
    if rng.chance(50) {
        page = page::padded(page, MOST_PAGE - 2 + rng.below(5));
    } else {
        let length = MOST_OPTIONS - 2 + rng.below(5);
        given = options::padded(rng, length);
    }
    (page, given)
}

/// A few bytes, each likely to be a tag or a small length.
fn tiny(rng: &mut Rng) -> Vec<u8> {
    let likely = [0x00, 0x00, 0x00, 0x01, 0x03, 0x06, 0x12, 0x20, 0x30, 0x31, 0x40, 0x02, 0x04, 0x61];
    let byte = |rng: &mut Rng| if rng.chance(80) { likely[rng.below(likely.len())] } else { rng.draw() as u8 };
    let mut out: Vec<u8> = (0..rng.below(14)).map(|_| byte(rng)).collect();
    if out.len() >= 3 && rng.chance(50) {
        let length = out.len() - 3;
        out[..3].copy_from_slice(&[0x01, 0, length as u8]);
    }
    out
}

fn scratch(rng: &mut Rng) -> usize {
    match rng.weighted(&[960, 10, 10, 5, 5, 10]) {
        0 => LEAST_SCRATCH,
        1 => LEAST_SCRATCH + 1,
        2 => LEAST_SCRATCH - 1,
        3 => LEAST_SCRATCH - 2,
        4 => LEAST_SCRATCH + 2,
        _ => rng.below(70_000),
    }
}

pub fn room(rng: &mut Rng) -> Room {
    match rng.weighted(&[700, 220, 30, 20, 30]) {
        0 => Room::More(rng.below(20)),
        1 => Room::Exact,
        2 => Room::Less(1),
        3 => Room::Less(rng.within(2, 9)),
        _ => Room::None,
    }
}
