//! From a seed a tag text and the bytes that are lent: whole texts with every production, near misses, damaged copies,
//! deep nests, and texts at each limit.

mod damage;
mod limits;
mod text;

use super::Outcome;
use crate::generate::rng::Rng;
use crate::generate::{Room, room};
use text::Text;

/// One call, but for the bytes that are lent, which depend on what the text gives.
#[derive(Clone, Debug)]
pub struct TagCase {
    pub text: Vec<u8>,
    pub room: Room,
}

impl TagCase {
    /// How many bytes are lent. A text that is refused anyway gets a few to be cleared.
    pub fn lent(&self, outcome: &Outcome) -> usize {
        self.room.bytes(outcome.as_ref().map_or(40, Vec::len))
    }
}

pub fn case(seed: u64) -> TagCase {
    let mut rng = Rng::new(seed);
    let text = text(&mut rng);
    TagCase { text, room: room(&mut rng) }
}

fn text(rng: &mut Rng) -> Vec<u8> {
    // In ten thousandths: at a limit of length, deep, with many fields, a few signs, and the usual.
    match rng.weighted(&[40, 250, 50, 500, 9160]) {
        0 => limits::length(rng),
        1 => limits::nest(rng),
        2 => limits::body(rng),
        3 => signs(rng),
        _ => usual(rng),
    }
}

/// A text by the grammar. Of a hundred, 45 are whole, 20 have a closing name changed now and then, 20 have near misses,
/// 15 are damaged.
fn usual(rng: &mut Rng) -> Vec<u8> {
    let bytes = [20, 60, 200, 800, 4000][rng.weighted(&[25, 35, 28, 11, 1])];
    let kind = rng.weighted(&[45, 20, 20, 15]);
    let (names, misses) = match kind {
        1 => (120, 0),
        2 => (0, 60),
        _ => (0, 0),
    };
    let text = Text::new(rng, bytes, names, misses).written();
    if kind == 3 { damage::damaged(rng, text) } else { text }
}

/// A few signs in any order.
fn signs(rng: &mut Rng) -> Vec<u8> {
    const SIGNS: [&str; 30] = [
        "<", "<", ">", ">", "/", "/", "a", "b", " ", "\n", "{", "}", "...", ".", ":", "=", "\"", "'", "-", "0", "1",
        "&", "&lt;", ";", "</a>", "<a>", "<>", "</>", "\\", "é",
    ];
    let mut out = String::from(if rng.chance(80) { "<" } else { "" });
    (0..rng.below(16)).for_each(|_| out += SIGNS[rng.below(SIGNS.len())]);
    out.into_bytes()
}
