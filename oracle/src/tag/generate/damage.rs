//! Damaged copies: a text changed in one or two places.

use crate::generate::damage::BAD_TEXTS;
use crate::generate::rng::Rng;

const SIGNS: &[u8] = b"<>{}/=\"'&;.:-_$ \t\n\r`\\[0a\0\x7f";

pub fn damaged(rng: &mut Rng, mut text: Vec<u8>) -> Vec<u8> {
    for _ in 0..rng.within(1, 2) {
        damage(rng, &mut text);
    }
    text
}

fn damage(rng: &mut Rng, text: &mut Vec<u8>) {
    let at = rng.below(text.len() + 1);
    let sign = SIGNS[rng.below(SIGNS.len())];
    match rng.below(9) {
        0 => text.truncate(at),
        1 => text.insert(at, sign),
        2 => {
            let bad = BAD_TEXTS[rng.below(BAD_TEXTS.len())];
            text.splice(at..at, bad.iter().copied());
        }
        3 => text.push(sign),
        _ if at == text.len() => {}
        4 => {
            text.remove(at);
        }
        5 => text[at] = sign,
        6 => text[at] = rng.draw() as u8,
        7 => {
            let end = at + rng.below((text.len() - at).min(12) + 1);
            text.drain(at..end);
        }
        _ => {
            let end = at + rng.below((text.len() - at).min(12) + 1);
            let copy = text[at..end].to_vec();
            text.splice(at..at, copy);
        }
    }
}
