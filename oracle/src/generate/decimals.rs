//! Random decimals (02, A2): around powers of ten, at the bounds, with zeros at their end, prices; and bodies that are
//! refused.

use super::rng::Rng;
use crate::decimal::{Decimal, MOST_DIGITS, MOST_PLACES};
use std::sync::LazyLock;

static AROUND_POWERS: LazyLock<Vec<u64>> = LazyLock::new(around_powers);

/// Digits within two of each power of ten up to the bound, which is one below such a power itself.
pub fn around_powers() -> Vec<u64> {
    let around = |power: u32| 10_u64.pow(power).saturating_sub(2)..=10_u64.pow(power) + 2;
    let mut digits: Vec<u64> = (0..=15).flat_map(around).filter(|digits| *digits <= MOST_DIGITS).collect();
    digits.sort();
    digits.dedup();
    digits
}

pub fn decimal(rng: &mut Rng) -> Decimal {
    if rng.chance(25) {
        // A price: pounds and pence, or pence alone.
        return Decimal { digits: rng.below(20_000) as u64, places: 2 };
    }
    Decimal { digits: digits(rng), places: rng.below(usize::from(MOST_PLACES) + 1) as u8 }
}

pub fn digits(rng: &mut Rng) -> u64 {
    match rng.below(8) {
        0 => [0, MOST_DIGITS][rng.below(2)],
        1 => AROUND_POWERS[rng.below(AROUND_POWERS.len())],
        2 => rng.draw() % (MOST_DIGITS + 1),
        3..=4 => {
            let zeros = power(rng);
            some(rng).min(MOST_DIGITS / zeros) * zeros
        }
        _ => some(rng),
    }
}

/// A body at or over a bound, or of another length.
pub fn at_bounds(rng: &mut Rng) -> Vec<u8> {
    let digits = match rng.below(4) {
        0 => MOST_DIGITS - 1 + rng.below(4) as u64,
        1 => rng.draw(),
        _ => digits(rng),
    };
    let places = match rng.below(4) {
        0 => MOST_PLACES - 1 + rng.below(4) as u8,
        1 => rng.draw() as u8,
        _ => rng.below(usize::from(MOST_PLACES) + 1) as u8,
    };
    let mut body = Decimal { digits, places }.bytes().to_vec();
    if rng.chance(25) {
        body.resize([rng.below(body.len()), body.len() + rng.within(1, 3)][rng.below(2)], 0);
    }
    body
}

/// Digits of any count alike.
fn some(rng: &mut Rng) -> u64 {
    let most = power(rng);
    (rng.draw() % (10 * most)).min(MOST_DIGITS)
}

/// A power of ten within the bound.
fn power(rng: &mut Rng) -> u64 {
    10_u64.pow(rng.below(15) as u32)
}
