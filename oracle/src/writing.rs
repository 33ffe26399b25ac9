//! A2's writing of decimals against what the Rust prints for them.

use crate::decimal::{Decimal, MOST_PLACES, bodies};
use crate::generate::decimals;
use crate::generate::rng::Rng;

/// Where the Rust prints another text than A2 writes, or what A2 writes is another number.
pub fn difference(decimal: Decimal) -> Option<String> {
    let (written, literal) = (decimal.written(), decimal.literal());
    // As the Rust prints a number among children, a number as an attribute, and a minus over one.
    let printed = [literal.to_string(), literal.value.to_string(), format!("-{}", &literal.value)];
    if printed != [&written[..], &written, &format!("-{written}")] {
        return Some(format!("{decimal:?}: A2 writes {written}, the Rust prints {printed:?}"));
    }
    (!is_value(&written, decimal)).then(|| format!("{decimal:?}: {written} is another number"))
}

/// Whether the text, read as digits over a power of ten, is this number: cross-multiplied, so that nothing is rounded.
fn is_value(text: &str, decimal: Decimal) -> bool {
    let (whole, fraction) = text.split_once('.').unwrap_or((text, ""));
    let power = |places: usize| 10_u128.pow(places as u32);
    let digits = |text: &str| text.parse::<u128>().ok().filter(|_| text.bytes().all(|c| c.is_ascii_digit()));
    digits(&format!("{whole}{fraction}")).is_some_and(|digits| {
        digits * power(decimal.places.into()) == u128::from(decimal.digits) * power(fraction.len())
    })
}

/// The first decimal of a page for which that is so.
pub fn page_difference(page: &[u8]) -> Option<String> {
    bodies(page).iter().filter_map(|body| Decimal::read(body).ok()).find_map(difference)
}

/// How many decimals were compared, how many differ, and the first of these.
#[derive(Debug, Default)]
pub struct Comparison {
    pub around_powers: u64,
    pub random: u64,
    pub differences: u64,
    pub first: Option<String>,
}

impl Comparison {
    pub fn all(&self) -> u64 {
        self.around_powers + self.random
    }

    /// These digits with each number of places.
    fn with_each_places(&mut self, digits: u64) -> u64 {
        for places in 0..=MOST_PLACES {
            if let Some(words) = difference(Decimal { digits, places }) {
                self.differences += 1;
                self.first.get_or_insert(words);
            }
        }
        u64::from(MOST_PLACES) + 1
    }
}

/// All digits around each power of ten and at the bounds, then random ones, each with all places, until `count`
/// decimals or more were compared.
pub fn compare(count: u64, seed: u64) -> Comparison {
    let mut comparison = Comparison::default();
    for digits in decimals::around_powers() {
        comparison.around_powers += comparison.with_each_places(digits);
    }
    let mut rng = Rng::new(seed);
    while comparison.all() < count {
        comparison.random += comparison.with_each_places(decimals::digits(&mut rng));
    }
    comparison
}
