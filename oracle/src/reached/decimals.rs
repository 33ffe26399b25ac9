//! A2: in which places decimals stand, with which places and zeros, and what was refused for one of them.

use crate::answer::Refusal;
use crate::decimal::{BYTES, DECIMAL, Decimal, MINUS_DECIMAL, MOST_DIGITS, MOST_PLACES, is_decimal};
use crate::field::{self, Node};
use crate::judge::{Outcome, outcome};
use std::collections::BTreeMap;
use std::fmt::Write;

/// How many, by tag and by the field that holds them: of a container the field around it, 50, 30 or 31.
type Held = BTreeMap<(u8, u8), u64>;

/// Where a decimal of a page may stand: a child of a tag or fragment, an attribute, a spread, a spread child, an array
/// and a spread in it.
const HOLDERS: [u8; 7] = [0x30, 0x31, 0x50, 0x53, 0x61, 0x76, 0x77];

/// Where one often stands in page out: spread, array, jsxAttr, jsx (its key), a property; with a minus also jsxEscape,
/// since without one a child is part of a static string. Rarer places, such as a piece, are counted and not asked for.
const HOLDERS_OUT: [u8; 6] = [0x53, 0x76, 0x77, 0x91, 0x94, 0x96];
const HOLDERS_OUT_MINUS: [u8; 7] = [0x53, 0x76, 0x77, 0x91, 0x92, 0x94, 0x96];

#[derive(Clone, Debug, Default, PartialEq, Eq)]
pub struct Decimals {
    /// Of accepted pages.
    pub page: Held,
    pub page_out: Held,
    pub by_places: [u64; MOST_PLACES as usize + 1],
    /// Of these, by what is special about them.
    pub kinds: [(&'static str, u64); KINDS.len()],
    /// Pages that would not be refused so but for a decimal: as 4 for its length, as 7 for its digits or its places.
    pub refused: [(&'static str, u64); BAD.len()],
}

type Kind = (&'static str, fn(Decimal) -> bool);

const KINDS: [Kind; 6] = [
    ("zero", |d| d.digits == 0),
    ("zeros not written", |d| d.digits > 0 && d.written() != d.with_all_places()),
    ("no point", |d| !d.written().contains('.')),
    ("less than one", |d| d.digits > 0 && d.written().starts_with("0.")),
    ("most digits", |d| d.digits == MOST_DIGITS),
    ("most digits and places", |d| d.digits == MOST_DIGITS && d.places == MOST_PLACES),
];

/// What is wrong with a body, and how it is refused.
type Bad = (&'static str, Refusal, fn(&[u8]) -> bool);

const BAD: [Bad; 3] = [
    ("length", Refusal::Misplaced, |body| body.len() != BYTES),
    ("digits", Refusal::NumberTooLarge, |body| {
        body.len() == BYTES && body[..8] > MOST_DIGITS.to_be_bytes()[..] && body[8] <= MOST_PLACES
    }),
    ("places", Refusal::NumberTooLarge, |body| {
        body.len() == BYTES && body[..8] <= MOST_DIGITS.to_be_bytes()[..] && body[8] > MOST_PLACES
    }),
];

impl Decimals {
    pub fn new() -> Self {
        Decimals { kinds: KINDS.map(|kind| (kind.0, 0)), refused: BAD.map(|bad| (bad.0, 0)), ..Decimals::default() }
    }

    /// Counts what a call met.
    pub fn meet(&mut self, page: &[u8], options: &[u8], answer: &Outcome) {
        match answer {
            Ok(output) => {
                let mut found = vec![];
                held(page, &mut self.page, &mut |body| found.extend(Decimal::read(body)));
                found.into_iter().for_each(|decimal| self.one(decimal));
                held(&output.page, &mut self.page_out, &mut |_| {});
            }
            Err(refusal) => {
                for ((_, count), bad) in self.refused.iter_mut().zip(BAD) {
                    *count += u64::from(*refusal == bad.1 && is_refused_for(page, options, bad));
                }
            }
        }
    }

    fn one(&mut self, decimal: Decimal) {
        self.by_places[usize::from(decimal.places)] += 1;
        for ((_, count), (_, is_so)) in self.kinds.iter_mut().zip(KINDS) {
            *count += u64::from(is_so(decimal));
        }
    }

    pub fn table(&self) -> String {
        let mut out = String::new();
        let mut line = |what: &str, counts: Vec<String>| {
            writeln!(out, "decimals {what}: {}", counts.join(", ")).expect("a string can be written");
        };
        let held =
            |held: &Held| held.iter().map(|((tag, holder), n)| format!("{tag:02x} in {holder:02x} {n}")).collect();
        let named = |counts: &[(&str, u64)]| counts.iter().map(|(what, n)| format!("{what} {n}")).collect();
        line("in pages", held(&self.page));
        line("in page outs", held(&self.page_out));
        line("by places", self.by_places.iter().enumerate().map(|(places, n)| format!("{places}: {n}")).collect());
        line("of a kind", named(&self.kinds));
        line("refused for", named(&self.refused));
        out
    }

    /// What must be reached, and how often it was.
    pub fn all(&self) -> Vec<(String, u64)> {
        let mut all = vec![];
        let places = [
            ("page", &self.page, DECIMAL, &HOLDERS[..]),
            ("page", &self.page, MINUS_DECIMAL, &HOLDERS),
            ("page out", &self.page_out, DECIMAL, &HOLDERS_OUT),
            ("page out", &self.page_out, MINUS_DECIMAL, &HOLDERS_OUT_MINUS),
        ];
        for (what, counts, tag, holders) in places {
            let count = |holder: &u8| counts.get(&(tag, *holder)).copied().unwrap_or(0);
            all.extend(holders.iter().map(|h| (format!("{tag:02x} in {h:02x} of a {what}"), count(h))));
        }
        all.extend(self.by_places.iter().enumerate().map(|(places, n)| (format!("decimals of {places} places"), *n)));
        all.extend(self.kinds.iter().map(|(what, n)| (format!("decimals: {what}"), *n)));
        all.extend(self.refused.iter().map(|(what, n)| (format!("decimals refused for {what}"), *n)));
        all
    }
}

/// Counts the decimals of a row by what holds them, and calls `each` with their bodies.
fn held(bytes: &[u8], counts: &mut Held, each: &mut impl FnMut(&[u8])) {
    fn walk(row: &[Node], holder: u8, each: &mut dyn FnMut(u8, &Node)) {
        for node in row {
            each(holder, node);
            walk(&node.inner, if node.tag == 0x52 { holder } else { node.tag }, each);
        }
    }
    walk(&field::read(bytes).unwrap_or_default(), 0, &mut |holder, node| {
        if is_decimal(node.tag) {
            *counts.entry((node.tag, holder)).or_default() += 1;
            each(&node.bytes);
        }
    });
}

/// Whether the page is refused otherwise, or taken, once its decimals that are bad so are others.
fn is_refused_for(page: &[u8], options: &[u8], (_, refusal, is_bad): Bad) -> bool {
    fn mend(row: &mut [Node], is_bad: fn(&[u8]) -> bool) -> usize {
        let mut mended = 0;
        for node in row {
            if is_decimal(node.tag) && is_bad(&node.bytes) {
                node.bytes = vec![0; BYTES];
                mended += 1;
            }
            mended += mend(&mut node.inner, is_bad);
        }
        mended
    }
    field::read(page).is_some_and(|mut row| {
        mend(&mut row, is_bad) > 0 && outcome(&field::write(&row), options).err() != Some(refusal)
    })
}
