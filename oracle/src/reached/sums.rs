//! A12: where sums stand that were worked out, what they came to, and which texts stay and why.

use crate::answer::{MOST_NUMBER, MOST_PAGE};
use crate::decode::read_options;
use crate::field::{self, Node};
use crate::judge::Outcome;
use crate::kept::{self, PLACES};
use crate::sums::{Stays, asked, source_of, work, worked};
use std::collections::BTreeMap;
use std::fmt::Write;

/// Where a sum of a page may stand: a child of a tag or fragment, an attribute, a spread, a spread child, an array and a
/// spread in it.
const HOLDERS: [u8; 7] = [0x30, 0x31, 0x50, 0x53, 0x61, 0x76, 0x77];

/// The name of what needs a long page.
pub const LONGER: &str = "pages that grow over their limit";

#[derive(Clone, Debug, Default, PartialEq, Eq)]
pub struct Sums {
    /// Of accepted pages, by the field that holds it: of a container the field around it.
    pub worked: BTreeMap<u8, u64>,
    /// Of these and of those that stay, by what is special about them.
    pub kinds: [(&'static str, u64); KINDS.len()],
    /// Texts that would be worked out, but no 05 is given.
    pub not_asked: u64,
    /// Expressions of two source pieces which together would be a sum.
    pub two_pieces: u64,
    /// Items whose source is a sum.
    pub items: u64,
    /// Sums in the four places in which expressions are lost.
    pub lost: [u64; PLACES.len()],
    /// Pages over their limit once they are worked out, and options refused for their 05.
    pub longer: u64,
    pub refused: u64,
}

type Kind = (&'static str, fn(&[u8], &Result<i128, Stays>) -> bool);

const KINDS: [Kind; 14] = [
    ("one number", |text, sum| sum.is_ok() && text.iter().all(u8::is_ascii_digit)),
    ("positive", |_, sum| sum.is_ok_and(|value| value > 0)),
    ("zero", |_, sum| *sum == Ok(0)),
    ("negative", |_, sum| sum.is_ok_and(|value| value < 0)),
    ("at the bound", |_, sum| *sum == Ok(MOST_NUMBER.into())),
    ("at the other bound", |_, sum| *sum == Ok(-i128::from(MOST_NUMBER))),
    ("brackets", |text, sum| sum.is_ok() && text.contains(&b'(')),
    ("a hundred brackets", |text, sum| sum.is_ok() && text.iter().filter(|c| **c == b'(').count() >= 100),
    ("spaces", |text, sum| sum.is_ok() && text.contains(&b' ')),
    ("all three operators", |text, sum| sum.is_ok() && b"+-*".iter().all(|sign| text.contains(sign))),
    ("number over the bound", |_, sum| *sum == Err(Stays::LargeNumber)),
    ("step over the bound", |_, sum| *sum == Err(Stays::LargeStep)),
    ("zero times a negative", |_, sum| *sum == Err(Stays::MinusZero)),
    // Only the signs of sums, and a digit among them.
    ("near miss", |text, sum| {
        *sum == Err(Stays::NoSum)
            && text.iter().any(u8::is_ascii_digit)
            && text.iter().all(|c| c.is_ascii_digit() || b" +-*()".contains(c))
    }),
];

impl Sums {
    pub fn new() -> Self {
        Sums { kinds: KINDS.map(|kind| (kind.0, 0)), ..Sums::default() }
    }

    /// Counts what a call met.
    pub fn meet(&mut self, page: &[u8], options: &[u8], answer: &Outcome) {
        let asked = asked(options);
        self.refused += u64::from(asked && read_options(options).is_err());
        if answer.is_err() {
            return;
        }
        self.row(&field::read(page).unwrap_or_default(), 0, asked);
        if asked {
            let worked = worked(page);
            self.longer += u64::from(worked.len() > MOST_PAGE);
            // A sum that was worked out is no expression of its own any more.
            let (before, behind) = (kept::counts(page, options), kept::counts(&worked, options));
            for place in PLACES {
                self.lost[place as usize] += before.lost_in(place) - behind.lost_in(place);
            }
        }
    }

    fn row(&mut self, row: &[Node], holder: u8, asked: bool) {
        for node in row {
            if let Some(text) = source_of(node) {
                self.one(text, holder, asked);
            }
            let sources = node.inner.iter().all(|piece| piece.tag == 0x20);
            match node.tag {
                0x79 if sources && node.inner.len() == 2 => {
                    let text = [&node.inner[0].bytes[..], &node.inner[1].bytes].concat();
                    self.two_pieces += u64::from(asked && work(&text).is_ok());
                }
                0x10..=0x12 if sources && node.inner.len() == 1 => {
                    self.items += u64::from(asked && work(&node.inner[0].bytes).is_ok());
                }
                _ => {}
            }
            self.row(&node.inner, if node.tag == 0x52 { holder } else { node.tag }, asked);
        }
    }

    fn one(&mut self, text: &[u8], holder: u8, asked: bool) {
        let sum = work(text);
        if !asked {
            self.not_asked += u64::from(sum.is_ok());
            return;
        }
        if sum.is_ok() {
            *self.worked.entry(holder).or_default() += 1;
        }
        for ((_, count), (_, is_so)) in self.kinds.iter_mut().zip(KINDS) {
            *count += u64::from(is_so(text, &sum));
        }
    }

    pub fn table(&self) -> String {
        let mut out = String::new();
        let mut line = |what: &str, counts: Vec<String>| {
            writeln!(out, "sums {what}: {}", counts.join(", ")).expect("a string can be written");
        };
        line("worked out", self.worked.iter().map(|(holder, n)| format!("in {holder:02x} {n}")).collect());
        line("and others of a kind", self.kinds.iter().map(|(what, n)| format!("{what} {n}")).collect());
        line("lost", PLACES.iter().zip(self.lost).map(|(place, n)| format!("{place:?} {n}")).collect());
        let others = [
            ("without 05", self.not_asked),
            ("in two pieces", self.two_pieces),
            ("as items", self.items),
            ("in pages that grow over their limit", self.longer),
            ("refused options with 05", self.refused),
        ];
        line("not worked out, and others", others.map(|(what, n)| format!("{what} {n}")).to_vec());
        out
    }

    /// What must be reached, and how often it was.
    pub fn all(&self) -> Vec<(String, u64)> {
        let held = |holder: &u8| self.worked.get(holder).copied().unwrap_or(0);
        let mut all: Vec<(String, u64)> = HOLDERS.iter().map(|h| (format!("sum in {h:02x}"), held(h))).collect();
        all.extend(self.kinds.iter().map(|(what, n)| (format!("sums: {what}"), *n)));
        all.extend(PLACES.iter().zip(self.lost).map(|(place, n)| (format!("sum lost as {place:?}"), n)));
        let others = [
            ("sums without 05", self.not_asked),
            ("sums in two pieces", self.two_pieces),
            ("sums as items", self.items),
            (LONGER, self.longer),
            ("refused options with 05", self.refused),
        ];
        all.extend(others.map(|(what, n)| (what.to_string(), n)));
        all
    }
}
