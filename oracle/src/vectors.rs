//! Stored answers of the judge: one call on a line (oracle/README.md describes the fields).

use crate::answer::{Answer, NUMBERS};
use crate::decimal::bodies;
use crate::field;
use crate::generate::{self, Case};
use crate::judge::{outcome, outcome_and_copy, settle};
use crate::marks;
use crate::reached::{Decimals, LONGER, MixedCase, Repeats, Sums};
use crate::show::hex;
use crate::sums::{Stays, asked, source_of, work};
use crate::transform::Copy;

/// One call, its answer, and the bytes written up to their ends.
#[derive(Clone, Debug, PartialEq, Eq)]
pub struct Vector {
    pub page: Vec<u8>,
    pub options: Vec<u8>,
    pub scratch: usize,
    pub templates_out: usize,
    pub page_out: usize,
    pub answer: Answer,
    pub templates_written: Vec<u8>,
    pub page_written: Vec<u8>,
    pub name: String,
}

impl Vector {
    /// Asks the judge.
    pub fn of(name: &str, case: &Case) -> Vector {
        Vector::and_copy_of(name, case).0
    }

    /// Asks the judge, and which copy of the Rust gave the answer.
    fn and_copy_of(name: &str, case: &Case) -> (Vector, Option<Copy>) {
        let (outcome, copy) = outcome_and_copy(&case.page, &case.options);
        let (templates_out, page_out) = case.outs(&outcome);
        let (mut scratch, mut templates, mut page) = (vec![0; case.scratch], vec![0; templates_out], vec![0; page_out]);
        let answer = settle(&outcome, &mut scratch, &mut templates, &mut page);
        templates.truncate(answer.templates_bytes);
        page.truncate(answer.page_bytes);
        let vector = Vector {
            page: case.page.clone(),
            options: case.options.clone(),
            scratch: case.scratch,
            templates_out,
            page_out,
            answer,
            templates_written: templates,
            page_written: page,
            name: name.to_string(),
        };
        (vector, copy)
    }

    pub fn line(&self) -> String {
        let bytes = |bytes: &[u8]| if bytes.is_empty() { "-".to_string() } else { hex(bytes) };
        let a = &self.answer;
        format!(
            "{} {} {} {} {} {} {} {} {} {} {} {}\n",
            bytes(&self.page),
            bytes(&self.options),
            self.scratch,
            self.templates_out,
            self.page_out,
            a.number,
            a.templates_bytes,
            a.page_bytes,
            a.templates,
            bytes(&self.templates_written),
            bytes(&self.page_written),
            self.name
        )
    }

    pub fn parse(line: &str) -> Option<Vector> {
        let words: Vec<&str> = line.split(' ').collect();
        let [page, options, scratch, templates_out, page_out, number, t_bytes, p_bytes, templates, t, p, name] =
            words[..]
        else {
            return None;
        };
        let answer = Answer {
            number: number.parse().ok()?,
            templates_bytes: t_bytes.parse().ok()?,
            page_bytes: p_bytes.parse().ok()?,
            templates: templates.parse().ok()?,
        };
        Some(Vector {
            page: unhex(page)?,
            options: unhex(options)?,
            scratch: scratch.parse().ok()?,
            templates_out: templates_out.parse().ok()?,
            page_out: page_out.parse().ok()?,
            answer,
            templates_written: unhex(t)?,
            page_written: unhex(p)?,
            name: name.to_string(),
        })
    }
}

pub fn unhex(word: &str) -> Option<Vec<u8>> {
    if word == "-" {
        return Some(vec![]);
    }
    let digits = word.as_bytes();
    let pairs = digits.chunks(2).map(|pair| u8::from_str_radix(std::str::from_utf8(pair).ok()?, 16).ok());
    if digits.len().is_multiple_of(2) { pairs.collect() } else { None }
}

/// Of the marks with long lines only these are stored.
const LONG_MARKS: [&str; 6] =
    ["page-32768", "page-32769", "static-string-65526", "static-string-65527", "static-strings-65515", "item-65536"];
const LONG_LINE: usize = 20_000;

/// How many seeds of each answer are stored, and how long their lines may be. 2 and 11 need long inputs; 9, 14, 15, 17 and
/// 18 are not given.
const QUOTAS: [(usize, usize); NUMBERS] = [
    (490, 800),
    (60, 600),
    (3, 9000),
    (150, 700),
    (220, 700),
    (100, 700),
    (100, 700),
    (40, 700),
    (25, 3000),
    (0, 0),
    (100, 900),
    (2, 18_000),
    (120, 700),
    (120, 700),
    (0, 0),
    (0, 0),
    (120, 700),
    (0, 0),
    (0, 0),
    (80, 700),
];

/// The same for seeds that are accepted by the patched copy, for accepted ones with sums to work out or that stay, and for
/// accepted ones with decimals.
const PATCHED_QUOTA: (usize, usize) = (100, 900);
const SUMS_QUOTA: (usize, usize) = (200, 800);
const DECIMAL_QUOTA: (usize, usize) = (200, 800);

/// How long the line may be of a seed that is stored for what only it reaches.
const MISSING_LINE: usize = 2_000;

/// Whether a 79 of the page is a sum, one that stays too.
fn has_sums(page: &[u8]) -> bool {
    let mut found = false;
    for node in &field::read(page).unwrap_or_default() {
        node.each(&mut |node| found |= source_of(node).is_some_and(|text| work(text) != Err(Stays::NoSum)));
    }
    found
}

/// The marks, then seeds from 0 on until each answer has its share.
pub fn sample() -> Vec<Vector> {
    let marks = marks::all().into_iter().map(|mark| Vector::of(&mark.name, &mark.case));
    let stored = |v: &Vector| v.line().len() <= LONG_LINE || LONG_MARKS.contains(&&v.name[..]);
    let mut sample: Vec<Vector> = marks.filter(stored).collect();
    // These three shares stand behind those of the numbers.
    let quotas: Vec<(usize, usize)> = QUOTAS.into_iter().chain([PATCHED_QUOTA, SUMS_QUOTA, DECIMAL_QUOTA]).collect();
    let mut left: Vec<usize> = quotas.iter().map(|(count, _)| *count).collect();
    for seed in 0.. {
        if left.iter().all(|n| *n == 0) {
            break;
        }
        let (vector, copy) = Vector::and_copy_of(&format!("seed-{seed}"), &generate::case(seed));
        let share = match vector.answer.number {
            0 if copy == Some(Copy::Patched) => NUMBERS,
            0 if asked(&vector.options) && has_sums(&vector.page) => NUMBERS + 1,
            0 if !bodies(&vector.page).is_empty() => NUMBERS + 2,
            number => number as usize,
        };
        if left[share] > 0 && vector.line().len() <= quotas[share].1 {
            left[share] -= 1;
            sample.push(vector);
        }
    }
    add_missing(&mut sample);
    sample
}

/// Short seeds for what the sample does not reach yet.
fn add_missing(sample: &mut Vec<Vector>) {
    let mut reached = Reached::default();
    sample.iter().for_each(|vector| reached.meet(vector));
    for seed in 0.. {
        let missing = reached.missing().len();
        if missing == 0 {
            break;
        }
        let vector = Vector::of(&format!("seed-{seed}"), &generate::case(seed));
        if vector.line().len() > MISSING_LINE {
            continue;
        }
        let mut with = reached.clone();
        with.meet(&vector);
        if with.missing().len() < missing {
            reached = with;
            sample.push(vector);
        }
    }
}

/// What stored answers must reach of the requests of 02.
#[derive(Clone)]
pub struct Reached {
    pub decimals: Decimals,
    pub sums: Sums,
    pub repeats: Repeats,
    pub mixed_case: MixedCase,
}

impl Default for Reached {
    fn default() -> Self {
        Reached {
            decimals: Decimals::new(),
            sums: Sums::new(),
            repeats: Repeats::new(),
            mixed_case: MixedCase::default(),
        }
    }
}

impl Reached {
    pub fn meet(&mut self, vector: &Vector) {
        let outcome = outcome(&vector.page, &vector.options);
        self.decimals.meet(&vector.page, &vector.options, &outcome);
        self.sums.meet(&vector.page, &vector.options, &outcome);
        self.repeats.meet(&vector.page, &vector.options, &outcome);
        self.mixed_case.meet(&vector.page, &vector.options, &outcome);
    }

    /// What no answer reached; a page that grows over its limit is too long to be stored.
    pub fn missing(&self) -> Vec<String> {
        let all = [self.decimals.all(), self.sums.all(), self.repeats.all(), self.mixed_case.all()].concat();
        let missing = all.into_iter().filter(|(what, n)| *n == 0 && what != LONGER);
        missing.map(|(what, _)| what).collect()
    }
}
