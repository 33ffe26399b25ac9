//! Many seeds of tag text in a row, and what they reached; all short texts, read by the judge and by the slow reader.

use super::exhaustive::{FAMILIES, Family};
use super::generate;
use super::slow::readings;
use super::{NUMBERS, TagRefusal, outcome, settle};
use crate::field::{self, Body, body_of};
use std::collections::BTreeMap;
use std::fmt::Write;

/// What the seeds reached.
#[derive(Default)]
pub struct Report {
    pub seeds: u64,
    pub bytes: u64,
    pub numbers: BTreeMap<u32, u64>,
    /// Fields of taken texts, by their tag; 52 without a body apart, as a 152.
    pub tags: BTreeMap<u16, u64>,
    /// Texts over 16 KB, and taken texts deeper than 40.
    pub large: u64,
    pub deep: u64,
}

/// The fields that a text can have.
pub const TAGS: [u16; 21] = [
    0x20, 0x30, 0x31, 0x40, 0x41, 0x42, 0x50, 0x51, 0x52, 0x152, 0x53, 0x60, 0x61, 0x70, 0x71, 0x72, 0x73, 0x75, 0x79,
    0x7a, 0x7b,
];

pub fn sweep(first: u64, count: u64) -> Report {
    let mut report = Report::default();
    for seed in first..first + count {
        let case = generate::case(seed);
        let outcome = outcome(&case.text);
        let mut lent = vec![0xa5; case.lent(&outcome)];
        let answer = settle(&outcome, &mut lent);
        let left = if answer.number == 0 { 0xa5 } else { 0 };
        assert!(lent[answer.tag_bytes..].iter().all(|byte| *byte == left), "seed {seed}: lent bytes");
        report.seeds += 1;
        report.bytes += case.text.len() as u64;
        *report.numbers.entry(answer.number).or_default() += 1;
        report.large += u64::from(case.text.len() > 16 * 1024);
        if let Ok(field) = &outcome {
            report.deep += u64::from(field::depth(field) + super::TAG_DEPTH - 1 > 40);
            count_tags(field, &mut report.tags);
        }
    }
    report
}

fn count_tags(mut bytes: &[u8], counts: &mut BTreeMap<u16, u64>) {
    while let [tag, high, low, behind @ ..] = bytes {
        let (body, rest) = behind.split_at(usize::from(*high) << 8 | usize::from(*low));
        let kind = if *tag == 0x52 && body.is_empty() { 0x152 } else { u16::from(*tag) };
        *counts.entry(kind).or_default() += 1;
        if body_of(*tag) == Body::Fields {
            count_tags(body, counts);
        }
        bytes = rest;
    }
}

impl Report {
    pub fn table(&self) -> String {
        let mut out = String::new();
        let mut line = |text: String| writeln!(out, "{text}").expect("a string can be written");
        line(format!("seeds {}, text bytes {}", self.seeds, self.bytes));
        for (number, count) in &self.numbers {
            line(format!("answer {number:2} {count:9} {:6.2} %", 100.0 * *count as f64 / self.seeds.max(1) as f64));
        }
        line(format!("over 16 KB {}, taken and deeper than 40 {}", self.large, self.deep));
        let tags: Vec<String> = self.tags.iter().map(|(tag, count)| format!("{tag:02x}:{count}")).collect();
        line(format!("fields {}", tags.join(" ")));
        out
    }

    /// Where the seeds reached less than a generator must: in a million seeds every number 1,000 times, 40 % taken, 5,000
    /// over 16 KB, 5,000 taken deeper than 40, every field 10,000 times; as much less for fewer seeds.
    pub fn shortfalls(&self) -> Vec<String> {
        let due = |in_a_million: u64| self.seeds * in_a_million / 1_000_000;
        let mut out = vec![];
        let mut need = |what: String, reached: u64, due: u64| {
            if reached < due {
                out.push(format!("{what}: {reached}, due {due}"));
            }
        };
        for number in NUMBERS {
            need(format!("answer {number}"), self.numbers.get(&number).copied().unwrap_or(0), due(1_000));
        }
        need("taken".into(), self.numbers.get(&0).copied().unwrap_or(0), due(400_000));
        need("over 16 KB".into(), self.large, due(5_000));
        need("deeper than 40".into(), self.deep, due(5_000));
        for tag in TAGS {
            need(format!("field {tag:02x}"), self.tags.get(&tag).copied().unwrap_or(0), due(10_000));
        }
        out
    }
}

/// What the judge and the slow reader made of all short texts of a family.
#[derive(Clone, Copy, Debug, Default)]
pub struct Short {
    pub texts: u64,
    pub taken: u64,
    pub names_differ: u64,
}

/// All short texts, each read by both: at most one reading, and the judge's answer is what that reading says. 7, 8 and
/// 11 are no matter of short texts.
pub fn short(family: &Family, most: usize) -> Result<Short, String> {
    let mut report = Short::default();
    let mut wrong = None;
    family.texts(most, &mut |text| {
        if wrong.is_some() {
            return;
        }
        report.texts += 1;
        let found = if std::str::from_utf8(text).is_ok() { readings(text) } else { vec![] };
        let answer = outcome(text);
        let agree = match (&found[..], &answer) {
            ([], Err(TagRefusal::NoReading)) => true,
            ([], Err(TagRefusal::NotUtf8)) => std::str::from_utf8(text).is_err(),
            ([one], Ok(field)) => one.names_agree && one.field == *field,
            ([one], Err(TagRefusal::NamesDiffer)) => !one.names_agree,
            _ => false,
        };
        report.taken += u64::from(answer.is_ok());
        report.names_differ += u64::from(answer == Err(TagRefusal::NamesDiffer));
        if !agree {
            wrong = Some(format!("{}: the judge {answer:02x?}, all readings {found:02x?}", text.escape_ascii()));
        }
    });
    wrong.map_or(Ok(report), Err)
}

/// Seeds with a text of at most so many bytes, read by both; how many there were, and how many had a reading.
pub fn short_seeds(first: u64, count: u64, most: usize) -> Result<(u64, u64), String> {
    let (mut texts, mut read) = (0, 0);
    for seed in first..first + count {
        let text = generate::case(seed).text;
        if text.len() > most || std::str::from_utf8(&text).is_err() {
            continue;
        }
        texts += 1;
        let found = readings(&text);
        let reading = super::read::read(&text);
        let agree = match (&found[..], &reading) {
            ([], None) => true,
            ([one], Some(reading)) => one.field == reading.field && one.names_agree != reading.names_differ,
            _ => false,
        };
        read += u64::from(reading.is_some());
        if !agree {
            return Err(format!("{}: the judge {reading:02x?}, all readings {found:02x?}", text.escape_ascii()));
        }
    }
    Ok((texts, read))
}

/// All families, each up to its own length; what is printed of each.
pub fn short_all() -> Result<String, String> {
    let mut lines = String::new();
    let mut all = 0;
    for family in FAMILIES {
        let Short { texts, taken, names_differ } = short(family, family.most_slow)?;
        all += texts;
        writeln!(lines, "{}: {texts} texts, {taken} taken, {names_differ} times 15", family.name).expect("a string");
    }
    let (texts, read) = short_seeds(0, 100_000, 40)?;
    all += texts;
    writeln!(lines, "seeds of up to 40 bytes: {texts} texts, {read} with a reading").expect("a string");
    writeln!(lines, "all: {all} texts, no second reading, no difference").expect("a string");
    Ok(lines)
}
