//! Many seeds in a row: demand 3, A9 and A2's writing on every accepted page, and what the seeds reached.

use crate::answer::{LEAST_SCRATCH, NOT_GIVEN, NUMBERS, Refusal};
use crate::arms;
use crate::demand3;
use crate::encode::Output;
use crate::exhaustive;
use crate::field::{self, Body, body_of};
use crate::generate::rng::Rng;
use crate::generate::{self, Case};
use crate::judge::{outcome, outcome_and_copy, outcome_with, settle};
use crate::kept::{self, PLACES};
use crate::reached::{Decimals, MixedCase, Repeats, Sums};
use crate::show::show;
use crate::shrink::shrink;
use crate::transform::Copy;
use crate::writing;
use std::fmt::Write;
use std::time::Instant;

pub struct Settings {
    pub first: u64,
    pub count: u64,
    /// Run the counting and the noting copy too, and compare them with the unchanged one.
    pub arms: bool,
    pub progress: bool,
}

/// What the seeds reached.
pub struct Report {
    pub seeds: u64,
    pub answers: [u64; NUMBERS],
    /// Pages over 16 KB, and deeper than 40.
    pub large: u64,
    pub deep: u64,
    pub bytes: u64,
    pub tags_in: [u64; 256],
    pub tags_out: [u64; 256],
    pub templates: u64,
    /// Attribute gaps and child gaps of these (02, A6).
    pub gaps: [u64; 2],
    /// Seeds whose result the patched copy gave, since the unchanged one stops; and how many of these were accepted.
    pub patched: u64,
    pub patched_accepted: u64,
    pub kept: kept::Counts,
    pub decimals: Decimals,
    pub sums: Sums,
    pub repeats: Repeats,
    pub mixed_case: MixedCase,
    /// Of demand 3, of A9 or of A2's writing.
    pub violations: u64,
    pub arms: bool,
}

impl Report {
    fn new(arms: bool) -> Self {
        Report {
            seeds: 0,
            answers: [0; NUMBERS],
            large: 0,
            deep: 0,
            bytes: 0,
            tags_in: [0; 256],
            tags_out: [0; 256],
            templates: 0,
            gaps: [0; 2],
            patched: 0,
            patched_accepted: 0,
            kept: kept::Counts::default(),
            decimals: Decimals::new(),
            sums: Sums::new(),
            repeats: Repeats::new(),
            mixed_case: MixedCase::default(),
            violations: 0,
            arms,
        }
    }

    pub fn table(&self) -> String {
        let mut out = String::new();
        let mut line = |text: String| writeln!(out, "{text}").expect("a string can be written");
        let percent = |n: u64| 100.0 * n as f64 / self.seeds.max(1) as f64;
        line(format!("seeds {}, page bytes {}, templates {}", self.seeds, self.bytes, self.templates));
        line(format!("attribute gaps {}, child gaps {}", self.gaps[0], self.gaps[1]));
        for (number, count) in self.given() {
            line(format!("answer {number:2} {count:9} {:6.2} %", percent(*count)));
        }
        line(format!(
            "patched    {:9} {:6.2} %, accepted {}",
            self.patched,
            percent(self.patched),
            self.patched_accepted
        ));
        line(format!("over 16 KB {:9} {:6.2} %", self.large, percent(self.large)));
        line(format!("deeper 40  {:9} {:6.2} %", self.deep, percent(self.deep)));
        line(format!("tags in  {}", tags(&self.tags_in)));
        line(format!("tags out {}", tags(&self.tags_out)));
        if self.arms {
            for (i, (at, function, text)) in arms::ARMS.iter().enumerate() {
                line(format!("arm {:9} line {at} {function}: {text}", arms::hits(i)));
            }
        }
        line(format!("expressions kept {}; lost: {}", self.kept.kept, lost(&self.kept)));
        line(self.decimals.table().trim_end().to_string());
        line(self.sums.table().trim_end().to_string());
        line(self.repeats.table().trim_end().to_string());
        line(self.mixed_case.table().trim_end().to_string());
        line(format!("violations of demand 3, A9 and A2: {}", self.violations));
        out
    }

    /// How often each number was given that a transform gives.
    fn given(&self) -> impl Iterator<Item = (usize, &u64)> {
        self.answers.iter().enumerate().filter(|(number, _)| !NOT_GIVEN.contains(number))
    }
}

impl Report {
    /// Where the seeds reached less than a generator must: in a million seeds every answer 100 times, 40 % accepted, 2 %
    /// accepted by the patched copy, 1 % over 16 KB, 1 % deeper than 40, of each kind 500,000 gaps, in each of A9's places
    /// 1,000 expressions lost, in each place, of each kind and for each refusal 500 decimals, in each place and of each
    /// kind 300 sums, of each kind 300 pages with an attribute twice and 100 with a void name in mixed case, every live arm
    /// 1,000 times and no dead one; as much less for fewer seeds.
    pub fn shortfalls(&self) -> Vec<String> {
        let due = |in_a_million: u64| self.seeds * in_a_million / 1_000_000;
        let mut out = vec![];
        let mut need = |what: String, reached: u64, due: u64| {
            if reached < due {
                out.push(format!("{what}: {reached}, due {due}"));
            }
        };
        for (number, count) in self.given() {
            need(format!("answer {number}"), *count, due(100));
        }
        need("accepted".into(), self.answers[0], due(400_000));
        need("accepted by the patched copy".into(), self.patched_accepted, due(20_000));
        need("over 16 KB".into(), self.large, due(10_000));
        need("deeper than 40".into(), self.deep, due(10_000));
        for (kind, gaps) in ["attribute", "child"].iter().zip(self.gaps) {
            need(format!("{kind} gaps"), gaps, due(500_000));
        }
        for place in PLACES {
            need(format!("lost as {place:?}"), self.kept.lost_in(place), due(1_000));
        }
        for (what, reached) in self.decimals.all() {
            need(what, reached, due(500));
        }
        for (what, reached) in self.sums.all().into_iter().chain(self.repeats.all()) {
            need(what, reached, due(300));
        }
        for (what, reached) in self.mixed_case.all() {
            need(what, reached, due(100));
        }
        if self.arms {
            for (arm, (line, ..)) in arms::ARMS.iter().enumerate() {
                if !arms::is_dead(arm) {
                    need(format!("arm of line {line}"), arms::hits(arm), due(1_000));
                }
            }
            let held_dead = (0..arms::ARMS.len()).filter(|arm| arms::is_dead(*arm) && arms::hits(*arm) > 0);
            out.extend(held_dead.map(|arm| format!("arm of line {} is reached but held dead", arms::ARMS[arm].0)));
        }
        out
    }
}

fn lost(counts: &kept::Counts) -> String {
    PLACES.map(|place| format!("{place:?} {}", counts.lost_in(place))).join(", ")
}

fn tags(counts: &[u64; 256]) -> String {
    let reached = counts.iter().enumerate().filter(|(_, n)| **n > 0);
    reached.map(|(tag, n)| format!("{tag:02x}:{n}")).collect::<Vec<_>>().join(" ")
}

pub fn sweep(settings: &Settings) -> Report {
    let mut report = Report::new(settings.arms);
    let mut lent = Lent::default();
    let start = Instant::now();
    for seed in settings.first..settings.first + settings.count {
        one(seed, settings, &mut report, &mut lent);
        if settings.progress && report.seeds.is_multiple_of(100_000) {
            eprintln!("{} seeds, {} accepted, {:.0?}", report.seeds, report.answers[0], start.elapsed());
        }
    }
    report
}

/// Buffers that are lent again and again.
#[derive(Default)]
struct Lent {
    scratch: Vec<u8>,
    templates: Vec<u8>,
    page: Vec<u8>,
}

/// What lies in every lent byte before a call.
pub const BEFORE: u8 = 0xa5;

fn one(seed: u64, settings: &Settings, report: &mut Report, lent: &mut Lent) {
    let case = generate::case(seed);
    let (outcome, copy) = outcome_and_copy(&case.page, &case.options);
    if settings.arms {
        for copy in [Copy::Counted, Copy::Noted] {
            let other = outcome_with(copy, &case.page, &case.options);
            assert!(other == outcome, "seed {seed}: the copy {copy:?} answers something else");
        }
    }
    let (templates, page) = case.outs(&outcome);
    refill(&mut lent.scratch, case.scratch);
    refill(&mut lent.templates, templates);
    refill(&mut lent.page, page);
    let answer = settle(&outcome, &mut lent.scratch, &mut lent.templates, &mut lent.page);
    assert!(lent_right(answer.number, answer.templates_bytes, answer.page_bytes, lent), "seed {seed}: lent bytes");
    report.seeds += 1;
    report.answers[answer.number as usize] += 1;
    if copy == Some(Copy::Patched) {
        report.patched += 1;
        report.patched_accepted += u64::from(answer.number == 0);
    }
    report.bytes += case.page.len() as u64;
    report.large += u64::from(case.page.len() > 16 * 1024);
    report.deep += u64::from(field::depth(&case.page) > 40);
    report.decimals.meet(&case.page, &case.options, &outcome);
    report.sums.meet(&case.page, &case.options, &outcome);
    report.repeats.meet(&case.page, &case.options, &outcome);
    report.mixed_case.meet(&case.page, &case.options, &outcome);
    if let Ok(output) = &outcome {
        report.templates += output.count as u64;
        count_gaps(&output.templates, &mut report.gaps);
        count_tags(&case.page, &mut report.tags_in);
        count_tags(&case.options, &mut report.tags_in);
        count_tags(&output.templates, &mut report.tags_out);
        count_tags(&output.page, &mut report.tags_out);
        match check(&case.page, &case.options, output, seed) {
            Ok(counts) => report.kept.add(counts),
            Err(words) => {
                report.violations += 1;
                print_violation(seed, &case, &words);
            }
        }
    }
}

fn refill(lent: &mut Vec<u8>, length: usize) {
    lent.clear();
    lent.resize(length, BEFORE);
}

fn lent_right(number: u32, templates: usize, page: usize, lent: &Lent) -> bool {
    let all = |bytes: &[u8], value: u8| bytes.iter().all(|b| *b == value);
    let scratch = if number == 1 { BEFORE } else { 0 };
    let outs = if number == 0 {
        all(&lent.templates[templates..], BEFORE) && all(&lent.page[page..], BEFORE)
    } else {
        all(&lent.templates, 0) && all(&lent.page, 0)
    };
    outs && all(&lent.scratch, scratch) && (number == 1) == (lent.scratch.len() < LEAST_SCRATCH)
}

/// What is wrong with the outputs of an accepted page, or how many of its expressions were kept and lost.
fn check(page: &[u8], options: &[u8], output: &Output, seed: u64) -> Result<kept::Counts, String> {
    if let Some(words) = demand3::violation(&output.templates, &output.page, output.count, &mut Rng::new(!seed)) {
        return Err(format!("demand 3: {words}"));
    }
    if let Some(words) = writing::page_difference(page) {
        return Err(format!("A2: {words}"));
    }
    kept::compare(page, options, &output.page).map_err(|words| format!("A9: {words}"))
}

fn print_violation(seed: u64, case: &Case, words: &str) {
    let shows = |case: &Case| {
        outcome(&case.page, &case.options).is_ok_and(|output| check(&case.page, &case.options, &output, seed).is_err())
    };
    let small = shrink(case.clone(), shows);
    println!("seed {seed}: {words}\n{}{}", show(&small.options), show(&small.page));
}

fn count_tags(bytes: &[u8], counts: &mut [u64; 256]) {
    let mut rest = bytes;
    while let [tag, high, low, behind @ ..] = rest {
        let length = usize::from(*high) << 8 | usize::from(*low);
        counts[usize::from(*tag)] += 1;
        let body = &behind[..length];
        match body_of(*tag) {
            Body::Fields => count_tags(body, counts),
            Body::FrontThenFields => {
                count_tags(&body[field::front(*tag, body).expect("an output is a row of fields")..], counts)
            }
            Body::FieldsThenByte => count_tags(&body[..length - 1], counts),
            Body::Bytes | Body::Unknown => {}
        }
        rest = &behind[length..];
    }
}

fn count_gaps(templates: &[u8], gaps: &mut [u64; 2]) {
    for template in field::read(templates).expect("an output is a row of fields") {
        for kind in &template.bytes[6..] {
            gaps[usize::from(*kind) - 1] += 1;
        }
    }
}

/// What all small pages of a number of fields gave, each under no options and under three that meet their names and sums.
#[derive(Clone, Copy, Debug, Default, PartialEq, Eq)]
pub struct Small {
    pub calls: u64,
    pub accepted: u64,
    pub patched: u64,
    pub tag_left: u64,
    pub repeated: u64,
    pub mixed_case: u64,
    pub kept: kept::Counts,
    pub violations: u64,
}

pub fn small(fields: usize) -> Small {
    use crate::make::{attributes_listed, elements_listed, sums};
    let options = [
        vec![],
        elements_listed(&["i"]),
        [attributes_listed(&["a", "key"]), sums()].concat(),
        [elements_listed(&["br"]), attributes_listed(&["open", "a:b"])].concat(),
    ];
    let mut report = Small::default();
    exhaustive::small_pages(fields, &mut |page| {
        for options in &options {
            report.calls += 1;
            let (outcome, copy) = outcome_and_copy(page, options);
            report.patched += u64::from(copy == Some(Copy::Patched));
            let output = match outcome {
                Ok(output) => output,
                Err(Refusal::TagLeft) => {
                    report.tag_left += 1;
                    continue;
                }
                Err(Refusal::RepeatedAttribute) => {
                    report.repeated += 1;
                    continue;
                }
                Err(Refusal::MixedCaseVoid) => {
                    report.mixed_case += 1;
                    continue;
                }
                Err(other) => panic!("{other:?}\n{}", show(page)),
            };
            report.accepted += 1;
            match check(page, options, &output, report.calls) {
                Ok(counts) => report.kept.add(counts),
                Err(words) => {
                    report.violations += 1;
                    println!("{words}\n{}{}", show(options), show(page));
                }
            }
        }
    });
    report
}
