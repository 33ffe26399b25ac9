//! A13 and A14: what calls of the catalogue met.

use super::{Reached, with};
use crate::outs::catalogue::{Catalogued, PAGE, Page, read, row_of};
use crate::outs::convert::with_kinds;
use crate::outs::generate::history::{Call, Step};
use crate::outs::shares::{read_shares, used};
use crate::outs::{Layout, page, templates};

/// With and without shares.
const BOTH: [&str; 31] = [
    "an empty buffer",
    "4 a page cut",
    "4 its templates",
    "4 its page out",
    "4 its kinds or numbers",
    "4 a name twice",
    "4 bytes behind the pages",
    "arrival: 3 in templates",
    "arrival: 4 in templates",
    "arrival: 6 in templates",
    "arrival: 3 in page",
    "arrival: 4 in page",
    "arrival: 5 in page",
    "arrival: 6 in page",
    "arrival: 7 in page",
    "arrival: 17 kinds",
    "arrival: 17 recorded",
    "arrival: 17 called",
    "arrival: 21",
    "arrival: taken",
    "arrival: without templates and page",
    "arrival: renumbered",
    "arrival: the catalogue is full",
    "arrival: numbers over 255",
    "leaving: 4",
    "leaving: 22",
    "leaving: the only page",
    "leaving: the first page",
    "leaving: a page between",
    "leaving: the last page",
    "leaving: later pages renumbered",
];

const WITHOUT: [&str; 2] = ["arrival: 23", "arrival: 21 before 23"];

const SHARES: [&str; 19] = [
    "another house is gone",
    "another house in another order",
    "a guarantee is kept",
    "4 its house",
    "arrival: 26 house 0",
    "arrival: 26 house over 16",
    "arrival: 26 another count",
    "arrival: 26 guaranteed above most",
    "arrival: 26 guaranteed above the catalogue",
    "arrival: 26 before 21",
    "arrival: 24",
    "arrival: 24 before 25",
    "arrival: 25 no room",
    "arrival: 25 not covered",
    "arrival: taken within its guarantee",
    "arrival: taken above its guarantee",
    "arrival: taken up to its most",
    "arrival: taken, just covered",
    "arrival: house 16",
];

impl Reached {
    pub fn due_of_catalogue(housed: bool) -> Vec<String> {
        match housed {
            false => [with("catalogue", &BOTH), with("catalogue", &WITHOUT)].concat(),
            true => [with("shares", &BOTH), with("shares", &SHARES)].concat(),
        }
    }

    pub fn meet_catalogue(&mut self, housed: bool, step: &Step, before: &[u8], answer: Catalogued) {
        let mut met = Reached::default();
        met.met_if(before.is_empty(), "an empty buffer");
        match read(before, housed) {
            None => {
                met.met(unsound(before, housed));
                met.met_if(matches!(step.call, Call::Remove { .. }), "leaving: 4");
            }
            Some(pages) => match &step.call {
                Call::Add { .. } => met.arrival(housed, &step.call, &pages, before.len(), answer),
                Call::Remove { name } => met.leaving(*name, &pages),
            },
        }
        let word = if housed { "shares" } else { "catalogue" };
        met.counts.into_iter().for_each(|(what, _)| self.met(format!("{word}: {what}")));
    }

    fn leaving(&mut self, name: u32, pages: &[Page]) {
        let Some(at) = pages.iter().position(|page| page.name == name) else { return self.met("leaving: 22") };
        self.met(match (at, pages.len() - 1 - at) {
            (0, 0) => "leaving: the only page",
            (0, _) => "leaving: the first page",
            (_, 0) => "leaving: the last page",
            _ => "leaving: a page between",
        });
        let later = pages[at + 1..].iter().any(|page| !page.templates.is_empty());
        self.met_if(later && !pages[at].templates.is_empty(), "leaving: later pages renumbered");
    }

    fn arrival(&mut self, housed: bool, call: &Call, pages: &[Page], length: usize, answer: Catalogued) {
        let Call::Add { name, house, shares, templates, page } = call else { return };
        let present = pages.iter().any(|page| page.name == *name);
        let all: usize = pages.iter().map(Page::bytes).sum();
        let size = 13 + usize::from(housed) + templates.len() + page.len();
        match answer.number {
            0 => {
                self.met("arrival: taken");
                self.met_if(templates.is_empty() && page.is_empty(), "arrival: without templates and page");
                let before: usize = pages.iter().map(|page| page.templates.len()).sum();
                self.met_if(before > 0 && !templates.is_empty(), "arrival: renumbered");
                self.met_if(before > 255 && !templates.is_empty(), "arrival: numbers over 255");
                self.met_if(answer.used == length, "arrival: the catalogue is full");
                self.met_if(housed && *house == 16, "arrival: house 16");
                if housed {
                    self.taken(pages, *house as u8, shares, size, length);
                }
            }
            number @ 3..=7 => {
                let place = if templates::read(templates, Layout::New).is_err() { "templates" } else { "page" };
                self.met(format!("arrival: {number} in {place}"));
            }
            17 => self.met(disagreeing(templates, page)),
            21 => {
                self.met("arrival: 21");
                self.met_if(!housed && all + size > length, "arrival: 21 before 23");
            }
            24 => {
                self.met("arrival: 24");
                self.met_if(all + size > length, "arrival: 24 before 25");
            }
            25 => self.met(if all + size > length { "arrival: 25 no room" } else { "arrival: 25 not covered" }),
            26 => {
                self.met_if(present, "arrival: 26 before 21");
                self.bad_shares(*house, shares, length);
            }
            number => self.met(format!("arrival: {number}")),
        }
    }

    fn taken(&mut self, pages: &[Page], house: u8, shares: &[u32], size: usize, length: usize) {
        let Ok(shares) = read_shares(shares, length) else { return };
        let share = shares[usize::from(house) - 1];
        let has = used(pages, house) + size as u64;
        let within = has <= u64::from(share.guaranteed);
        self.met(if within { "arrival: taken within its guarantee" } else { "arrival: taken above its guarantee" });
        self.met_if(has == u64::from(share.most), "arrival: taken up to its most");
        let others = (1..=16).filter(|other| *other != house);
        let kept: u64 =
            others.map(|other| used(pages, other).max(u64::from(shares[usize::from(other) - 1].guaranteed))).sum();
        self.met_if(has + kept == length as u64, "arrival: taken, just covered");
    }

    fn bad_shares(&mut self, house: u32, shares: &[u32], length: usize) {
        let above = shares.chunks(2).any(|pair| pair.len() == 2 && pair[0] > pair[1]);
        let sum: u64 = shares.iter().step_by(2).map(|guaranteed| u64::from(*guaranteed)).sum();
        self.met(match house {
            0 => "arrival: 26 house 0",
            17.. => "arrival: 26 house over 16",
            _ if shares.len() != 32 => "arrival: 26 another count",
            _ if above => "arrival: 26 guaranteed above most",
            _ if sum > length as u64 => "arrival: 26 guaranteed above the catalogue",
            _ => "arrival: 26 without a cause",
        });
    }
}

fn disagreeing(templates: &[u8], page: &[u8]) -> &'static str {
    let templates = templates::read(templates, Layout::New).unwrap_or_default();
    let parts = page::read(page, Layout::New).unwrap_or_default();
    let once = |mut numbers: Vec<u32>| {
        numbers.sort();
        numbers.into_iter().eq(1..=templates.len() as u32)
    };
    if with_kinds(&templates, Layout::New).is_err() {
        "arrival: 17 kinds"
    } else if !once(templates.iter().map(|template| template.number).collect()) {
        "arrival: 17 recorded"
    } else if !once(page::called(&parts)) {
        "arrival: 17 called"
    } else {
        "arrival: 17 without a cause"
    }
}

/// Why a catalogue is not sound: what stands behind the row of its pages.
fn unsound(bytes: &[u8], housed: bool) -> &'static str {
    let (_, rest) = row_of(bytes, housed);
    if rest.iter().all(|byte| *byte == 0) {
        return "4 a name twice";
    }
    if rest[0] != PAGE {
        return "4 bytes behind the pages";
    }
    let front = 13 + usize::from(housed);
    let Some(head) = rest.get(..front) else { return "4 a page cut" };
    if housed && !(1..=16).contains(&head[5]) {
        return "4 its house";
    }
    let length = |at: usize| u32::from_be_bytes([head[at], head[at + 1], head[at + 2], head[at + 3]]) as usize;
    let (templates, page) = (length(front - 8), length(front - 4));
    let Some(body) = rest.get(front..front + templates + page) else { return "4 a page cut" };
    let (templates, page) = body.split_at(templates);
    if templates::read(templates, Layout::New).is_err() {
        "4 its templates"
    } else if page::read(page, Layout::New).is_err() {
        "4 its page out"
    } else {
        "4 its kinds or numbers"
    }
}
