//! A7: what conversions met.

use super::{Reached, with};
use crate::answer::MOST_BODY;
use crate::outs::convert::{Converted, MOST_OLD_NUMBER, Way};
use crate::outs::generate::ConvertCase;
use crate::outs::page::{self, Part};
use crate::outs::templates::{self, ATTRIBUTE, CHILD, Template};
use crate::outs::{Layout, Read};

/// The fields of a page out.
const TAGS: [u8; 30] = [
    0x10, 0x11, 0x12, 0x13, 0x20, 0x40, 0x41, 0x53, 0x70, 0x71, 0x72, 0x73, 0x74, 0x75, 0x76, 0x77, 0x78, 0x79, 0x7a,
    0x7b, 0x81, 0x82, 0x83, 0x90, 0x91, 0x92, 0x93, 0x94, 0x95, 0x96,
];

/// Either way.
const BOTH: [&str; 37] = [
    "taken",
    "3 in templates",
    "4 in templates",
    "6 in templates",
    "3 in page",
    "4 in page",
    "5 in page",
    "6 in page",
    "7 in page",
    "17 signs out of turn",
    "17 a closing tag is open",
    "17 no space before the gap",
    "12",
    "13",
    "13 behind 12",
    "no templates",
    "no page",
    "bytes behind both",
    "numbers out of order",
    "a number twice",
    "number 0",
    "number 65535",
    "attribute gap",
    "child gap",
    "a string without letters before a gap",
    "no gap",
    "over 255 gaps",
    "over 10000 gaps",
    "a call in a call",
    "deeper than 1000",
    "deeper than 20000",
    "a full body read",
    "83 before all items",
    "83 among items",
    "83 alone",
    "no 83",
    "82 and 83",
];

/// On one way alone.
const UP: [&str; 4] = ["11 in templates", "11 in page", "11 in both", "a full body written"];
const DOWN: [&str; 3] = ["17 another kind", "17 number in templates", "17 number in a call"];

impl Reached {
    /// What `meet_convert` must meet.
    pub fn due_of_convert() -> Vec<String> {
        let tags = |word: &str| TAGS.iter().map(|tag| format!("{word}: field {tag:02x}")).collect();
        [with("up", &BOTH), with("down", &BOTH), with("up", &UP), with("down", &DOWN), tags("up"), tags("down")]
            .concat()
    }

    pub fn meet_convert(&mut self, case: &ConvertCase, lent: (usize, usize), answer: Converted) {
        let mut met = Reached::default();
        let layout = case.way.layouts().0;
        let templates = templates::read(&case.templates, layout);
        let parts = page::read(&case.page, layout);
        met.refused(answer.number, &templates, &parts, case, lent);
        if let (0, Ok(templates), Ok(parts)) = (answer.number, templates, parts) {
            met.met("taken");
            met.met_if(answer.templates_bytes < lent.0 && answer.page_bytes < lent.1, "bytes behind both");
            met.templates(&templates);
            met.page(&parts);
            met.met_if(full(&templates, &parts, layout), "a full body read");
            met.met_if(full(&with_kinds(&templates), &parts, case.way.layouts().1), "a full body written");
        }
        let word = if case.way == Way::Up { "up" } else { "down" };
        met.counts.into_iter().for_each(|(what, _)| self.met(format!("{word}: {what}")));
    }

    fn refused(
        &mut self,
        number: u32,
        templates: &Read<Vec<Template>>,
        parts: &Read<Vec<Part>>,
        case: &ConvertCase,
        lent: (usize, usize),
    ) {
        match (number, templates, parts) {
            (3..=7, Err(_), _) => self.met(format!("{number} in templates")),
            (3..=7, Ok(_), Err(_)) => self.met(format!("{number} in page")),
            (17, Ok(templates), Ok(parts)) => self.disagreeing(templates, parts, case.way),
            (11, Ok(templates), Ok(parts)) => {
                let long = templates::write(&with_kinds(templates), Layout::New).is_none();
                let page = page::write(parts, Layout::New).is_none();
                self.met(
                    ["11 in page", "11 in templates", "11 in both"][usize::from(long) + usize::from(long && page)],
                );
            }
            (12, Ok(_), Ok(parts)) => {
                self.met("12");
                let page = page::write(parts, case.way.layouts().1).unwrap_or_default();
                self.met_if(page.len() > lent.1, "13 behind 12");
            }
            (13, _, _) => self.met("13"),
            _ => {}
        }
    }

    fn disagreeing(&mut self, templates: &[Template], parts: &[Part], way: Way) {
        for template in templates {
            match templates::kinds(&template.strings) {
                None => self.met(without_kind(&template.strings)),
                Some(kinds) => self.met_if(way == Way::Down && kinds != template.kinds, "17 another kind"),
            }
        }
        let over = |number: &u32| *number > MOST_OLD_NUMBER;
        self.met_if(templates.iter().any(|template| over(&template.number)), "17 number in templates");
        self.met_if(page::called(parts).iter().any(over), "17 number in a call");
    }

    fn templates(&mut self, templates: &[Template]) {
        let numbers: Vec<u32> = templates.iter().map(|template| template.number).collect();
        let mut once = numbers.clone();
        once.sort();
        once.dedup();
        self.met_if(numbers.is_empty(), "no templates");
        self.met_if(!numbers.is_sorted(), "numbers out of order");
        self.met_if(once.len() < numbers.len(), "a number twice");
        self.met_if(numbers.contains(&0), "number 0");
        self.met_if(numbers.contains(&MOST_OLD_NUMBER), "number 65535");
        for template in templates {
            let kinds = templates::kinds(&template.strings).unwrap_or_default();
            self.met_if(kinds.contains(&ATTRIBUTE), "attribute gap");
            self.met_if(kinds.contains(&CHILD), "child gap");
            self.met_if(kinds.is_empty(), "no gap");
            self.met_if(kinds.len() > 255, "over 255 gaps");
            self.met_if(kinds.len() > 10_000, "over 10000 gaps");
            let silent = template.strings.iter().zip(&kinds).any(|(string, _)| string.is_empty());
            self.met_if(silent, "a string without letters before a gap");
        }
    }

    fn page(&mut self, parts: &[Part]) {
        let mut open: Vec<u8> = vec![];
        let mut top: Vec<u8> = vec![];
        let mut deepest = 0;
        for part in parts {
            match part {
                Part::Open(tag) => {
                    self.met(format!("field {tag:02x}"));
                    self.met_if(*tag == 0x90 && open.contains(&0x90), "a call in a call");
                    if open.is_empty() {
                        top.push(*tag);
                    }
                    open.push(*tag);
                    deepest = deepest.max(open.len());
                }
                Part::Close => drop(open.pop()),
                _ => {}
            }
        }
        self.met_if(deepest > 1_000, "deeper than 1000");
        self.met_if(deepest > 20_000, "deeper than 20000");
        self.met_if(parts.is_empty(), "no page");
        let imported = top.first() == Some(&0x82);
        let items = &top[usize::from(imported)..];
        match items.iter().position(|tag| *tag == 0x83) {
            None => self.met("no 83"),
            Some(0) if items.len() == 1 => self.met("83 alone"),
            Some(0) => self.met("83 before all items"),
            Some(_) => self.met("83 among items"),
        }
        self.met_if(imported && items.contains(&0x83), "82 and 83");
    }
}

fn with_kinds(templates: &[Template]) -> Vec<Template> {
    let kinds = |template: &Template| templates::kinds(&template.strings).unwrap_or_default();
    templates.iter().map(|template| Template { kinds: kinds(template), ..template.clone() }).collect()
}

/// Whether a template or an item has a body of 65,535 bytes in this layout.
fn full(templates: &[Template], parts: &[Part], layout: Layout) -> bool {
    let written = [templates::write(templates, layout), page::write(parts, layout)];
    written.iter().flatten().any(|bytes| {
        let mut rest = &bytes[..];
        let mut found = false;
        while let [_, high, low, behind @ ..] = rest {
            let length = usize::from(u16::from_be_bytes([*high, *low]));
            found |= length == MOST_BODY;
            rest = &behind[length..];
        }
        found
    })
}

/// Why the first gap without a kind has none.
fn without_kind(strings: &[Vec<u8>]) -> &'static str {
    let mut joined: Vec<u8> = vec![];
    for string in strings {
        joined.extend(string);
        let signs: Vec<u8> = joined.iter().copied().filter(|byte| matches!(byte, b'<' | b'>')).collect();
        if signs.chunks(2).any(|pair| !b"<>".starts_with(pair)) {
            return "17 signs out of turn";
        }
        let open = joined.iter().rposition(|byte| *byte == b'<').filter(|_| signs.last() == Some(&b'<'));
        match open {
            Some(at) if joined.get(at + 1) == Some(&b'/') => return "17 a closing tag is open",
            Some(_) if !joined.ends_with(b" ") => return "17 no space before the gap",
            _ => {}
        }
    }
    "17 without a cause"
}
