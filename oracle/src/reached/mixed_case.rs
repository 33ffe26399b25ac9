//! A10: where elements stand that are void only once their names are in small letters.

use crate::answer::Refusal;
use crate::field;
use crate::judge::Outcome;
use crate::kept::is_serializable;
use crate::private::is_void_element;
use std::fmt::Write;

/// How many pages have such an element, by what was answered and where it stands.
#[derive(Clone, Copy, Debug, Default, PartialEq, Eq)]
pub struct MixedCase {
    pub refused: u64,
    pub with_attributes: u64,
    pub with_children: u64,
    /// Answered 16 and 10.
    pub behind_repeated: u64,
    pub behind_tag_left: u64,
    /// Accepted: a component, a call of such a name, and one in a place that is lost.
    pub component: u64,
    pub called: u64,
    pub lost: u64,
}

impl MixedCase {
    /// Counts what a call met.
    pub fn meet(&mut self, page: &[u8], options: &[u8], answer: &Outcome) {
        let passed =
            matches!(answer, Ok(_) | Err(Refusal::TagLeft | Refusal::RepeatedAttribute | Refusal::MixedCaseVoid));
        if !passed {
            return;
        }
        let (page, options) = (field::read(page).unwrap_or_default(), field::read(options).unwrap_or_default());
        let mut found = vec![];
        page.iter().for_each(|node| node.each(&mut |node| found.extend((node.tag == 0x30).then_some(node))));
        found.retain(|element| {
            let name = std::str::from_utf8(&element.inner[0].bytes).unwrap_or_default();
            !is_void_element(name) && is_void_element(&name.to_ascii_lowercase())
        });
        let any = |is_so: &dyn Fn(&field::Node) -> bool| u64::from(found.iter().any(|element| is_so(element)));
        let component = |element: &field::Node| element.inner[0].bytes[0].is_ascii_uppercase();
        let serializable = |element: &field::Node| is_serializable(element, &options);
        match answer {
            Ok(_) => {
                self.component += any(&component);
                self.called += any(&|element| !component(element) && !serializable(element));
                self.lost += any(&serializable);
            }
            Err(Refusal::TagLeft) => self.behind_tag_left += any(&serializable),
            Err(Refusal::RepeatedAttribute) => self.behind_repeated += any(&serializable),
            Err(_) => {
                self.refused += 1;
                let part = |of: fn(u8) -> bool| {
                    any(&|element| serializable(element) && element.inner[1..].iter().any(|part| of(part.tag)))
                };
                self.with_attributes += part(|tag| tag == 0x50);
                self.with_children += part(|tag| tag != 0x50);
            }
        }
    }

    /// What must be reached, and how often it was.
    pub fn all(&self) -> Vec<(String, u64)> {
        let all = [
            ("refused", self.refused),
            ("with attributes", self.with_attributes),
            ("with children", self.with_children),
            ("behind an attribute twice", self.behind_repeated),
            ("behind a tag that is left", self.behind_tag_left),
            ("a component", self.component),
            ("called", self.called),
            ("in a lost place", self.lost),
        ];
        all.map(|(what, n)| (format!("mixed case: {what}"), n)).to_vec()
    }

    pub fn table(&self) -> String {
        let mut out = String::new();
        let counts: Vec<String> = self.all().iter().map(|(what, n)| format!("{what} {n}")).collect();
        writeln!(out, "{}", counts.join(", ")).expect("a string can be written");
        out
    }
}
