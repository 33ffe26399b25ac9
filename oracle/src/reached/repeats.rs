//! A4: which attributes stand twice on elements of refused pages, and where that is no reason to refuse.

use crate::answer::Refusal;
use crate::field::{self, Node};
use crate::generate::names::normalised;
use crate::judge::Outcome;
use crate::kept::is_serializable;
use std::fmt::Write;

#[derive(Clone, Debug, Default, PartialEq, Eq)]
pub struct Repeats {
    /// Pages answered 16, by what is special about two attributes of an element that would be serialized.
    pub kinds: [(&'static str, u64); KINDS.len()],
    /// Accepted pages with an attribute twice: on an element that is called, and on one in a place that is lost.
    pub called: u64,
    pub lost: u64,
    /// Pages answered 10 which have both.
    pub tag_left: u64,
}

/// Of a pair of attributes, the names that 03 lists, and what is looked for.
type Kind = (&'static str, fn(&Node, &Node, &[&[u8]]) -> bool);

const KINDS: [Kind; 9] = [
    ("written alike", |one, other, _| written(one) == written(other)),
    ("in another case", |one, other, _| {
        written(one) != written(other) && written(one).eq_ignore_ascii_case(&written(other))
    }),
    ("by another name", |one, other, _| !written(one).eq_ignore_ascii_case(&written(other))),
    ("with a namespace", |one, other, _| either(one, other, |a| a.inner[0].tag == 0x42)),
    ("listed", |one, other, listed| either(one, other, |a| listed.contains(&written(a).as_bytes()))),
    ("without a value", |one, other, _| either(one, other, |a| a.inner.len() == 1)),
    ("with empty braces", |one, other, _| either(one, other, |a| a.inner.get(1).is_some_and(|v| holds(v, &[])))),
    ("false", |one, other, _| {
        either(one, other, |a| a.inner.get(1).is_some_and(|v| holds(v, &[Node::leaf(0x72, [0])])))
    }),
    ("with a tag", |one, other, _| either(one, other, |a| matches!(a.inner.get(1), Some(v) if v.tag / 16 == 3))),
];

fn either(one: &Node, other: &Node, is_so: impl Fn(&Node) -> bool) -> bool {
    is_so(one) || is_so(other)
}

fn holds(value: &Node, inside: &[Node]) -> bool {
    value.tag == 0x52 && value.inner == inside
}

/// The name of an attribute as it is written.
fn written(attribute: &Node) -> String {
    let name = &attribute.inner[0];
    let parts = if name.tag == 0x42 { &name.inner[..] } else { std::slice::from_ref(name) };
    let parts: Vec<String> = parts.iter().map(|part| String::from_utf8_lossy(&part.bytes).into_owned()).collect();
    parts.join(":")
}

/// The attributes of an element that have one name, in pairs.
fn pairs(element: &Node) -> Vec<(&Node, &Node)> {
    let attributes: Vec<&Node> = element.inner.iter().filter(|part| part.tag == 0x50).collect();
    let mut found = vec![];
    for (i, one) in attributes.iter().enumerate() {
        let same = |other: &&&Node| normalised(&written(other)) == normalised(&written(one));
        found.extend(attributes[i + 1..].iter().filter(same).map(|other| (*one, *other)));
    }
    found
}

impl Repeats {
    pub fn new() -> Self {
        Repeats { kinds: KINDS.map(|kind| (kind.0, 0)), ..Repeats::default() }
    }

    /// Counts what a call met.
    pub fn meet(&mut self, page: &[u8], options: &[u8], answer: &Outcome) {
        if !matches!(answer, Ok(_) | Err(Refusal::RepeatedAttribute | Refusal::TagLeft)) {
            return;
        }
        let (page, options) = (field::read(page).unwrap_or_default(), field::read(options).unwrap_or_default());
        let mut serializable = vec![];
        let mut others = 0;
        for node in &page {
            node.each(&mut |node| match pairs_of(node) {
                found if is_serializable(node, &options) => serializable.extend(found),
                found => others += found.len(),
            });
        }
        match answer {
            Ok(_) => {
                self.called += u64::from(others > 0);
                self.lost += u64::from(!serializable.is_empty());
            }
            Err(Refusal::TagLeft) => self.tag_left += u64::from(!serializable.is_empty()),
            Err(_) => {
                let lists = options.iter().filter(|option| option.tag == 0x03).flat_map(|list| &list.inner);
                let listed: Vec<&[u8]> = lists.map(|name| &name.bytes[..]).collect();
                for ((_, count), (_, is_so)) in self.kinds.iter_mut().zip(KINDS) {
                    *count += u64::from(serializable.iter().any(|(one, other)| is_so(one, other, &listed)));
                }
            }
        }
    }

    fn others(&self) -> [(&'static str, u64); 3] {
        [
            ("accepted on a call", self.called),
            ("accepted in a lost place", self.lost),
            ("behind a tag that is left", self.tag_left),
        ]
    }

    pub fn table(&self) -> String {
        let mut out = String::new();
        let named = |counts: &[(&str, u64)]| counts.iter().map(|(what, n)| format!("{what} {n}")).collect::<Vec<_>>();
        for (what, counts) in [("refused", named(&self.kinds)), ("not refused so", named(&self.others()))] {
            writeln!(out, "attributes twice, {what}: {}", counts.join(", ")).expect("a string can be written");
        }
        out
    }

    /// What must be reached, and how often it was.
    pub fn all(&self) -> Vec<(String, u64)> {
        let named = |(what, n): (&str, u64)| (format!("attributes twice: {what}"), n);
        self.kinds.into_iter().chain(self.others()).map(named).collect()
    }
}

fn pairs_of(node: &Node) -> Vec<(&Node, &Node)> {
    if node.tag == 0x30 { pairs(node) } else { vec![] }
}
