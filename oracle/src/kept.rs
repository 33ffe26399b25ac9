//! 02, A9, as a check on bytes: every 74 and 79 of an accepted page stands in page out exactly as often as in the page
//! outside four places. Where sums are worked out (A12) the page is the worked one.
//!
//! What is serialized, what is listed and what reads as `key` is decided on the page's own fields, in a few lines made
//! anew from 000; only for names are 000's own `is_void_element` and `normalize_dom_attr_name` asked.

use crate::field::{self, Node};
use crate::private::{is_void_element, normalize_dom_attr_name};
use crate::sums;
use std::collections::BTreeMap;

/// Where expressions are lost. What lies within such a place is lost with it, and counted for the outermost one.
#[derive(Clone, Copy, Debug, PartialEq, Eq)]
pub enum Place {
    /// Children of a serialized void element.
    VoidChild,
    /// A spread child.
    SpreadChild,
    /// An attribute value that is a tag without a container, unless its name is listed and its element serialized.
    TagValue,
    /// On the call path, a value of an attribute reading as `key` when the key is taken from a later one.
    EarlierKey,
}

pub const PLACES: [Place; 4] = [Place::VoidChild, Place::SpreadChild, Place::TagValue, Place::EarlierKey];

/// How many expressions were kept, and how many were lost in each place, in the order of `PLACES`.
#[derive(Clone, Copy, Debug, Default, PartialEq, Eq)]
pub struct Counts {
    pub kept: u64,
    pub lost: [u64; PLACES.len()],
}

impl Counts {
    pub fn add(&mut self, other: Counts) {
        self.kept += other.kept;
        for (sum, lost) in self.lost.iter_mut().zip(other.lost) {
            *sum += lost;
        }
    }

    pub fn lost_in(&self, place: Place) -> u64 {
        self.lost[place as usize]
    }
}

/// The counts of an accepted page; where A9 does not hold, an expression that stands more or less often in page out.
pub fn compare(page: &[u8], options: &[u8], page_out: &[u8]) -> Result<Counts, String> {
    let page = field::read(&sums::given(page, options)).ok_or("the page is no row of fields")?;
    let options = field::read(options).ok_or("the options are no row of fields")?;
    let page_out = field::read(page_out).ok_or("page out is no row of fields")?;
    let mut walk = Walk::new(&options);
    walk.row(&page, None);
    let mut there = Tally::new();
    for node in &page_out {
        node.each(&mut |node| {
            if let Some(expression) = expression(node) {
                *there.entry(expression).or_default() += 1;
            }
        });
    }
    match first_difference(&walk.kept, &there) {
        None => Ok(walk.counts),
        Some((expression, due, found)) => {
            Err(format!("{}: {due} times in the page, {found} times in page out", words(expression)))
        }
    }
}

/// The elements of a page that are serialized as this walk has it: those outside the lost places that are no calls.
pub fn serialized<'a>(page: &'a [Node], options: &'a [Node]) -> Vec<&'a Node> {
    let mut walk = Walk::new(options);
    walk.row(page, None);
    walk.serialized
}

/// Whether the Rust would serialize this element, a field of a page, if it comes to it.
pub fn is_serializable(element: &Node, options: &[Node]) -> bool {
    element.inner.split_first().is_some_and(|(name, parts)| Walk::new(options).is_serialized(name, parts))
}

/// The counts of an accepted page as it stands, its sums not worked out.
pub fn counts(page: &[u8], options: &[u8]) -> Counts {
    let (page, options) = (field::read(page).unwrap_or_default(), field::read(options).unwrap_or_default());
    let mut walk = Walk::new(&options);
    walk.row(&page, None);
    walk.counts
}

/// The first expression that is not equally often in both, and how often in each.
fn first_difference<'t, 'a>(due: &'t Tally<'a>, there: &'t Tally<'a>) -> Option<(&'t Expression<'a>, u64, u64)> {
    let often = |tally: &Tally<'a>, expression: &Expression<'a>| tally.get(expression).copied().unwrap_or(0);
    let mut both = due.keys().chain(there.keys()).map(|e| (e, often(due, e), often(there, e)));
    both.find(|(_, due, there)| due != there)
}

/// A 74 by its body, a 79 by the list of its own source pieces; the tag tells which.
type Expression<'a> = (u8, Vec<&'a [u8]>);

type Tally<'a> = BTreeMap<Expression<'a>, u64>;

fn expression(node: &Node) -> Option<Expression<'_>> {
    match node.tag {
        0x74 => Some((0x74, vec![&node.bytes])),
        0x79 => {
            let own = node.inner.iter().filter(|piece| piece.tag == 0x20);
            Some((0x79, own.map(|piece| &piece.bytes[..]).collect()))
        }
        _ => None,
    }
}

fn words((tag, pieces): &Expression) -> String {
    let pieces: Vec<String> = pieces.iter().map(|p| String::from_utf8_lossy(p).into_owned()).collect();
    format!("{tag:02x} {pieces:?}")
}

/// The walk over the page: what is due in page out, and how much was lost where.
struct Walk<'a> {
    /// 02.
    elements_listed: Vec<&'a [u8]>,
    /// 03.
    attributes_listed: Vec<&'a [u8]>,
    kept: Tally<'a>,
    counts: Counts,
    /// Elements that are serialized.
    serialized: Vec<&'a Node>,
}

impl<'a> Walk<'a> {
    fn new(options: &'a [Node]) -> Self {
        let listed = |tag: u8| {
            let lists = options.iter().filter(|option| option.tag == tag);
            lists.flat_map(|list| &list.inner).map(|name| &name.bytes[..]).collect()
        };
        Walk {
            elements_listed: listed(0x02),
            attributes_listed: listed(0x03),
            kept: Tally::new(),
            counts: Counts::default(),
            serialized: vec![],
        }
    }

    fn row(&mut self, row: &'a [Node], lost: Option<Place>) {
        for node in row {
            self.node(node, lost);
        }
    }

    fn node(&mut self, node: &'a Node, lost: Option<Place>) {
        if let Some(expression) = expression(node) {
            match lost {
                Some(place) => self.counts.lost[place as usize] += 1,
                None => {
                    self.counts.kept += 1;
                    *self.kept.entry(expression).or_default() += 1;
                }
            }
        }
        match node.tag {
            0x30 if lost.is_none() => self.element(node),
            0x61 => self.row(&node.inner, lost.or(Some(Place::SpreadChild))),
            _ => self.row(&node.inner, lost),
        }
    }

    /// An element outside the lost places: a name, attributes, children.
    fn element(&mut self, element: &'a Node) {
        let (name, parts) = element.inner.split_first().expect("an element has a name");
        let serialized = self.is_serialized(name, parts);
        let void = serialized && is_void_element(text(name));
        self.serialized.extend(serialized.then_some(element));
        for (i, part) in parts.iter().enumerate() {
            let lost = match part.tag {
                0x50 => self.lost_value(part, name, serialized, &parts[i + 1..]),
                0x53 => None,
                _ => void.then_some(Place::VoidChild),
            };
            self.node(part, lost);
        }
    }

    /// 000's `is_serializable`: an identifier that is no component and not listed in 02, without a spread attribute and
    /// `dangerouslySetInnerHTML`.
    fn is_serialized(&self, name: &Node, parts: &[Node]) -> bool {
        let bars = |part: &Node| match part.tag {
            0x50 => is_identifier(&part.inner[0], |written| written == "dangerouslySetInnerHTML"),
            tag => tag == 0x53,
        };
        name.tag == 0x40
            && !is_component(name)
            && !self.elements_listed.contains(&&name.bytes[..])
            && !parts.iter().any(bars)
    }

    /// Where the value of an attribute is lost, if it is; `later` is what follows it in its element.
    fn lost_value(&self, attribute: &Node, element: &Node, serialized: bool, later: &[Node]) -> Option<Place> {
        let value = attribute.inner.get(1)?;
        let takes_key = |part: &Node| part.tag == 0x50 && part.inner.len() > 1 && reads_as_key(part, element);
        if matches!(value.tag, 0x30 | 0x31) && !(serialized && self.is_listed(attribute)) {
            Some(Place::TagValue)
        } else if !serialized && reads_as_key(attribute, element) && later.iter().any(takes_key) {
            Some(Place::EarlierKey)
        } else {
            None
        }
    }

    /// Whether 03 has the attribute: an identifier as written, a namespaced name normalised.
    fn is_listed(&self, attribute: &Node) -> bool {
        let name = &attribute.inner[0];
        let searched = match name.tag {
            0x40 => text(name).to_string(),
            _ => normalize_dom_attr_name(&format!("{}:{}", text(&name.inner[0]), text(&name.inner[1]))),
        };
        self.attributes_listed.contains(&searched.as_bytes())
    }
}

/// Whether 000 reads the attribute's name as `key` on the call path: of a component as written, else normalised. No
/// namespaced name does, since it has a colon or becomes `href`.
fn reads_as_key(attribute: &Node, element: &Node) -> bool {
    is_identifier(&attribute.inner[0], |written| {
        if is_component(element) { written == "key" } else { normalize_dom_attr_name(written) == "key" }
    })
}

fn is_identifier(name: &Node, holds: impl Fn(&str) -> bool) -> bool {
    name.tag == 0x40 && holds(text(name))
}

/// A member, or an identifier with a capital in front.
fn is_component(name: &Node) -> bool {
    name.tag == 0x41 || name.tag == 0x40 && name.bytes[0].is_ascii_uppercase()
}

fn text(name: &Node) -> &str {
    std::str::from_utf8(&name.bytes).expect("a name is ASCII")
}
