//! Random pages that meet the grammar of 01. Bytes are written at once, lengths afterwards.

use super::decimals;
use super::names;
use super::rng::Rng;
use super::sums;
use super::texts;
use crate::answer::{MOST_NUMBER, MOST_PAGE};
use crate::field::{begin, finish};

/// What a page is made like.
pub struct Shape {
    /// No new field is started once the page has this many bytes.
    pub bytes: usize,
    /// The deepest field that may be made; a page on a chain reaches exactly this.
    pub depth: usize,
    /// Whether a chain of tags goes down to `depth`.
    pub chain: bool,
    /// Few names, so that options and attributes meet often.
    pub few_names: Option<Vec<String>>,
    /// Of a hundred elements with attributes, how many get one of them twice (02, A4).
    pub repeats: usize,
    /// Of a hundred elements, how many are void only once their names are in small letters (02, A10).
    pub mixed_case: usize,
}

pub fn page(rng: &mut Rng, shape: Shape) -> Vec<u8> {
    let mut maker = Maker { rng, out: Vec::with_capacity(shape.bytes + 64), shape };
    let at = begin(&mut maker.out, 0x01);
    maker.items();
    finish(&mut maker.out, at);
    maker.out
}

/// A page made up to exactly `length` bytes by a last statement of source text, where it has room for one.
pub fn padded(mut page: Vec<u8>, length: usize) -> Vec<u8> {
    if let Some(more) = length.checked_sub(page.len() + 6) {
        let at = begin(&mut page, 0x12);
        let inner = begin(&mut page, 0x20);
        page.extend(std::iter::repeat_n(b' ', more));
        finish(&mut page, inner);
        finish(&mut page, at);
        finish(&mut page, 0);
    }
    page
}

/// The names of an element's attributes so far.
#[derive(Default)]
struct Seen {
    written: Vec<String>,
    normalised: Vec<String>,
}

impl Seen {
    /// Whether no attribute has the name yet, normalised and in small letters.
    fn is_new(&mut self, name: &str) -> bool {
        let normalised = names::normalised(name);
        let new = !self.normalised.contains(&normalised);
        if new {
            self.written.push(name.to_string());
            self.normalised.push(normalised);
        }
        new
    }

    /// A name that is normalised as one of these, or nearly so.
    fn again(&self, rng: &mut Rng) -> Option<String> {
        let written: Vec<&str> = self.written.iter().map(String::as_str).collect();
        (!written.is_empty()).then(|| {
            let one = rng.pick(&written);
            names::again(rng, one)
        })
    }
}

struct Maker<'r> {
    rng: &'r mut Rng,
    out: Vec<u8>,
    shape: Shape,
}

impl Maker<'_> {
    fn field(&mut self, tag: u8, inside: impl FnOnce(&mut Self)) {
        let at = begin(&mut self.out, tag);
        inside(self);
        finish(&mut self.out, at);
    }

    fn leaf(&mut self, tag: u8, bytes: &[u8]) {
        self.field(tag, |m| m.out.extend(bytes));
    }

    fn full(&self) -> bool {
        self.out.len() >= self.shape.bytes
    }

    /// A leaf of random text.
    fn words(&mut self, tag: u8) {
        let most = self.shape.bytes.saturating_sub(self.out.len()).min(MOST_PAGE);
        let at = begin(&mut self.out, tag);
        texts::text(self.rng, &mut self.out, most);
        finish(&mut self.out, at);
    }

    fn items(&mut self) {
        let chained = self.shape.chain;
        if chained {
            let tag = if self.rng.chance(80) { 0x12 } else { 0x10 };
            self.field(tag, |m| m.chain_piece(3));
        }
        let most = if self.shape.bytes > 1000 { usize::MAX } else { self.rng.within(0, 4) };
        for _ in 0..most {
            if self.full() {
                break;
            }
            match self.rng.weighted(&[12, 14, 62, 12]) {
                0 => self.field(0x10, |m| m.pieces(3)),
                1 => self.field(0x11, |m| m.pieces(3)),
                2 => self.field(0x12, |m| m.pieces(3)),
                _ => self.leaf(0x13, b""),
            }
        }
    }

    fn pieces(&mut self, depth: usize) {
        for i in 0..self.rng.weighted(&[4, 40, 25, 25, 6]) {
            if self.full() {
                break;
            }
            let tags = self.can_hold(depth);
            match self.rng.weighted(if tags { &[30, 52, 18] } else { &[1, 0, 0] }) {
                0 if i == 0 && self.rng.chance(20) => self.leaf(0x20, b"export default "),
                0 if self.rng.chance(4) => {
                    let text = sums::text(self.rng);
                    self.leaf(0x20, text.as_bytes());
                }
                0 => self.words(0x20),
                1 => self.field(0x30, |m| m.element(depth)),
                _ => self.field(0x31, |m| m.children(depth + 1)),
            }
        }
    }

    /// Whether a tag at this depth has room for a name and its 40s.
    fn can_hold(&self, depth: usize) -> bool {
        depth + 3 <= self.shape.depth && !self.full()
    }

    /// The body of a 30 that lies at `depth`.
    fn element(&mut self, depth: usize) {
        let called = self.element_name();
        if !self.can_hold(depth) {
            return;
        }
        let mut names = Seen::default();
        for _ in 0..self.rng.weighted(&[40, 32, 16, 8, 4]) {
            if self.full() {
                break;
            }
            self.attribute(depth + 1, &mut names);
        }
        if self.rng.chance(self.shape.repeats)
            && let Some(name) = names.again(self.rng)
        {
            self.attribute_named(depth + 1, &name);
        }
        // On an element that is serialized they would be refused.
        if called && self.rng.chance(12) {
            self.keys(depth + 1);
        }
        self.children(depth + 1);
    }

    /// The name of an element; whether it is never serialized.
    fn element_name(&mut self) -> bool {
        let kind = self.rng.weighted(&[68, 20, 6, 6]);
        match kind {
            0 => {
                let name = match &self.shape.few_names {
                    _ if self.rng.chance(self.shape.mixed_case) => names::mixed_case_void(self.rng),
                    Some(few) if self.rng.chance(60) => few[self.rng.below(few.len())].clone(),
                    _ => names::tag(self.rng),
                };
                self.leaf(0x40, name.as_bytes());
            }
            1 => {
                let name = names::component(self.rng);
                self.leaf(0x40, name.as_bytes());
            }
            2 => {
                let parts = if self.rng.chance(80) { self.rng.within(2, 3) } else { self.rng.within(2, 8) };
                let parts = names::member(self.rng, parts);
                self.field(0x41, |m| parts.iter().for_each(|p| m.leaf(0x40, p.as_bytes())));
            }
            _ => {
                let name = names::namespaced(self.rng).join(":");
                self.name(&name);
            }
        }
        kind > 0
    }

    /// A 40, or a 42 where the name has a colon.
    fn name(&mut self, name: &str) {
        match name.split_once(':') {
            None => self.leaf(0x40, name.as_bytes()),
            Some((space, name)) => self.field(0x42, |m| {
                m.leaf(0x40, space.as_bytes());
                m.leaf(0x40, name.as_bytes());
            }),
        }
    }

    fn attribute(&mut self, depth: usize, names: &mut Seen) {
        if self.rng.chance(7) {
            return self.field(0x53, |m| m.expression(depth + 1));
        }
        // A name that another attribute has is drawn again, as often as is worth while.
        for _ in 0..5 {
            let name = self.attribute_name();
            if names.is_new(&name) {
                return self.attribute_named(depth, &name);
            }
        }
    }

    fn attribute_named(&mut self, depth: usize, name: &str) {
        self.field(0x50, |m| {
            m.name(name);
            m.attribute_value(depth);
        });
    }

    /// Several attributes that may read as `key`, of which a call keeps one value.
    fn keys(&mut self, depth: usize) {
        for _ in 0..self.rng.within(2, 3) {
            self.field(0x50, |m| {
                let name = names::key(m.rng);
                m.leaf(0x40, name.as_bytes());
                m.attribute_value(depth);
            });
        }
    }

    /// The value of an attribute at `depth`, or none.
    fn attribute_value(&mut self, depth: usize) {
        // With few names the attribute may be listed, and then a container or a tag as its value is passed on.
        let weights = if self.shape.few_names.is_some() { &[17, 20, 43, 10, 10] } else { &[22, 27, 43, 4, 4] };
        match self.rng.weighted(weights) {
            0 => {}
            1 => self.words(0x51),
            2 => self.container(depth + 1),
            3 if self.can_hold(depth + 1) => self.field(0x30, |m| m.element(depth + 1)),
            4 if self.can_hold(depth + 1) => self.field(0x31, |m| m.children(depth + 2)),
            _ => {}
        }
    }

    fn attribute_name(&mut self) -> String {
        if self.rng.chance(8) {
            return names::namespaced(self.rng).join(":");
        }
        match &self.shape.few_names {
            Some(few) if self.rng.chance(60) => few[self.rng.below(few.len())].clone(),
            _ => names::attribute(self.rng),
        }
    }

    /// A 52 at `depth`.
    fn container(&mut self, depth: usize) {
        let empty = self.rng.chance(7) || depth + 1 > self.shape.depth;
        self.field(0x52, |m| {
            if !empty {
                m.expression(depth + 1);
            }
        });
    }

    /// Children that lie at `depth`.
    fn children(&mut self, depth: usize) {
        let most = match self.rng.weighted(&[22, 30, 38, 10]) {
            0 => 0,
            1 => 1,
            2 => self.rng.within(2, 4),
            _ => self.rng.within(4, 9),
        };
        for _ in 0..most {
            if self.full() || depth > self.shape.depth {
                break;
            }
            self.child(depth);
        }
    }

    fn child(&mut self, depth: usize) {
        let weights: &[usize] = if self.can_hold(depth) { &[38, 28, 24, 7, 3] } else { &[50, 50, 0, 0, 0] };
        match self.rng.weighted(weights) {
            0 => self.words(0x60),
            1 => self.container(depth),
            2 => self.field(0x30, |m| m.element(depth)),
            3 => self.field(0x31, |m| m.children(depth + 1)),
            _ => self.field(0x61, |m| m.expression(depth + 1)),
        }
    }

    /// An expression at `depth`, which the depth allows.
    fn expression(&mut self, depth: usize) {
        let weights: &[usize] = if self.can_hold(depth) {
            &[22, 10, 8, 4, 5, 6, 8, 5, 7, 22, 12, 4, 14]
        } else {
            &[22, 10, 8, 4, 5, 6, 8, 5, 0, 0, 0, 0, 0]
        };
        match self.rng.weighted(weights) {
            0 => self.words(0x70),
            1 => self.number(0x71),
            2 => {
                let value = self.rng.below(2) as u8;
                self.leaf(0x72, &[value]);
            }
            3 => self.leaf(0x73, b""),
            4 => self.words(0x74),
            5 => self.number(0x75),
            6 => self.decimal(0x7a),
            7 => self.decimal(0x7b),
            8 => self.field(0x76, |m| m.elements(depth + 1)),
            9 => self.field(0x79, |m| m.pieces(depth + 1)),
            10 => self.field(0x30, |m| m.element(depth)),
            11 => self.field(0x31, |m| m.children(depth + 1)),
            _ => self.sum(),
        }
    }

    /// A 79 of a text that is a sum or nearly one: one piece, now and then two.
    fn sum(&mut self) {
        let text = sums::text(self.rng);
        let cut = if self.rng.chance(8) { self.rng.below(text.len() + 1) } else { 0 };
        let cut = if text.is_char_boundary(cut) { cut } else { 0 };
        self.field(0x79, |m| {
            if cut > 0 {
                m.leaf(0x20, &text.as_bytes()[..cut]);
            }
            m.leaf(0x20, &text.as_bytes()[cut..]);
        });
    }

    fn number(&mut self, tag: u8) {
        let value = match self.rng.below(6) {
            0 => 0,
            1 => MOST_NUMBER - self.rng.below(3) as u64,
            2 => self.rng.draw() % (MOST_NUMBER + 1),
            3 => 10_u64.pow(self.rng.below(16) as u32),
            _ => self.rng.below(1000) as u64,
        };
        self.leaf(tag, &value.to_be_bytes());
    }

    fn decimal(&mut self, tag: u8) {
        let body = decimals::decimal(self.rng).bytes();
        self.leaf(tag, &body);
    }

    fn elements(&mut self, depth: usize) {
        for _ in 0..self.rng.weighted(&[20, 35, 25, 15, 5]) {
            if self.full() {
                break;
            }
            match self.rng.weighted(&[70, 17, 13]) {
                0 => self.expression(depth),
                1 => self.field(0x77, |m| m.expression(depth + 1)),
                _ => self.leaf(0x78, b""),
            }
        }
    }

    // A chain goes down to the shape's depth exactly. Beside it stand small leaves.

    fn chain_piece(&mut self, depth: usize) {
        if self.rng.chance(50) {
            self.words(0x20);
        }
        self.chain_tag(depth);
    }

    /// A 30 or 31 at `depth` with the chain in it.
    fn chain_tag(&mut self, depth: usize) {
        if self.rng.chance(15) && depth < self.shape.depth {
            return self.field(0x31, |m| m.chain_children(depth + 1));
        }
        self.field(0x30, |m| {
            let name = if m.rng.chance(70) { "i" } else { "Foo" };
            m.leaf(0x40, name.as_bytes());
            if depth + 4 <= m.shape.depth && m.rng.chance(10) {
                let spread = m.rng.chance(20);
                return m.field(if spread { 0x53 } else { 0x50 }, |m| {
                    if spread {
                        return m.chain_expression(depth + 2);
                    }
                    m.leaf(0x40, b"a");
                    m.field(0x52, |m| m.chain_expression(depth + 3));
                });
            }
            if depth < m.shape.depth {
                m.chain_children(depth + 1);
            }
        });
    }

    fn chain_children(&mut self, depth: usize) {
        if self.rng.chance(15) {
            self.words(0x60);
        }
        let tags = depth < self.shape.depth;
        match self.rng.weighted(if tags { &[1, 140, 59] } else { &[1, 0, 0] }) {
            0 => self.leaf(0x60, b"end"),
            1 => self.chain_tag(depth),
            _ => self.field(0x52, |m| m.chain_expression(depth + 1)),
        }
        if self.rng.chance(10) {
            self.words(0x60);
        }
    }

    fn chain_expression(&mut self, depth: usize) {
        let tags = depth < self.shape.depth;
        match self.rng.weighted(if tags { &[1, 120, 28, 28, 20] } else { &[1, 0, 0, 0, 0] }) {
            0 => self.leaf(0x73, b""),
            1 => self.chain_tag(depth),
            2 => self.field(0x76, |m| m.chain_expression(depth + 1)),
            3 if depth + 2 <= self.shape.depth => self.field(0x79, |m| m.chain_tag(depth + 1)),
            4 if depth + 2 <= self.shape.depth => {
                self.field(0x76, |m| m.field(0x77, |m| m.chain_expression(depth + 2)));
            }
            _ => self.leaf(0x73, b""),
        }
    }
}
