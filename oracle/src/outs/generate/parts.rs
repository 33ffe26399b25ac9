//! Page outs by their grammar, any expression wherever one may stand. The numbers of calls are zeros, for the caller to
//! fill in.

use crate::generate::rng::Rng;
use crate::outs::page::Part;

const TEXTS: [&str; 12] =
    ["", "a", "Hi", " = ", "\u{e9}", "\u{1f600}", "<br>", "&\"'", "\0", "\n", "react/jsx-runtime", "() => "];
const NAMES: [&str; 10] = ["a", "Foo", "$", "_", "my-el", "a-", "B9", "$_-0", "key", "div"];
const MEMBERS: [&str; 6] = ["a", "Foo", "$", "_", "B9", "aB"];
const LEAVES: [u8; 8] = [0x70, 0x71, 0x72, 0x73, 0x74, 0x75, 0x7a, 0x7b];
const HOLDERS: [u8; 7] = [0x76, 0x79, 0x90, 0x91, 0x92, 0x93, 0x94];

pub struct Parts<'a> {
    rng: &'a mut Rng,
    out: Vec<Part>,
    /// How many more fields may hold others.
    left: usize,
}

/// A page out with about so many fields that hold others.
pub fn page(rng: &mut Rng, holders: usize) -> Vec<Part> {
    let mut parts = Parts { rng, out: vec![], left: holders };
    parts.top();
    parts.out
}

/// One expression alone.
pub fn expression(rng: &mut Rng, holders: usize) -> Vec<Part> {
    let mut parts = Parts { rng, out: vec![], left: holders };
    parts.expression();
    parts.out
}

pub fn leaf(tag: u8, bytes: impl Into<Vec<u8>>) -> [Part; 3] {
    [Part::Open(tag), Part::Bytes(bytes.into()), Part::Close]
}

impl Parts<'_> {
    fn top(&mut self) {
        if self.rng.chance(60) {
            self.out.push(Part::Open(0x82));
            self.text(0x81);
            let sum = self.rng.within(1, 15) as u8;
            self.out.extend([Part::Bytes(vec![sum]), Part::Close]);
        }
        let weights = if self.rng.chance(30) { [0, 50, 0, 50] } else { [10, 25, 45, 20] };
        let items: Vec<u8> = (0..self.rng.below(5)).map(|_| 0x10 + self.rng.weighted(&weights) as u8).collect();
        let first = items.iter().position(|tag| matches!(tag, 0x10 | 0x12)).unwrap_or(0);
        let place = match self.rng.weighted(&[50, 45, 5]) {
            0 => None,
            1 => Some(first),
            _ => Some(self.rng.below(items.len() + 1)),
        };
        for (at, tag) in items.iter().enumerate() {
            if place == Some(at) {
                self.out.extend(leaf(0x83, b""));
            }
            if *tag == 0x13 {
                self.out.extend(leaf(0x13, b""));
            } else {
                self.row(*tag, Self::pieces);
            }
        }
        if place == Some(items.len()) {
            self.out.extend(leaf(0x83, b""));
        }
    }

    fn row(&mut self, tag: u8, inside: impl FnOnce(&mut Self)) {
        self.out.push(Part::Open(tag));
        inside(self);
        self.out.push(Part::Close);
    }

    fn text(&mut self, tag: u8) {
        let text = self.rng.pick(&TEXTS);
        self.out.extend(leaf(tag, text.as_bytes()));
    }

    fn pieces(&mut self) {
        for _ in 0..self.rng.below(4) {
            if self.rng.chance(35) { self.text(0x20) } else { self.expression() }
        }
    }

    fn expressions(&mut self) {
        for _ in 0..self.rng.below(4) {
            self.expression();
        }
    }

    fn expression(&mut self) {
        if self.left == 0 || self.rng.chance(35) {
            return self.literal();
        }
        self.left -= 1;
        // Calls of templates are what is converted.
        let tag = HOLDERS[self.rng.weighted(&[10, 15, 35, 10, 10, 8, 12])];
        self.row(tag, |parts| match tag {
            0x76 => parts.elements(),
            0x79 => parts.pieces(),
            0x90 => {
                parts.out.push(Part::Number(0));
                parts.expressions();
            }
            0x91 => {
                parts.text(0x81);
                parts.expression();
            }
            0x92 => parts.expression(),
            0x93 => {
                parts.expression();
                parts.text(0x81);
            }
            _ => parts.call(),
        });
    }

    fn literal(&mut self) {
        let tag = LEAVES[self.rng.below(LEAVES.len())];
        let bytes = match tag {
            0x70 | 0x74 => return self.text(tag),
            0x71 | 0x75 => self.number([0, 1, 1 << 32, 9_007_199_254_740_991]).to_vec(),
            0x72 => vec![self.rng.below(2) as u8],
            0x73 => vec![],
            _ => {
                let digits = self.number([0, 5, 1250, 999_999_999_999_999]).to_vec();
                [digits, vec![self.rng.within(0, 15) as u8]].concat()
            }
        };
        self.out.extend(leaf(tag, bytes));
    }

    fn number(&mut self, of: [u64; 4]) -> [u8; 8] {
        of[self.rng.below(of.len())].to_be_bytes()
    }

    fn elements(&mut self) {
        for _ in 0..self.rng.below(4) {
            match self.rng.below(4) {
                0 => self.out.extend(leaf(0x78, b"")),
                1 => self.row(0x77, Self::expression),
                _ => self.expression(),
            }
        }
    }

    fn call(&mut self) {
        match self.rng.below(3) {
            0 => self.text(0x81),
            1 => {
                let long = "n".repeat(self.rng.within(120, 128));
                let name = if self.rng.chance(5) { &long } else { self.rng.pick(&NAMES) };
                self.out.extend(leaf(0x40, name.as_bytes()));
            }
            _ => self.row(0x41, |parts| {
                for _ in 0..parts.rng.within(2, 8) {
                    let name = parts.rng.pick(&MEMBERS);
                    parts.out.extend(leaf(0x40, name.as_bytes()));
                }
            }),
        }
        if self.rng.chance(30) {
            self.out.extend(leaf(0x73, b""))
        } else {
            self.row(0x95, Self::properties)
        }
        if self.rng.chance(30) {
            self.expression();
        }
    }

    fn properties(&mut self) {
        for _ in 0..self.rng.below(4) {
            if self.rng.chance(25) {
                self.row(0x53, Self::expression);
            } else {
                self.row(0x96, |parts| {
                    parts.text(0x81);
                    parts.expression();
                });
            }
        }
    }
}
