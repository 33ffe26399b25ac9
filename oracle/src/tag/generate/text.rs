//! Tag text by the grammar, with all its productions; at a given rate something stands there that is nearly right.

use crate::answer::{MOST_NAME, MOST_NUMBER};
use crate::decimal::MOST_DIGITS;
use crate::generate::rng::Rng;
use crate::generate::texts::WHITE_SPACE;

pub struct Text<'a> {
    rng: &'a mut Rng,
    out: String,
    /// About how long the text is to be.
    bytes: usize,
    /// Of a thousand closing names, and of a thousand other parts, how many are not right.
    names: usize,
    misses: usize,
    /// Of a hundred places where white space may stand, how many have some.
    spaced: usize,
}

const NAMES: [&str; 20] = [
    "a",
    "b",
    "i",
    "p",
    "li",
    "br",
    "div",
    "Foo",
    "x1",
    "_x",
    "$",
    "$9",
    "aB",
    "my-el",
    "a-",
    "aria-label",
    "class",
    "key",
    "true",
    "null",
];

const SOURCES: [&str; 32] = [
    "n",
    "a + b",
    "f(x)",
    "a.b(c)",
    "{ a: 1 }",
    "{}",
    "x => y",
    "a > b && c",
    "!a",
    "(1)",
    "a[0]",
    "'}'",
    "f(\"{\")",
    "\"a\" + 'b'",
    "a\n  + b",
    "\u{e9}",
    "\u{1f600}",
    "\u{a0}",
    "&lt;",
    "- -5px",
    "+1",
    "01",
    "-00",
    "1 + 2",
    "1 -\n2",
    "-",
    "nulls",
    "True",
    "a ? 1 : 0",
    "$_",
    "a = {b: {c: 1}}",
    "\"\"\"\"",
];

const STRINGS: [&str; 12] = ["", "a", "it", "{", "}", "}{", "</a>", "a/b", "&amp;", "\u{e9}", "[`]", " x "];

const ENTITIES: [&str; 5] = ["&amp;", "&lt;", "&gt;", "&quot;", "&#39;"];

const LETTERS: [&str; 22] = [
    "a",
    "Hi ",
    "seat",
    " ",
    "\n",
    "\r\n",
    "\t",
    ".",
    "/",
    "=",
    "'",
    "\"",
    "`",
    "\\",
    "[",
    ";",
    "lt;",
    "\u{e9}",
    "\u{1f600}",
    "\u{feff}",
    "\0",
    "\u{7f}",
];

/// Nearly an entity.
const NO_ENTITIES: [&str; 12] =
    ["&", "&amp", "&lt", "&;", "&nbsp;", "&apos;", "&#38;", "&#039;", "&LT;", "& lt;", "&l\u{e9};", "&#39"];

/// What is not read in braces.
const NO_SOURCES: [&str; 40] = [
    "[a]", "a / b", "a < b", "`a`", "\"\\\"\"", "'\\n'", "a\\b", "it's", "\"a", "'a\nb'", "\"a\rb\"", "f('a/b')",
    "f(\"<\")", "f('`')", "1 + a", "5px", "-5px", "- 5px", "1e3", "0x10", "1_6", "01.5", "5.", ".5", "-.5", "- .5",
    "1.2.3", ".", "-.", "1 + 'a'", "7n", "{a", "a}", "<i/> + 1", "<i/><i/>", "/* a */", "...a", "..a", "", " ",
];

/// What is not read in a tag, or where a child stands.
const NO_PARTS: [&str; 26] = [
    "{a}", "{}", "{..a}", "{. ..a}", "{...}", "=", "\"a\"", "/", ":", ".", "1", "-a", "\u{e9}", "\u{b}", "b=", "b=1",
    "b=c", "b={}", "b={ }", "b={...c}", "b.c", "b:c:d", "b=\"&\"", "b='", ">", "}",
];

impl<'a> Text<'a> {
    pub fn new(rng: &'a mut Rng, bytes: usize, names: usize, misses: usize) -> Text<'a> {
        let spaced = [0, 5, 30][rng.weighted(&[40, 35, 25])];
        Text { rng, out: String::new(), bytes, names, misses, spaced }
    }

    pub fn written(mut self) -> Vec<u8> {
        if self.misses(5) {
            self.put(&[" ", "\n", "a", "\u{feff}"]);
        }
        let levels = self.rng.within(1, 9);
        self.tag(levels);
        if self.misses(5) {
            self.put(&[" ", "\n", "a", "<a/>", "\0"]);
        }
        self.out.into_bytes()
    }

    /// True at the rate of near misses, as often as the weight says.
    fn misses(&mut self, weight: usize) -> bool {
        self.rng.below(1000) < self.misses * weight / 5
    }

    fn put(&mut self, of: &[&str]) {
        self.out += of[self.rng.below(of.len())];
    }

    fn is_full(&self) -> bool {
        self.out.len() >= self.bytes
    }

    fn spaces(&mut self) {
        if self.rng.chance(self.spaced) {
            (0..self.rng.within(1, 3)).for_each(|_| self.put(&[" ", " ", "\n", "\t", "\r", "\r\n"]));
        }
        if self.misses(1) {
            self.out += WHITE_SPACE[self.rng.below(WHITE_SPACE.len())];
        }
    }

    fn sign(&mut self, sign: &str) {
        self.spaces();
        self.out += sign;
        self.spaces();
    }

    /// What ends something; missing now and then.
    fn end(&mut self, sign: &str) {
        if !self.misses(1) {
            self.out += sign;
        }
    }

    fn tag(&mut self, levels: usize) {
        self.out += "<";
        if self.rng.chance(20) {
            self.spaces();
            self.out += ">";
            self.children(levels);
            self.closing(&[]);
            return;
        }
        self.spaces();
        let name = self.name(true);
        self.attributes(levels);
        if self.rng.chance(40) {
            self.sign("/");
            self.end(">");
            return;
        }
        self.spaces();
        self.out += ">";
        self.children(levels);
        self.closing(&name);
    }

    fn closing(&mut self, name: &[String]) {
        self.out += "<";
        self.sign("/");
        let mut name = name.to_vec();
        if self.rng.below(1000) < self.names {
            match self.rng.below(5) {
                0 => name = vec![],
                1 => name = vec![self.identifier()],
                2 if name.len() > 1 => name[1] = if name[1] == "." { ":" } else { "." }.to_string(),
                3 if name.len() == 1 => name.extend([".".to_string(), "a".to_string()]),
                _ if name.len() > 2 => name.truncate(1),
                _ => name = vec!["other".to_string()],
            }
        }
        if self.misses(1) {
            name.extend([":".to_string(), self.identifier()]);
        }
        self.put_name(&name);
        self.spaces();
        self.out += ">";
    }

    fn put_name(&mut self, name: &[String]) {
        for part in name {
            if part == "." || part == ":" {
                self.sign(&part.clone());
            } else {
                self.out += part;
            }
        }
    }

    /// A name's parts and signs, put down.
    fn name(&mut self, member: bool) -> Vec<String> {
        let mut name = vec![self.identifier()];
        let mut more = |text: &mut Text, sign: &str, count: usize| {
            for _ in 0..count {
                name.extend([sign.to_string(), text.identifier()]);
            }
        };
        match self.rng.weighted(&[75, 12, 13]) {
            1 if member => {
                let count = if self.misses(10) { 8 } else { [1, 2, 3, 7][self.rng.weighted(&[60, 20, 10, 10])] };
                more(self, ".", count);
                // No hyphens in a member.
                if !self.misses(5) {
                    name.iter_mut().for_each(|part| *part = part.replace('-', "_"));
                }
            }
            2 => {
                let count = if self.misses(2) { 2 } else { 1 };
                more(self, ":", count);
            }
            _ => {}
        }
        self.put_name(&name);
        name
    }

    fn identifier(&mut self) -> String {
        if self.misses(2) {
            let odd = ["1", "-a", "\u{e9}", "a\u{e9}", "", "a\u{200b}", "&lt;"];
            return odd[self.rng.below(odd.len())].to_string();
        }
        match self.rng.weighted(&[960, 10, 30]) {
            0 => NAMES[self.rng.below(NAMES.len())].to_string(),
            1 => {
                let over = usize::from(self.misses(20));
                "n".repeat(MOST_NAME - 1 + self.rng.below(2) + over)
            }
            _ => (0..self.rng.within(1, 9)).map(|_| *self.rng.pick(&[&'a', &'Z', &'_', &'$', &'q'])).collect(),
        }
    }

    fn attributes(&mut self, levels: usize) {
        while !self.is_full() && self.rng.chance(45) {
            // Where two names meet, white space parts them.
            let meets = self.out.ends_with(|sign: char| sign.is_ascii_alphanumeric() || "_$-".contains(sign));
            if meets && !self.misses(1) {
                self.put(&[" ", "\n", "\t", " \r\n"]);
            }
            self.spaces();
            if self.misses(4) {
                self.put(&NO_PARTS);
            } else if self.rng.chance(20) {
                self.sign("{");
                self.sign("...");
                self.expression(levels);
            } else {
                self.attribute(levels);
            }
        }
    }

    fn attribute(&mut self, levels: usize) {
        self.name(false);
        match self.rng.weighted(&[25, 35, 30, 10]) {
            0 => return,
            _ => self.sign("="),
        }
        match self.rng.weighted(&[40, 40, 20]) {
            0 => self.attribute_string(),
            1 => {
                self.out += "{";
                self.spaces();
                self.expression(levels);
            }
            _ if levels > 0 => self.tag(levels - 1),
            _ => self.out += "\"\"",
        }
    }

    fn attribute_string(&mut self) {
        let quote = if self.rng.chance(70) { "\"" } else { "'" };
        self.out += quote;
        for _ in 0..self.rng.below(5) {
            let part = self.text_part();
            let more = ["<", ">", "{x}", "</a>", "}"];
            let part = if self.rng.chance(15) { more[self.rng.below(more.len())].to_string() } else { part };
            self.out += &part.replace(quote, "&quot;");
        }
        self.out += quote;
    }

    fn text_part(&mut self) -> String {
        let of: &[&str] = match self.rng.weighted(&[70, 30]) {
            _ if self.misses(3) => &NO_ENTITIES,
            0 => &LETTERS,
            _ => &ENTITIES,
        };
        of[self.rng.below(of.len())].to_string()
    }

    fn children(&mut self, levels: usize) {
        while !self.is_full() && self.rng.chance(65) {
            match self.rng.weighted(&[35, 35, 20, 10]) {
                _ if self.misses(3) => self.put(&NO_PARTS),
                0 => (0..self.rng.within(1, 4)).for_each(|_| {
                    let part = self.text_part();
                    self.out += &part;
                }),
                1 => {
                    self.out += "{";
                    self.spaces();
                    if self.rng.chance(10) {
                        self.out += "}";
                    } else {
                        self.expression(levels);
                    }
                }
                2 if levels > 0 => self.tag(levels - 1),
                _ => {
                    self.sign("{");
                    self.sign("...");
                    self.expression(levels);
                }
            }
        }
    }

    /// An expression and the brace that ends it.
    fn expression(&mut self, levels: usize) {
        let text = match self.rng.weighted(&[15, 12, 18, 12, 15, 28]) {
            _ if self.misses(8) => NO_SOURCES[self.rng.below(NO_SOURCES.len())].to_string(),
            0 => self.whole(),
            1 => self.decimal(),
            2 => self.string(),
            3 => ["true", "false", "null"][self.rng.below(3)].to_string(),
            4 if levels > 0 => {
                self.tag(levels - 1);
                String::new()
            }
            _ => SOURCES[self.rng.below(SOURCES.len())].to_string(),
        };
        self.out += &text;
        self.spaces();
        self.end("}");
    }

    /// With a minus now and then, and white space behind it.
    fn minus(&mut self) -> String {
        ["", "-", "- ", "-\n\t"][self.rng.weighted(&[60, 25, 10, 5])].to_string()
    }

    /// At most a limit or, more rarely, one or two over it.
    fn around(&mut self, most: u64) -> u64 {
        let numbers = if self.rng.chance(40) { 4 } else { 2 };
        most - 1 + self.rng.below(numbers) as u64
    }

    /// What 64 bits would take for a small number.
    fn wrapping(&mut self) -> u128 {
        (self.rng.within(1, 3) as u128) << 64 | self.rng.below(200) as u128
    }

    fn whole(&mut self) -> String {
        let value = match self.rng.weighted(&[58, 30, 10, 2]) {
            0 => self.rng.below(20) as u128,
            1 => u128::from(self.rng.draw() >> self.rng.within(12, 60)),
            2 => u128::from(self.around(MOST_NUMBER)),
            _ => self.wrapping(),
        };
        let far = if self.rng.chance(1) { "0".repeat(self.rng.within(1, 30)) } else { String::new() };
        format!("{}{value}{far}", self.minus())
    }

    fn decimal(&mut self) -> String {
        let digits = match self.rng.weighted(&[58, 30, 10, 2]) {
            0 => self.rng.below(2000) as u128,
            1 => u128::from(self.rng.draw() % (MOST_DIGITS + 1)),
            2 => u128::from(self.around(MOST_DIGITS)),
            _ => self.wrapping(),
        };
        let places = match self.rng.weighted(&[80, 15, 5]) {
            0 => self.rng.within(1, 3),
            1 => self.rng.within(4, 15),
            _ if self.rng.chance(70) => 15,
            _ => self.rng.within(15, 17),
        };
        let text = format!("{digits:0least$}", least = places + 1);
        let (whole, behind) = text.split_at(text.len() - places);
        format!("{}{whole}.{behind}", self.minus())
    }

    fn string(&mut self) -> String {
        let (quote, other) = if self.rng.chance(60) { ("\"", "'") } else { ("'", "\"") };
        let mut inside = String::new();
        for _ in 0..self.rng.below(4) {
            inside += if self.rng.chance(10) { other } else { STRINGS[self.rng.below(STRINGS.len())] };
        }
        format!("{quote}{inside}{quote}")
    }
}
