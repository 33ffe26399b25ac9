//! All short texts over a few signs, most of them within a frame, so that short ones reach far.

/// Signs, each of one or more bytes, and what stands around the texts made of them.
pub struct Family {
    pub name: &'static str,
    pub before: &'static str,
    pub signs: &'static [&'static [u8]],
    pub after: &'static str,
    /// How many signs a text has at the most, where it is held to another implementation, and where to the slow reader.
    pub most: usize,
    pub most_slow: usize,
}

const fn family(
    name: &'static str,
    around: (&'static str, &'static str),
    signs: &'static [&'static [u8]],
    most: (usize, usize),
) -> Family {
    Family { name, before: around.0, signs, after: around.1, most: most.0, most_slow: most.1 }
}

/// What may stand in braces.
const INSIDE: &[&[u8]] = &[
    b"{",
    b"}",
    b"...",
    b"\"",
    b"'",
    b".",
    b"-",
    b"0",
    b"1",
    b"a",
    b" ",
    b"\n",
    b"/",
    b"<",
    b"[",
    b"\\",
    b"_",
    b"`",
    "\u{e9}".as_bytes(),
];
const NUMBERS: &[&[u8]] = &[b"0", b"1", b".", b"-", b" ", b"a", b"_"];
const QUOTED: &[&[u8]] = &[b"\"", b"'", b"{", b"}", b"\n", b"\r", b"a", b"\\"];
const ENTITIES: &[&[u8]] = &[b"&", b";", b"lt", b"gt", b"amp", b"quot", b"#39", b"#", b"a", b"\"", b"'"];
const LETTERS: &[&[u8]] = &[b"&", b"l", b"t", b"g", b";", b"a"];
const BYTES: &[&[u8]] =
    &[b"\x7f", b"\x80", b"\x9f", b"\xa0", b"\xbf", b"\xc1", b"\xc3", b"\xe0", b"\xed", b"\xf0", b"\xf4", b"<"];

pub const FAMILIES: &[Family] = &[
    family("tags", ("", ""), &[b"<", b">", b"/", b"a"], (11, 9)),
    family("tags and space", ("", ""), &[b"<", b">", b"/", b"a", b".", b" "], (8, 6)),
    family("tags and braces", ("<>", "</>"), &[b"<", b">", b"/", b"{", b"}", b"a", b"\""], (7, 6)),
    family("tags and points", ("<", "/>"), &[b"<", b">", b"{", b"...", b".", b"}", b"-0", b"1", b"a"], (6, 5)),
    family("tags and entities", ("<a>", "</a>"), &[b"&", b";", b"l", b"t", b"<", b">", b"a", b"/"], (7, 6)),
    family(
        "whole tags",
        ("", ""),
        &[b"<a>", b"</a>", b"<>", b"</>", b"<b>", b"</b>", b"<a/>", b"{", b"}", b"x"],
        (6, 5),
    ),
    family("in a child's braces", ("<>{", "}</>"), INSIDE, (5, 4)),
    family("in a value's braces", ("<a b={", "}/>"), INSIDE, (5, 4)),
    family("in a tag's braces", ("<a {", "}/>"), INSIDE, (5, 4)),
    family("in a spread", ("<a{...", "}/>"), INSIDE, (5, 4)),
    family("in a spread child", ("<>{...", "}</>"), INSIDE, (5, 4)),
    family("numbers", ("<>{", "}</>"), NUMBERS, (7, 5)),
    family("quotes in braces", ("<a b={", "}/>"), QUOTED, (7, 5)),
    family("braces", ("<>{", "</>"), QUOTED, (7, 5)),
    family("entities in text", ("<>", "</>"), ENTITIES, (6, 4)),
    family("entities in a string", ("<a b=\"", "\"/>"), ENTITIES, (6, 4)),
    family("letters of entities", ("<>", "</>"), LETTERS, (7, 6)),
    family(
        "white space",
        ("<a", "/>"),
        &[b" ", b"\t", b"\n", b"\r", b"\x0b", b"\x0c", b"b", b"=", b"\"\"", b":"],
        (5, 4),
    ),
    family("names", ("<", "/>"), &[b"a", b"-", b".", b":", b"1", b"_", b" "], (7, 6)),
    family("closing names", ("<a.b>", ">"), &[b"<", b"/", b"a", b"b", b".", b":", b" "], (7, 6)),
    family("closing a namespace", ("<a:b></", ">"), &[b"a", b"b", b".", b":", b" ", b"-"], (7, 6)),
    family(
        "attributes",
        ("<a ", "/>"),
        &[b"a", b"=", b"\"", b"'", b"{...b}", b"{b}", b" ", b":", b".", b"/", b">", b"<a/>"],
        (5, 4),
    ),
    family("bytes of a text", ("<>", "/>"), BYTES, (5, 4)),
    family("bytes of a name", ("<a", "/>"), BYTES, (4, 3)),
];

impl Family {
    /// Every text of at most so many signs. A text that can be divided into signs in two ways is met twice.
    pub fn texts(&self, most: usize, each: &mut impl FnMut(&[u8])) {
        let mut signs: Vec<usize> = vec![];
        let mut text = vec![];
        loop {
            text.clear();
            text.extend(self.before.as_bytes());
            signs.iter().for_each(|sign| text.extend(self.signs[*sign]));
            text.extend(self.after.as_bytes());
            each(&text);
            match signs.iter().rposition(|sign| sign + 1 < self.signs.len()) {
                Some(at) => {
                    signs[at] += 1;
                    signs[at + 1..].fill(0);
                }
                None if signs.len() == most => return,
                None => signs = vec![0; signs.len() + 1],
            }
        }
    }

    /// How many there are.
    pub fn count(&self, most: usize) -> usize {
        (0..=most as u32).map(|signs| self.signs.len().pow(signs)).sum()
    }
}
