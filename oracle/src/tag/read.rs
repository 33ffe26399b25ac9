//! A3's reader: one walk over the text with a stack of what is open. Closing names are compared, but a text whose names
//! differ is read on.

use super::braces;
use super::signs::*;
pub use super::write::Reading;
use super::write::Writer;
use crate::answer::MOST_NAME;

/// 01: a 41 has two to eight 40s.
pub const MOST_MEMBERS: usize = 8;

/// The text's reading, closing names not compared; none where it has none.
pub fn read(text: &[u8]) -> Option<Reading> {
    let mut reader = Reader { text, at: 0, open: vec![], out: Writer::default() };
    reader.tag()?;
    while let Some(open) = reader.open.pop() {
        match open {
            Open::Tag(name) => reader.in_tag(name)?,
            Open::Children(name) => reader.in_children(name)?,
            Open::Braces => reader.end_braces()?,
            Open::Value => reader.out.end(),
        }
    }
    // Nothing stands around the tag.
    (reader.at == text.len()).then_some(reader.out.reading)
}

/// What has begun and not ended, from the outermost in.
enum Open<'a> {
    /// An opening tag behind its name.
    Tag(Name<'a>),
    /// Children of an element or, without a name, of a fragment.
    Children(Option<Name<'a>>),
    /// Braces around a tag.
    Braces,
    /// An attribute whose value is a tag.
    Value,
}

#[derive(Clone, PartialEq, Eq)]
struct Name<'a> {
    kind: Kind,
    parts: Vec<&'a [u8]>,
}

#[derive(Clone, Copy, PartialEq, Eq)]
enum Kind {
    Identifier = 0x40,
    Member = 0x41,
    Namespaced = 0x42,
}

struct Reader<'a> {
    text: &'a [u8],
    at: usize,
    open: Vec<Open<'a>>,
    out: Writer,
}

impl<'a> Reader<'a> {
    fn next(&self) -> Option<u8> {
        self.text.get(self.at).copied()
    }

    /// Takes these signs, where they stand here.
    fn takes(&mut self, signs: &[u8]) -> bool {
        let there = self.text[self.at..].starts_with(signs);
        self.at += if there { signs.len() } else { 0 };
        there
    }

    fn needs(&mut self, sign: u8) -> Option<()> {
        self.takes(&[sign]).then_some(())
    }

    /// The bytes from here on for which this holds.
    fn run(&mut self, holds: impl Fn(u8) -> bool) -> &'a [u8] {
        let rest = &self.text[self.at..];
        let run = &rest[..rest.iter().take_while(|byte| holds(**byte)).count()];
        self.at += run.len();
        run
    }

    fn spaces(&mut self) {
        self.run(is_space);
    }

    /// `<`, and a name or the `>` of a fragment.
    fn tag(&mut self) -> Option<()> {
        self.needs(b'<')?;
        self.spaces();
        if self.takes(b">") {
            self.out.begin(0x31);
            self.open.push(Open::Children(None));
            return Some(());
        }
        let name = self.name()?;
        self.out.begin(0x30);
        self.write_name(&name);
        self.open.push(Open::Tag(name));
        Some(())
    }

    /// The next attribute, or the end of the opening tag.
    fn in_tag(&mut self, name: Name<'a>) -> Option<()> {
        self.spaces();
        if self.takes(b"/") {
            self.spaces();
            self.needs(b'>')?;
            self.out.end();
            return Some(());
        }
        if self.takes(b">") {
            self.open.push(Open::Children(Some(name)));
            return Some(());
        }
        self.open.push(Open::Tag(name));
        if self.takes(b"{") {
            self.spaces();
            return if self.takes(b"...") { self.braces(0x53) } else { None };
        }
        self.attribute()
    }

    fn attribute(&mut self) -> Option<()> {
        let name = self.name()?;
        if name.kind == Kind::Member {
            return None;
        }
        self.out.begin(0x50);
        self.write_name(&name);
        self.open.push(Open::Value);
        self.spaces();
        if !self.takes(b"=") {
            return Some(());
        }
        self.spaces();
        match self.next()? {
            b'<' => self.tag(),
            b'{' => {
                self.at += 1;
                self.braces(0x52)
            }
            quote if is_quote(quote) => {
                self.at += 1;
                let inside = self.run(|byte| byte != quote);
                self.needs(quote)?;
                self.out.leaf(0x51, &decoded(inside)?);
                Some(())
            }
            _ => None,
        }
    }

    /// The next child, or the closing tag.
    fn in_children(&mut self, name: Option<Name<'a>>) -> Option<()> {
        let start = self.at;
        if self.takes(b"<") {
            self.spaces();
            if self.takes(b"/") {
                return self.closing(name);
            }
            self.at = start;
            self.open.push(Open::Children(name));
            return self.tag();
        }
        self.open.push(Open::Children(name));
        if !self.takes(b"{") {
            let run = self.run(is_text);
            self.out.leaf(0x60, &decoded(run)?);
            return if run.is_empty() { None } else { Some(()) };
        }
        self.spaces();
        if self.takes(b"}") {
            self.out.leaf(0x52, b"");
            return Some(());
        }
        if self.takes(b"...") { self.braces(0x61) } else { self.braces(0x52) }
    }

    /// Behind `</`.
    fn closing(&mut self, opened: Option<Name<'a>>) -> Option<()> {
        self.spaces();
        let closed = if self.next()? == b'>' { None } else { Some(self.name()?) };
        self.spaces();
        self.needs(b'>')?;
        self.out.reading.names_differ |= closed != opened;
        self.out.end();
        Some(())
    }

    /// Behind `{` or the three points: one expression, as the body of this field.
    fn braces(&mut self, tag: u8) -> Option<()> {
        self.spaces();
        self.out.begin(tag);
        if self.next()? == b'<' {
            self.open.push(Open::Braces);
            return self.tag();
        }
        let rest = &self.text[self.at..];
        let end = braces::matching(rest)?;
        braces::expression(trimmed(&rest[..end]), &mut self.out)?;
        self.at += end + 1;
        self.out.end();
        Some(())
    }

    /// A tag in braces stands alone.
    fn end_braces(&mut self) -> Option<()> {
        self.spaces();
        self.needs(b'}')?;
        self.out.end();
        Some(())
    }

    /// 01's names, each as long as it runs.
    fn name(&mut self) -> Option<Name<'a>> {
        let mut parts = vec![self.identifier()?];
        let mut sign = None;
        loop {
            let behind = self.at;
            self.spaces();
            match self.next() {
                Some(next @ (b'.' | b':')) if sign.is_none() || sign == Some(next) => {
                    self.at += 1;
                    self.spaces();
                    parts.push(self.identifier()?);
                    sign = Some(next);
                }
                _ => {
                    self.at = behind;
                    break;
                }
            }
        }
        let kind = match sign {
            None => Kind::Identifier,
            Some(b':') => Kind::Namespaced,
            _ => Kind::Member,
        };
        let fits = match kind {
            Kind::Identifier => true,
            Kind::Namespaced => parts.len() == 2,
            Kind::Member => parts.len() <= MOST_MEMBERS && !parts.iter().any(|part| part.contains(&b'-')),
        };
        fits.then_some(Name { kind, parts })
    }

    fn identifier(&mut self) -> Option<&'a [u8]> {
        if !begins_name(self.next()?) {
            return None;
        }
        let run = self.run(goes_on);
        (run.len() <= MOST_NAME).then_some(run)
    }

    fn write_name(&mut self, name: &Name) {
        if name.kind != Kind::Identifier {
            self.out.begin(name.kind as u8);
        }
        name.parts.iter().for_each(|part| self.out.leaf(0x40, part));
        if name.kind != Kind::Identifier {
            self.out.end();
        }
    }
}
