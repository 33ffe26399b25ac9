//! The reader of tag text that says what was expected and what stands there. What is open lies on a stack of its own:
//! a text may nest deeper than a thread's stack.

use super::braces::{Inside, matching};
use super::error::{Found, TagError, TagRefusal};
use super::name::{Name, begins, closing, goes_on, opening};
use super::write::{Differing, Out};
use crate::limits::{MAX_MEMBERS, MAX_NAME, MAX_TAG_TEXT};

/// The field of a text; where it has none, the refusal that comes first, its place and the reason.
pub(super) fn read(text: &[u8]) -> Result<Vec<u8>, TagError> {
    field(text).map_err(|found| found.into_error(text))
}

fn field(text: &[u8]) -> Result<Vec<u8>, Found> {
    if text.len() > MAX_TAG_TEXT {
        let reason = format!("{} bytes, at most {MAX_TAG_TEXT} are taken", text.len());
        return Err(Found { refusal: TagRefusal::InputTooLong, at: MAX_TAG_TEXT, opened: None, reason });
    }
    let text = std::str::from_utf8(text).map_err(|error| {
        let at = error.valid_up_to();
        let reason = format!("byte {:02x} is not UTF-8", text[at]);
        Found { refusal: TagRefusal::NotUtf8, at, opened: None, reason }
    })?;
    let mut reader = Reader { text, at: 0, open: vec![], out: Out::default() };
    reader.tag()?;
    while let Some(open) = reader.open.pop() {
        match open {
            Open::Tag(name, at) => reader.in_tag(name, at)?,
            Open::Children(name, at) => reader.in_children(name, at)?,
            Open::Braces => {
                reader.spaces();
                reader.needs('}', "`}`, as a tag stands alone in braces,")?;
                reader.out.end();
            }
            Open::Attribute => reader.out.end(),
        }
    }
    match reader.next() {
        None => reader.out.finished(),
        Some(sign) => Err(Found::no_reading(reader.at, format!("{} stands behind the tag", shown(sign)))),
    }
}

pub(super) fn is_space(sign: char) -> bool {
    matches!(sign, '\t' | '\n' | '\r' | ' ')
}

pub(super) fn is_line_end(sign: char) -> bool {
    matches!(sign, '\n' | '\r')
}

/// A sign as a message has it.
pub(super) fn shown(sign: char) -> String {
    match sign {
        '\'' | '"' => format!("`{sign}`"),
        _ => format!("`{}`", sign.escape_debug()),
    }
}

const ENTITIES: [(&str, u8); 5] = [("&amp;", b'&'), ("&lt;", b'<'), ("&gt;", b'>'), ("&quot;", b'"'), ("&#39;", b'\'')];

type Done = Result<(), Found>;

/// What has begun and not ended, from the outermost in.
enum Open<'a> {
    /// An opening tag behind its name, and where it begins.
    Tag(Name<'a>, usize),
    /// Children of an element or, without a name, of a fragment.
    Children(Option<Name<'a>>, usize),
    /// Braces around a tag.
    Braces,
    /// An attribute, which ends behind its value.
    Attribute,
}

struct Reader<'a> {
    text: &'a str,
    at: usize,
    open: Vec<Open<'a>>,
    out: Out,
}

impl<'a> Reader<'a> {
    fn next(&self) -> Option<char> {
        self.text[self.at..].chars().next()
    }

    /// Takes these signs, where they stand here.
    fn takes(&mut self, signs: &str) -> bool {
        let there = self.text[self.at..].starts_with(signs);
        self.at += if there { signs.len() } else { 0 };
        there
    }

    fn needs(&mut self, sign: char, expected: &str) -> Done {
        match self.next() {
            Some(next) if next == sign => {
                self.at += sign.len_utf8();
                Ok(())
            }
            _ => Err(self.expected(expected)),
        }
    }

    /// 14: something else stands here.
    fn expected(&self, what: &str) -> Found {
        let found = self.next().map_or("the end of the text".to_string(), shown);
        Found::no_reading(self.at, format!("expected {what} found {found}"))
    }

    /// The signs from here on for which this holds.
    fn run(&mut self, holds: impl Fn(char) -> bool) -> &'a str {
        let rest = &self.text[self.at..];
        let run = &rest[..rest.find(|sign| !holds(sign)).unwrap_or(rest.len())];
        self.at += run.len();
        run
    }

    fn spaces(&mut self) {
        self.run(is_space);
    }

    fn tag(&mut self) -> Done {
        let at = self.at;
        self.needs('<', "`<`, with which a tag begins,")?;
        self.spaces();
        if self.takes(">") {
            self.out.begin(0x31, at);
            self.open.push(Open::Children(None, at));
            return Ok(());
        }
        let start = self.at;
        let name = self.name("a name or `>`,", true)?;
        self.out.begin(0x30, at);
        self.write_name(&name, start);
        self.open.push(Open::Tag(name, at));
        Ok(())
    }

    /// The next attribute, or the end of the opening tag.
    fn in_tag(&mut self, name: Name<'a>, opened: usize) -> Done {
        self.spaces();
        if self.takes("/") {
            self.spaces();
            self.needs('>', "`>` behind `/`,")?;
            self.out.end();
            return Ok(());
        }
        if self.takes(">") {
            self.open.push(Open::Children(Some(name), opened));
            return Ok(());
        }
        self.open.push(Open::Tag(name, opened));
        let at = self.at;
        if self.takes("{") {
            self.spaces();
            return if self.takes("...") {
                self.braces(0x53, at)
            } else {
                Err(self.expected("`...` in a tag's braces,"))
            };
        }
        self.attribute()
    }

    fn attribute(&mut self) -> Done {
        let at = self.at;
        let name = self.name("an attribute, `{...`, `/` or `>`,", false)?;
        self.out.begin(0x50, at);
        self.write_name(&name, at);
        self.open.push(Open::Attribute);
        self.spaces();
        if !self.takes("=") {
            return Ok(());
        }
        self.spaces();
        let at = self.at;
        match self.next() {
            Some('<') => self.tag(),
            Some('{') => {
                self.at += 1;
                self.braces(0x52, at)
            }
            Some(quote @ ('"' | '\'')) => {
                self.at += 1;
                let inside = self.run(|sign| sign != quote);
                if self.next().is_none() {
                    return Err(Found::no_reading(at, format!("{} is not closed", shown(quote))));
                }
                self.at += 1;
                let decoded = decoded(inside, at + 1)?;
                self.out.leaf(0x51, at, &decoded);
                Ok(())
            }
            _ => Err(self.expected("a value in quotes or braces, or a tag,")),
        }
    }

    /// The next child, or the closing tag.
    fn in_children(&mut self, name: Option<Name<'a>>, opened: usize) -> Done {
        let at = self.at;
        match self.next() {
            None => Err(self.not_closed(name.as_ref(), opened)),
            Some('<') => {
                self.at += 1;
                self.spaces();
                if self.takes("/") {
                    return self.closing(name, opened, at);
                }
                self.at = at;
                self.open.push(Open::Children(name, opened));
                self.tag()
            }
            Some('{') => {
                self.open.push(Open::Children(name, opened));
                self.at += 1;
                self.spaces();
                if self.takes("}") {
                    self.out.leaf(0x52, at, &[]);
                    return Ok(());
                }
                let tag = if self.takes("...") { 0x61 } else { 0x52 };
                self.braces(tag, at)
            }
            Some('>') => Err(Found::no_reading(at, "`>` in text is written `&gt;`")),
            Some('}') => Err(Found::no_reading(at, "`}` in text is written `{\"}\"}`")),
            Some(_) => {
                self.open.push(Open::Children(name, opened));
                let run = self.run(|sign| !matches!(sign, '<' | '>' | '{' | '}'));
                let decoded = decoded(run, at)?;
                self.out.leaf(0x60, at, &decoded);
                Ok(())
            }
        }
    }

    /// 14: the text ends within children. Where a closing name differs, its own tag is the one that was not closed.
    fn not_closed(&mut self, name: Option<&Name>, opened: usize) -> Found {
        if let Some(Differing { at, closed, tag, opened }) = self.out.names_differ.take() {
            let reason = format!("expected `</{}`, found `{closed}`", &tag[1..]);
            return Found { opened: Some((tag, opened)), ..Found::no_reading(at, reason) };
        }
        let found = self.expected(&format!("`{}`,", closing(name)));
        Found { opened: Some((opening(name), opened)), ..found }
    }

    /// Behind `</`, which begins at `at`.
    fn closing(&mut self, name: Option<Name<'a>>, opened: usize, at: usize) -> Done {
        self.spaces();
        let closed = if self.next() == Some('>') { None } else { Some(self.name("a name or `>`,", true)?) };
        self.spaces();
        self.needs('>', "`>`, which ends a closing tag,")?;
        if closed != name {
            let (closed, tag) = (closing(closed.as_ref()), opening(name.as_ref()));
            self.out.names_differ.get_or_insert(Differing { at, closed, tag, opened });
        }
        self.out.end();
        Ok(())
    }

    /// Behind the brace at `at`, or behind the three points in it: one expression, as the body of this field.
    fn braces(&mut self, tag: u8, at: usize) -> Done {
        self.spaces();
        self.out.begin(tag, at);
        if self.next() == Some('<') {
            self.open.push(Open::Braces);
            return self.tag();
        }
        let end = matching(self.text, self.at, at)?;
        let inside = Inside { text: self.text[self.at..end].trim_end_matches(is_space), at: self.at };
        if inside.text.is_empty() {
            return Err(self.expected("an expression,"));
        }
        inside.write(&mut self.out)?;
        self.at = end + 1;
        self.out.end();
        Ok(())
    }

    /// A name with its parts. Each is as long as it runs.
    fn name(&mut self, expected: &str, member: bool) -> Result<Name<'a>, Found> {
        let start = self.at;
        let mut name = Name { sign: None, parts: vec![self.part(expected)?] };
        loop {
            let behind = self.at;
            self.spaces();
            let sign = self.next().filter(|sign| matches!(sign, '.' | ':'));
            let Some(sign) = sign else {
                self.at = behind;
                break;
            };
            let no = |reason: &str| Err(Found::no_reading(self.at, reason));
            match name.sign {
                None if sign == '.' && !member => return no("`.` in the name of an attribute"),
                None => name.sign = Some(sign),
                Some(':') => return no("a name has one namespace, and no member in it"),
                Some(_) if sign == ':' => return no("a member has no namespace"),
                Some(_) => {}
            }
            self.at += 1;
            self.spaces();
            name.parts.push(self.part("a name,")?);
        }
        if name.sign == Some('.') {
            if let Some(hyphen) = self.text[start..self.at].find('-') {
                return Err(Found::no_reading(start + hyphen, "`-` in a member's name"));
            }
            if name.parts.len() > MAX_MEMBERS {
                let reason = format!("a member of {} names, at most {MAX_MEMBERS} are taken", name.parts.len());
                return Err(Found::no_reading(start, reason));
            }
        }
        Ok(name)
    }

    fn part(&mut self, expected: &str) -> Result<&'a str, Found> {
        let at = self.at;
        if !self.next().is_some_and(begins) {
            return Err(self.expected(expected));
        }
        match self.run(goes_on) {
            run if run.len() > MAX_NAME => {
                let reason = format!("a name of {} bytes, at most {MAX_NAME} are taken", run.len());
                Err(Found::no_reading(at, reason))
            }
            run => Ok(run),
        }
    }

    fn write_name(&mut self, name: &Name, at: usize) {
        let tag = match name.sign {
            None => return name.parts.iter().for_each(|part| self.out.leaf(0x40, at, part.as_bytes())),
            Some('.') => 0x41,
            Some(_) => 0x42,
        };
        self.out.begin(tag, at);
        name.parts.iter().for_each(|part| self.out.leaf(0x40, at, part.as_bytes()));
        self.out.end();
    }
}

/// Text or an attribute string, its entities resolved; it begins at `at`.
fn decoded(text: &str, at: usize) -> Result<Vec<u8>, Found> {
    let mut out = vec![];
    let mut rest = text;
    while let Some(place) = rest.find('&') {
        out.extend(rest[..place].bytes());
        rest = &rest[place..];
        let Some((entity, sign)) = ENTITIES.into_iter().find(|(entity, _)| rest.starts_with(entity)) else {
            let reason = "`&` begins none of `&amp;`, `&lt;`, `&gt;`, `&quot;` and `&#39;`";
            return Err(Found::no_reading(at + text.len() - rest.len(), reason));
        };
        out.push(sign);
        rest = &rest[entity.len()..];
    }
    out.extend(rest.bytes());
    Ok(out)
}
