//! Templates out: a row of 80s or 84s, read with 3, 4 and 6, and written in either layout.

use super::row::{ensure, first_of, text};
use super::{Layout, Read, Refusal};
use crate::field::{begin, finish};

/// 02, A6: the kinds of a gap.
pub const ATTRIBUTE: u8 = 1;
pub const CHILD: u8 = 2;

pub const STRING: u8 = 0x81;

#[derive(Clone, Debug, Default, PartialEq, Eq)]
pub struct Template {
    pub number: u32,
    /// As they were read: one for each gap of an 84, none of an 80.
    pub kinds: Vec<u8>,
    /// One more than there are gaps.
    pub strings: Vec<Vec<u8>>,
}

impl Layout {
    pub fn template_tag(self) -> u8 {
        match self {
            Layout::Old => 0x80,
            Layout::New => 0x84,
        }
    }
}

/// 3, 4 and 6, front to back; an empty row is read.
pub fn read(mut row: &[u8], layout: Layout) -> Read<Vec<Template>> {
    let mut templates = vec![];
    while !row.is_empty() {
        let (body, rest) = first_of(row, layout.template_tag())?;
        templates.push(template(body, layout)?);
        row = rest;
    }
    Ok(templates)
}

/// Number, count and kinds come before the strings.
fn template(body: &[u8], layout: Layout) -> Read<Template> {
    let (number, behind) = layout.read_number(body)?;
    let (kinds, row) = match layout {
        Layout::Old => (vec![], behind),
        Layout::New => kinds_of(behind)?,
    };
    let due = match layout {
        Layout::Old => None,
        Layout::New => Some(kinds.len() + 1),
    };
    Ok(Template { number, kinds, strings: strings(row, due)? })
}

/// A count of two bytes and as many kinds, each 1 or 2.
fn kinds_of(body: &[u8]) -> Read<(Vec<u8>, &[u8])> {
    let [high, low, behind @ ..] = body else { return Err(Refusal::Misplaced) };
    let count = usize::from(u16::from_be_bytes([*high, *low]));
    let (kinds, row) = behind.split_at_checked(count).ok_or(Refusal::Misplaced)?;
    ensure(kinds.iter().all(|kind| matches!(*kind, ATTRIBUTE | CHILD)), Refusal::Misplaced)?;
    Ok((kinds.to_vec(), row))
}

/// As many strings as are due, at least one: one too many is 4 at its header, one too few at the end.
fn strings(mut row: &[u8], due: Option<usize>) -> Read<Vec<Vec<u8>>> {
    let mut strings = vec![];
    while !row.is_empty() {
        let (body, rest) = first_of(row, STRING)?;
        ensure(due != Some(strings.len()), Refusal::Misplaced)?;
        strings.push(text(body)?);
        row = rest;
    }
    ensure(due.map_or(!strings.is_empty(), |due| strings.len() == due), Refusal::Misplaced)?;
    Ok(strings)
}

/// The row of templates; none where a body is over 65,535 bytes. An 84 has the kinds that the templates have.
pub fn write(templates: &[Template], layout: Layout) -> Option<Vec<u8>> {
    let mut out = vec![];
    let mut fits = true;
    for template in templates {
        let at = begin(&mut out, layout.template_tag());
        layout.write_number(&mut out, template.number);
        if layout == Layout::New {
            out.extend((template.kinds.len() as u16).to_be_bytes());
            out.extend(&template.kinds);
        }
        for string in &template.strings {
            let at = begin(&mut out, STRING);
            out.extend(string);
            fits &= finish(&mut out, at);
        }
        fits &= finish(&mut out, at);
    }
    fits.then_some(out)
}

/// 02, A7: the kind of each gap, by the strings before it; none where neither kind fits some gap.
pub fn kinds(strings: &[Vec<u8>]) -> Option<Vec<u8>> {
    let mut joined = Joined::default();
    let before_gaps = &strings[..strings.len() - 1];
    before_gaps.iter().map(|string| joined.add(string)).collect()
}

/// The strings before a gap, joined: what decides its kind.
#[derive(Default)]
struct Joined {
    /// `<` or `>` out of turn.
    out_of_turn: bool,
    /// Behind a `<` and before its `>`.
    open: bool,
    /// Open, with a `/` right behind the `<`.
    closing: bool,
    last: Option<u8>,
}

impl Joined {
    /// With one string more: the kind of the gap behind it.
    fn add(&mut self, string: &[u8]) -> Option<u8> {
        for byte in string {
            match *byte {
                b'<' => {
                    self.out_of_turn |= self.open;
                    (self.open, self.closing) = (true, false);
                }
                b'>' => {
                    self.out_of_turn |= !self.open;
                    self.open = false;
                }
                b'/' if self.last == Some(b'<') => self.closing = true,
                _ => {}
            }
            self.last = Some(*byte);
        }
        let attribute = self.open && !self.closing && self.last == Some(b' ');
        match (self.out_of_turn, self.open) {
            (false, false) => Some(CHILD),
            (false, true) if attribute => Some(ATTRIBUTE),
            _ => None,
        }
    }
}
