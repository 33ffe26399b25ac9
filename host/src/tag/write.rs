//! The field while its text is read. A length is filled in where a field ends; what lies too deep, is too long or too
//! large is noted with its place, and reading goes on: 14 and 15 come before these.

use super::error::{Found, TagRefusal};
use crate::field::{HEADER, tag_name};
use crate::limits::{MAX_BODY, MAX_DEPTH};

/// A page and an item lie around a tag.
const AROUND: usize = 2;

/// A closing tag and its place, and the tag that it closes, whose name is another.
pub(super) struct Differing {
    pub at: usize,
    pub closed: String,
    pub tag: String,
    pub opened: usize,
}

#[derive(Default)]
pub(super) struct Out {
    pub bytes: Vec<u8>,
    /// The fields that have not ended: where their headers stand, and where they begin in the text.
    open: Vec<(usize, usize)>,
    /// The first of each, in the order in which they are refused.
    pub names_differ: Option<Differing>,
    pub number_too_large: Option<Found>,
    pub too_deep: Option<Found>,
    pub too_long: Option<Found>,
}

impl Out {
    /// A field begins; `at` is its place in the text.
    pub fn begin(&mut self, tag: u8, at: usize) {
        self.open.push((self.bytes.len(), at));
        self.bytes.extend([tag, 0, 0]);
        let depth = self.open.len() + AROUND;
        if depth > MAX_DEPTH {
            let reason = format!("{} would lie {depth} deep in a page, at most {MAX_DEPTH}", named(tag));
            self.too_deep.get_or_insert(Found { refusal: TagRefusal::TooDeep, at, opened: None, reason });
        }
    }

    pub fn end(&mut self) {
        let Some((header, at)) = self.open.pop() else { return };
        let length = self.bytes.len() - header - HEADER;
        match u16::try_from(length) {
            Ok(length) => self.bytes[header + 1..header + HEADER].copy_from_slice(&length.to_be_bytes()),
            Err(_) => {
                let tag = self.bytes[header];
                let reason = format!("{} would have {length} bytes, at most {MAX_BODY}", named(tag));
                self.too_long.get_or_insert(Found { refusal: TagRefusal::OutputTooLong, at, opened: None, reason });
            }
        }
    }

    pub fn leaf(&mut self, tag: u8, at: usize, body: &[u8]) {
        self.begin(tag, at);
        self.bytes.extend(body);
        self.end();
    }

    pub fn too_large(&mut self, at: usize, reason: String) {
        let found = Found { refusal: TagRefusal::NumberTooLarge, at, opened: None, reason };
        self.number_too_large.get_or_insert(found);
    }

    /// What was noted, in its order; else the field.
    pub fn finished(self) -> Result<Vec<u8>, Found> {
        let names_differ = self.names_differ.map(|Differing { at, closed, tag, opened }| {
            let reason = format!("`{closed}` closes");
            Found { refusal: TagRefusal::NamesDiffer, at, opened: Some((tag, opened)), reason }
        });
        let noted = names_differ.or(self.number_too_large).or(self.too_deep).or(self.too_long);
        noted.map_or(Ok(self.bytes), Err)
    }
}

fn named(tag: u8) -> String {
    format!("{tag:02x} ({})", tag_name(tag).unwrap_or("no tag"))
}
