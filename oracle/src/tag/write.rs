//! The field of a tag while it is read: headers are filled in when a field ends. What 7, 8 and 11 ask is noted on the
//! way, so that no tree is built: tags may lie far deeper than a thread's stack.

use super::TAG_DEPTH;
use crate::field::{begin, finish};

/// What a text is read as, closing names not compared.
#[derive(Clone, Debug, Default, PartialEq, Eq)]
pub struct Reading {
    /// The field 30 or 31; of no use where a body is too long for its length.
    pub field: Vec<u8>,
    /// Whether some closing name is not that of its tag.
    pub names_differ: bool,
    pub number_too_large: bool,
    pub body_too_long: bool,
    /// That of the deepest field.
    pub depth: usize,
}

#[derive(Default)]
pub struct Writer {
    pub reading: Reading,
    /// Where the fields that have not ended begin.
    open: Vec<usize>,
}

impl Writer {
    pub fn begin(&mut self, tag: u8) {
        self.reading.depth = self.reading.depth.max(TAG_DEPTH + self.open.len());
        self.open.push(begin(&mut self.reading.field, tag));
    }

    pub fn end(&mut self) {
        let at = self.open.pop().expect("what ends has begun");
        self.reading.body_too_long |= !finish(&mut self.reading.field, at);
    }

    pub fn leaf(&mut self, tag: u8, body: &[u8]) {
        self.begin(tag);
        self.reading.field.extend(body);
        self.end();
    }
}
