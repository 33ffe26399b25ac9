//! The numbers of templates where they are recorded and where they are called.

use crate::field::{Fields, HEADER, TEMPLATE};

/// The tag of a call of a template.
const CALL: u8 = 0x90;

/// The calls of templates in a page out at any depth, or the records of templates out: where each field stands, and its
/// number. Front to back; rows lie on a stack of their own, since page out may be deep.
pub(super) fn numbers(bytes: &[u8]) -> Vec<(usize, u32)> {
    let mut found = vec![];
    let mut rows = vec![Fields::new(bytes)];
    while let Some(row) = rows.last_mut() {
        match row.next() {
            None => drop(rows.pop()),
            Some(field) => {
                if matches!(field.tag, TEMPLATE | CALL) {
                    found.extend(field.number().map(|number| (field.at, number)));
                }
                rows.push(field.inner());
            }
        }
    }
    found
}

/// The bytes with each of these numbers changed.
pub(super) fn renumbered(bytes: &[u8], change: impl Fn(u32) -> u32) -> Vec<u8> {
    let mut out = bytes.to_vec();
    for (at, number) in numbers(bytes) {
        out[at + HEADER..at + HEADER + 4].copy_from_slice(&change(number).to_be_bytes());
    }
    out
}
