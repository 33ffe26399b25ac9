//! Makes a case that shows something small: fields go, are replaced by what stands in them, leaves shrink, numbers get
//! zeros, lent bytes become plain. A change is kept where the case still shows it; what is left can lose no single part.

use crate::answer::LEAST_SCRATCH;
use crate::field::{self, Node, at_nth};
use crate::generate::{Case, Room};

pub fn shrink(case: Case, shows: impl Fn(&Case) -> bool) -> Case {
    let mut case = case;
    loop {
        let before = case.page.len() + case.options.len();
        plain_lengths(&mut case, &shows);
        case.options = smaller(&case.options, |options| shows(&Case { options, ..case.clone() }));
        case.page = smaller(&case.page, |page| shows(&Case { page, ..case.clone() }));
        if case.page.len() + case.options.len() >= before {
            return case;
        }
    }
}

fn plain_lengths(case: &mut Case, shows: &impl Fn(&Case) -> bool) {
    let plain = Case { scratch: LEAST_SCRATCH, templates_room: Room::Exact, page_room: Room::Exact, ..case.clone() };
    if shows(&plain) {
        *case = plain;
    }
}

fn smaller(bytes: &[u8], shows: impl Fn(Vec<u8>) -> bool) -> Vec<u8> {
    match field::read(bytes) {
        Some(row) => field::write(&smaller_row(row, &|row| shows(field::write(row)))),
        None => smaller_bytes(bytes, &shows),
    }
}

/// One walk over all fields; at each the boldest change first. After a change the same place is looked at again.
fn smaller_row(mut row: Vec<Node>, shows: &dyn Fn(&[Node]) -> bool) -> Vec<Node> {
    let mut place = 0;
    while place < row.iter().map(Node::fields).sum() {
        let change = changes(&row, place).find(|tried| shows(tried));
        match change {
            Some(smaller) => row = smaller,
            None => {
                shrink_leaf(&mut row, place, shows);
                place += 1;
            }
        }
    }
    row
}

/// The row without the field at `place` and those behind it in its row (all, 64, 16, 4, it alone), and with the field
/// replaced by what stands in it, by an empty fragment, by one field in it, or by one in those (a tag in its braces).
fn changes(row: &[Node], place: usize) -> impl Iterator<Item = Vec<Node>> {
    let runs = [usize::MAX, 64, 16, 4, 1].into_iter().map(move |most| {
        changed(row, place, |row, i| {
            row.drain(i..row.len().min(i.saturating_add(most)));
        })
    });
    let opened = std::iter::once_with(move || {
        changed(row, place, |row, i| {
            let inner = std::mem::take(&mut row[i].inner);
            row.splice(i..=i, inner);
        })
    });
    let mut inner = vec![];
    at_nth(&mut row.to_vec(), &mut { place }, &mut |row, i| inner = row[i].inner.clone());
    let second: Vec<Node> = inner.iter().flat_map(|node| node.inner.clone()).collect();
    // An empty fragment may stand wherever a tag or an expression may.
    let emptied = (!inner.is_empty()).then(|| Node::row(0x31, vec![]));
    let single = emptied.into_iter().chain(inner).chain(second);
    runs.chain(opened).chain(single.map(move |one| changed(row, place, |row, i| row[i] = one.clone())))
}

fn changed(row: &[Node], place: usize, mut change: impl FnMut(&mut Vec<Node>, usize)) -> Vec<Node> {
    let mut out = row.to_vec();
    at_nth(&mut out, &mut { place }, &mut change);
    out
}

fn shrink_leaf(row: &mut Vec<Node>, place: usize, shows: &dyn Fn(&[Node]) -> bool) {
    let (mut tag, mut bytes) = (0, vec![]);
    at_nth(row, &mut { place }, &mut |row, i| (tag, bytes) = (row[i].tag, row[i].bytes.clone()));
    let with = |bytes: &[u8]| changed(row, place, |row, i| row[i].bytes = bytes.to_vec());
    let mut small = smaller_bytes(&bytes, &|bytes| shows(&with(&bytes)));
    // A number keeps its length, so that it is made small by zeros.
    if matches!(tag, 0x71 | 0x75 | 0x7a | 0x7b) {
        small = zeroed(small, &|bytes| shows(&with(bytes)));
    }
    *row = with(&small);
}

/// A zero in place of each byte, where the case still shows it.
fn zeroed(mut bytes: Vec<u8>, shows: &dyn Fn(&[u8]) -> bool) -> Vec<u8> {
    for at in 0..bytes.len() {
        let before = std::mem::take(&mut bytes[at]);
        if before != 0 && !shows(&bytes) {
            bytes[at] = before;
        }
    }
    bytes
}

/// Long runs of bytes go first, then shorter ones.
pub fn smaller_bytes(bytes: &[u8], shows: &dyn Fn(Vec<u8>) -> bool) -> Vec<u8> {
    let mut bytes = bytes.to_vec();
    let mut length = bytes.len();
    while length > 0 {
        let mut at = 0;
        while at < bytes.len() {
            let mut tried = bytes.clone();
            tried.drain(at..(at + length).min(bytes.len()));
            if shows(tried.clone()) {
                bytes = tried;
            } else {
                at += length;
            }
        }
        length /= 2;
    }
    bytes
}
