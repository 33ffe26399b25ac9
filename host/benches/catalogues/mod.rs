//! Catalogues to measure arrivals and leavings on: of the greatest length, full of pages shaped like real code, of short
//! ones and of empty ones.

use super::pages::usual;
use jsx_precompile::catalogue::{Catalogue, Shares, add_into, remove_from};
use jsx_precompile::field::Fields;
use jsx_precompile::limits::MAX_CATALOGUE;
use jsx_precompile::{Options, transform};

/// What is called.
pub enum Call {
    /// A page of real code arrives behind the others.
    Arrival,
    /// The first page leaves, so that every other is moved.
    FirstLeaves,
    /// A page that is not there is to leave: the check of the catalogue, and a look at the names.
    Check,
}

pub struct Set {
    pub name: &'static str,
    pub call: Call,
    pages: fn(usize) -> Vec<u8>,
}

/// So many bytes are left free where a page arrives.
const ROOM: usize = 100_000;

/// None of the pages has this name.
const NEW: u32 = u32::MAX;

pub fn all() -> [Set; 8] {
    let set = |name, call, pages| Set { name, call, pages };
    [
        set("real pages, an arrival", Call::Arrival, real),
        set("real pages, the first leaves", Call::FirstLeaves, real),
        set("real pages, a check", Call::Check, real),
        set("one template each, an arrival", Call::Arrival, short),
        set("one template each, first leaves", Call::FirstLeaves, short),
        set("empty pages, an arrival", Call::Arrival, empty),
        set("empty pages, the first leaves", Call::FirstLeaves, empty),
        set("empty pages, a check", Call::Check, empty),
    ]
}

impl Set {
    /// A catalogue of the greatest length.
    pub fn catalogue(&self) -> Vec<u8> {
        let room = if matches!(self.call, Call::Arrival) { ROOM } else { 0 };
        let mut bytes = (self.pages)(MAX_CATALOGUE - room);
        bytes.resize(MAX_CATALOGUE, 0);
        bytes
    }

    /// The number that the call is answered with.
    pub fn run(&self, bytes: &mut [u8]) -> u32 {
        match self.call {
            Call::Arrival => {
                let (templates, page) = outs().swap_remove(0);
                add_into(bytes, NEW, 1, &Shares::new().numbers(), &templates, &page).number
            }
            Call::FirstLeaves => remove_from(bytes, 0).number,
            Call::Check => remove_from(bytes, NEW).number,
        }
    }
}

/// The plain pass that the check is held to: each byte looked at once, one behind the other.
#[inline(never)]
#[unsafe(no_mangle)]
pub fn plain_pass(bytes: &[u8]) -> u64 {
    bytes.iter().fold(0_u64, |sum, byte| sum.rotate_left(1) ^ u64::from(*byte))
}

/// Templates and page out of pages shaped like real code.
fn outs() -> Vec<(Vec<u8>, Vec<u8>)> {
    let outs = |page: &Vec<u8>| {
        let forms = transform(page, &Options::new()).expect("a page that is taken");
        (forms.templates_bytes().to_vec(), forms.page_bytes().to_vec())
    };
    usual(1_000)[0].pages.iter().map(outs).collect()
}

fn real(length: usize) -> Vec<u8> {
    row(length, &outs())
}

/// `<br/>` in a statement.
fn short(length: usize) -> Vec<u8> {
    row(length, &[(b"\x84\0\x0d\0\0\0\x01\0\0\x81\0\x04<br>".to_vec(), b"\x12\0\x07\x90\0\x04\0\0\0\x01".to_vec())])
}

fn empty(length: usize) -> Vec<u8> {
    row(length, &[(vec![], vec![])])
}

/// As many pages as have room, named from 0 on in an order that does not rise, of all houses; these outs in turn.
fn row(length: usize, outs: &[(Vec<u8>, Vec<u8>)]) -> Vec<u8> {
    let (mut bytes, mut before) = (vec![], 0);
    for (name, (templates, page)) in (0_u32..).zip(outs.iter().cycle()) {
        let lengths = [templates, page].map(|part| (part.len() as u32).to_be_bytes());
        let front = [&[0x97][..], &name.wrapping_mul(0x9e37_79b1).to_be_bytes(), &[1 + (name % 16) as u8]].concat();
        let page = [front, lengths.concat(), raised(templates, before), raised(page, before)].concat();
        if bytes.len() + page.len() > length {
            break;
        }
        before += Fields::new(templates).count() as u32;
        bytes.extend(page);
    }
    bytes
}

/// With the number of each record and call higher by so many.
fn raised(bytes: &[u8], by: u32) -> Vec<u8> {
    let mut out = bytes.to_vec();
    let mut rows = vec![Fields::new(bytes)];
    while let Some(row) = rows.last_mut() {
        match row.next() {
            None => drop(rows.pop()),
            Some(field) => {
                if let (0x84 | 0x90, Some(number)) = (field.tag, field.number()) {
                    out[field.at + 3..field.at + 7].copy_from_slice(&(number + by).to_be_bytes());
                }
                rows.push(field.inner());
            }
        }
    }
    out
}

/// The pages and templates of a set, once it is known to be sound.
pub fn counts(bytes: &[u8]) -> (usize, usize, usize) {
    let catalogue = Catalogue::over(bytes).unwrap_or_else(|fault| panic!("{fault}"));
    (catalogue.used(), catalogue.count(), catalogue.templates().count())
}
