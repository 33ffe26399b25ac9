//! No constant of the built library holds one of the 76 hyphenated names (02, A5). Its bytes are searched for each, and so are the
//! programs over it. A constant that is borrowed stands in read-only data, as the table of the 76 does; one that is used by its value is
//! laid on the stack by the code. So a name can stand in the bytes
//! - whole;
//! - in pieces: constants of sixteen bytes, in an order of the linker's own, and then stores of immediate bytes, eight, four, two and
//!   one;
//! - letter by letter, each the immediate byte of a comparison.
//!
//! What shows that nothing is overlooked: the same search finds the 76 names as they are written.

mod common;

use common::{no_judge, say};
use oracle::generate::names::attribute_names;
use oracle::private::normalize_dom_attr_name;
use std::fs;
use std::ops::Range;
use std::path::{Path, PathBuf};

/// The bytes of a constant that is loaded at once.
const PIECE: usize = 16;
/// How far behind a store or a comparison the next one begins at most.
const NEAR: usize = 24;

/// An object, an archive or a program, with the parts that are loaded.
struct Binary {
    bytes: Vec<u8>,
    data: Vec<Range<usize>>,
    code: Vec<Range<usize>>,
    /// Where immediate bytes stand that are stored or loaded to be stored.
    stores: Vec<Range<usize>>,
}

#[derive(Clone, Copy, Debug, PartialEq)]
enum Way {
    Whole,
    Pieces,
    Letters,
}

fn number(bytes: &[u8], at: usize, width: usize) -> usize {
    (0..width).rev().fold(0, |n, i| n * 256 + usize::from(bytes[at + i]))
}

/// Where the ELF files of an archive begin, or the one that the file is.
fn elf_files(bytes: &[u8]) -> Vec<usize> {
    if !bytes.starts_with(b"!<arch>\n") {
        return vec![0];
    }
    let mut files = vec![];
    let mut at = 8;
    while let Some(header) = bytes.get(at..at + 60) {
        files.push(at + 60);
        let size = std::str::from_utf8(&header[48..58]).expect("digits").trim().parse::<usize>().expect("a size");
        at += 60 + size.next_multiple_of(2);
    }
    files.retain(|file| bytes[*file..].starts_with(b"\x7fELF"));
    files
}

impl Binary {
    fn new(bytes: Vec<u8>) -> Self {
        let (mut data, mut code) = (vec![], vec![]);
        for from in elf_files(&bytes) {
            let (table, width, count) =
                (number(&bytes, from + 40, 8), number(&bytes, from + 58, 2), number(&bytes, from + 60, 2));
            for header in (0..count).map(|i| from + table + i * width) {
                let (kind, flags) = (number(&bytes, header + 4, 4), number(&bytes, header + 8, 8));
                let (start, size) = (from + number(&bytes, header + 24, 8), number(&bytes, header + 32, 8));
                // SHT_PROGBITS, SHF_ALLOC, SHF_EXECINSTR
                match (kind, flags & 2, flags & 4) {
                    (1, 2, 0) => data.push(start..start + size),
                    (1, 2, 4) => code.push(start..start + size),
                    _ => {}
                }
            }
        }
        let found = code.iter().flat_map(|part| part.clone().filter_map(|at| store_at(&bytes, at)));
        let mut stores: Vec<_> = found.collect();
        stores.sort_by_key(|store| store.start);
        Self { bytes, data, code, stores }
    }

    fn finds(&self, word: &[u8]) -> Option<Way> {
        if self.bytes.windows(word.len()).any(|part| part == word) {
            return Some(Way::Whole);
        }
        let cut = (1..word.len()).any(|k| self.ends_piece(&word[..k]) && self.goes_on(&word[k..]));
        let stored = || {
            self.stores.iter().any(|store| (1..store.len().min(word.len())).any(|k| self.ends_store(store, word, k)))
        };
        if cut || stored() {
            return Some(Way::Pieces);
        }
        // The first letter may be in a register already.
        self.code.iter().any(|part| part.clone().any(|at| self.compared(at, word, 1))).then_some(Way::Letters)
    }

    fn pieces(&self) -> impl Iterator<Item = &[u8]> {
        self.data.iter().flat_map(|part| self.bytes[part.clone()].chunks_exact(PIECE))
    }

    fn ends_piece(&self, front: &[u8]) -> bool {
        front.len() <= PIECE && self.pieces().any(|piece| piece.ends_with(front))
    }

    /// What begins a piece or a store: the rest of a word.
    fn goes_on(&self, rest: &[u8]) -> bool {
        if let Some((piece, rest)) = rest.split_at_checked(PIECE) {
            return self.pieces().any(|p| p == piece) && (rest.is_empty() || self.goes_on(rest));
        }
        self.pieces().any(|piece| piece.starts_with(rest)) || self.stores.iter().any(|store| self.stored(store, rest))
    }

    /// The rest of a word in a store from its begin on, and in those right behind it.
    fn stored(&self, store: &Range<usize>, rest: &[u8]) -> bool {
        let k = store.len().min(rest.len());
        self.bytes[store.start..store.start + k] == rest[..k]
            && (k == rest.len() || self.stored_behind(store, &rest[k..]))
    }

    fn stored_behind(&self, store: &Range<usize>, rest: &[u8]) -> bool {
        let next = self.stores.partition_point(|s| s.start < store.end);
        let near = self.stores[next..].iter().take_while(|s| s.start < store.end + NEAR);
        near.filter(|s| s.len() < store.len()).any(|s| self.stored(s, rest))
    }

    /// A word whose first k bytes end a store.
    fn ends_store(&self, store: &Range<usize>, word: &[u8], k: usize) -> bool {
        self.bytes[store.end - k..store.end] == word[..k] && self.stored_behind(store, &word[k..])
    }

    /// `cmpb $letter, i(%register)` from the i-th letter on, each near the one before.
    fn compared(&self, at: usize, word: &[u8], i: usize) -> bool {
        let here = matches!(self.bytes[at..], [0x80, 0x78..=0x7f, place, byte, ..] if usize::from(place) == i && byte == word[i]);
        here && (i + 1 == word.len() || (at + 4..at + NEAR).any(|next| self.compared(next, word, i + 1)))
    }
}

/// `movabs $bytes, %register` and `mov $bytes, place`, four, two or one of them: where the immediate bytes stand.
fn store_at(bytes: &[u8], at: usize) -> Option<Range<usize>> {
    let (start, width) = match bytes[at..] {
        [0x48 | 0x49, 0xb8..=0xbf, ..] => (at + 2, 8),
        [0x66, 0xc7, mode, ..] => (at + 2 + place_width(mode)?, 2),
        [0xc7, mode, ..] => (at + 1 + place_width(mode)?, 4),
        [0xc6, mode, ..] => (at + 1 + place_width(mode)?, 1),
        _ => return None,
    };
    (start + width <= bytes.len()).then_some(start..start + width)
}

/// The bytes of a place in memory as an instruction has it: its mode, a scale, and how far off.
fn place_width(mode: u8) -> Option<usize> {
    let scale = usize::from(mode & 7 == 4);
    match (mode >> 6, mode >> 3 & 7, mode & 7) {
        (0, 0, 5) | (2, 0, _) => Some(1 + scale + 4),
        (0, 0, _) => Some(1 + scale),
        (1, 0, _) => Some(1 + scale + 1),
        _ => None,
    }
}

fn hyphenated() -> Vec<(&'static str, String)> {
    let names: Vec<_> =
        attribute_names().hyphenated.into_iter().map(|name| (name, normalize_dom_attr_name(name))).collect();
    assert_eq!(names.len(), 76);
    names
}

fn library() -> PathBuf {
    Path::new(env!("JSX_PRECOMPILE_LIB")).join("libjsx_precompile.a")
}

fn search(file: &Path) {
    let binary = Binary::new(fs::read(file).expect("it can be read"));
    let names = hyphenated();
    let held: Vec<_> = names.iter().filter(|(_, spelling)| binary.finds(spelling.as_bytes()).is_some()).collect();
    assert!(held.is_empty(), "{}: {held:?}", file.display());
    let ways: Vec<_> = names.iter().map(|(name, _)| (name, binary.finds(name.as_bytes()))).collect();
    let lost: Vec<_> = ways.iter().filter(|(_, way)| way.is_none()).collect();
    assert!(lost.is_empty(), "{}: the search does not see how these written names are held: {lost:?}", file.display());
    let count = |way| ways.iter().filter(|(_, w)| *w == Some(way)).count();
    let [whole, pieces, letters] = [Way::Whole, Way::Pieces, Way::Letters].map(count);
    let name = file.file_name().expect("a file").display();
    say(&format!(
        "{name}: none of 76 hyphenated; written: {whole} whole, {pieces} in pieces, {letters} letter by letter"
    ));
}

#[test]
fn library_holds_no_hyphenated_name() {
    if !no_judge() {
        search(&library());
    }
}

/// The programs, where they are built.
#[test]
fn programs_hold_no_hyphenated_name() {
    if no_judge() {
        return;
    }
    for name in ["card", "replay"] {
        let program = Path::new(env!("CARGO_MANIFEST_DIR")).join("../target/bin").join(name);
        if program.is_file() {
            search(&program);
        } else {
            say(&format!("skipped: {name} is not built"));
        }
    }
}

/// Each of the 76, put into a copy of the library in each way, is found.
#[test]
fn planted_names_are_found() {
    if no_judge() {
        return;
    }
    let bytes = fs::read(library()).expect("it can be read");
    let sound = Binary::new(bytes.clone());
    let data = sound.data.iter().max_by_key(|part| part.len()).expect("there is data").clone();
    let code = sound.code.iter().max_by_key(|part| part.len()).expect("there is code").clone();
    assert!(data.len() >= 20 * PIECE && code.len() >= 1024);
    let mut found = 0;
    for (_, spelling) in hyphenated() {
        let word = spelling.as_bytes();
        let put = |places: &[(usize, &[u8])]| {
            let mut copy = bytes.clone();
            // emptied, so that no byte that stood beside a planted part makes a whole word of it
            copy[data.clone()].fill(0);
            for (at, part) in places {
                copy[*at..*at + part.len()].copy_from_slice(part);
            }
            Binary::new(copy).finds(word)
        };
        assert_eq!(put(&[(data.start + 5, word)]), Some(Way::Whole), "{spelling}");
        // cut over two or three pieces that do not follow each other
        for k in (1..word.len().min(PIECE + 1)).filter(|k| word.len() - k <= 2 * PIECE) {
            let (front, rest) = word.split_at(k);
            let (second, third) = rest.split_at(rest.len().min(PIECE));
            let end = data.start + 4 * PIECE;
            let parts = [(end - k, front), (data.start + 8 * PIECE, second), (data.start + 12 * PIECE, third)];
            assert_eq!(put(&parts), Some(Way::Pieces), "{spelling}, cut at {k}");
            found += 1;
        }
        // the end of a piece, and the rest as stores
        let k = word.len().saturating_sub(15).max(1);
        assert_eq!(
            put(&[(data.start + 4 * PIECE - k, &word[..k]), (code.start, &stores(&word[k..]))]),
            Some(Way::Pieces),
            "{spelling}"
        );
        assert_eq!(put(&[(code.start, &comparisons(word))]), Some(Way::Letters), "{spelling}");
        found += 3;
    }
    say(&format!("planted: {found} found"));
}

/// The instructions that lay at most 15 bytes.
fn stores(mut rest: &[u8]) -> Vec<u8> {
    let mut code = vec![];
    for (width, front) in [
        (8, &[0x48, 0xb8][..]),
        (4, &[0xc7, 0x44, 0x24, 8]),
        (2, &[0x66, 0xc7, 0x44, 0x24, 12]),
        (1, &[0xc6, 0x44, 0x24, 14]),
    ] {
        if let Some((bytes, behind)) = rest.split_at_checked(width) {
            code.extend_from_slice(front);
            code.extend_from_slice(bytes);
            if width == 8 {
                code.extend([0x48, 0x89, 0x04, 0x24]);
            }
            rest = behind;
        }
    }
    code
}

/// The instructions that compare a word letter by letter, each with a jump behind it.
fn comparisons(word: &[u8]) -> Vec<u8> {
    let letter = |(i, byte): (usize, &u8)| match i {
        0 => vec![0x80, 0x39, *byte, 0x0f, 0x85, 0, 0, 0, 0],
        _ => vec![0x80, 0x79, i as u8, *byte, 0x0f, 0x85, 0, 0, 0, 0],
    };
    word.iter().enumerate().flat_map(letter).collect()
}
