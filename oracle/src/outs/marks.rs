//! Templates out and page out by hand, with the number that the papers fix: each sentence of A7 on what is read, each
//! reading that was settled. A number of 0 is taken.

use super::{Layout, Read, Refusal, page, templates};
use crate::vectors::unhex;

#[derive(Clone, Copy, Debug, PartialEq, Eq)]
pub enum Out {
    Templates,
    Page,
}

#[derive(Clone, Debug)]
pub struct Mark {
    pub name: &'static str,
    pub out: Out,
    pub layout: Layout,
    pub bytes: Vec<u8>,
    pub number: u32,
}

/// A name, bytes as hex digits with spaces between, the number.
type Row = (&'static str, &'static str, u32);

pub fn all() -> Vec<Mark> {
    let of = |out: Out, layout: Layout, rows: &[Row]| -> Vec<Mark> {
        let bytes = |digits: &str| unhex(&digits.replace(' ', "")).expect("hex digits");
        rows.iter()
            .map(|(name, digits, number)| Mark { name, out, layout, bytes: bytes(digits), number: *number })
            .collect()
    };
    [
        of(Out::Templates, Layout::New, NEW_TEMPLATES),
        of(Out::Templates, Layout::Old, OLD_TEMPLATES),
        of(Out::Page, Layout::New, PAGES),
        of(Out::Page, Layout::Old, PAGES),
        of(Out::Page, Layout::New, NEW_PAGES),
        of(Out::Page, Layout::Old, OLD_PAGES),
    ]
    .concat()
}

impl Mark {
    /// What the reader makes of it.
    pub fn read(&self) -> Read<()> {
        match self.out {
            Out::Templates => templates::read(&self.bytes, self.layout).map(|_| ()),
            Out::Page => page::read(&self.bytes, self.layout).map(|_| ()),
        }
    }

    /// What is read, written again.
    pub fn again(&self) -> Read<Vec<u8>> {
        let written = match self.out {
            Out::Templates => templates::write(&templates::read(&self.bytes, self.layout)?, self.layout),
            Out::Page => page::write(&page::read(&self.bytes, self.layout)?, self.layout),
        };
        written.ok_or(Refusal::OutputTooLong)
    }
}

const NEW_TEMPLATES: &[Row] = &[
    ("no-templates", "", 0),
    ("one-byte", "84", 3),
    ("two-bytes", "84 00", 3),
    ("two-bytes-of-another", "80 00", 3),
    ("past-the-end", "84 0001", 3),
    ("past-the-end-of-another", "80 0001", 3),
    ("another-layout", "80 0005 0001 81 0000", 4),
    ("no-template", "81 0000", 4),
    ("no-body", "84 0000", 4),
    ("number-cut", "84 0003 000001", 4),
    ("no-count", "84 0004 00000001", 4),
    ("count-cut", "84 0005 00000001 00", 4),
    ("no-string", "84 0006 00000001 0000", 4),
    ("one-string", "84 0009 00000001 0000 81 0000", 0),
    ("number-zero", "84 0009 00000000 0000 81 0000", 0),
    ("number-high", "84 0009 ffffffff 0000 81 0000", 0),
    ("one-number-twice", "84 0009 00000001 0000 81 0000 84 0009 00000001 0000 81 0000", 0),
    ("a-gap", "84 000d 00000001 0001 02 81 0000 81 0000", 0),
    ("kind-not-of-its-gap", "84 000d 00000001 0001 01 81 0000 81 0000", 0),
    ("kind-0", "84 000d 00000001 0001 00 81 0000 81 0000", 4),
    ("kind-3", "84 000d 00000001 0001 03 81 0000 81 0000", 4),
    ("kinds-cut", "84 0007 00000001 0002 01", 4),
    ("kind-before-a-torn-string", "84 000a 00000001 0001 03 81 0001", 4),
    ("string-torn", "84 0009 00000001 0000 81 0001", 3),
    ("string-one-byte", "84 0007 00000001 0000 81", 3),
    ("string-past-its-template", "84 0009 00000001 0000 81 0001 84", 3),
    ("torn-before-misplaced", "84 0009 00000001 0000 82 0001", 3),
    ("another-tag", "84 0009 00000001 0000 82 0000", 4),
    ("string-too-many", "84 000c 00000001 0000 81 0000 81 0000", 4),
    ("string-too-many-unread", "84 000d 00000001 0000 81 0000 81 0001 ff", 4),
    ("string-too-many-torn", "84 000c 00000001 0000 81 0000 81 0001", 3),
    ("string-too-few", "84 000a 00000001 0001 02 81 0000", 4),
    ("letters-before-too-few", "84 000b 00000001 0001 02 81 0001 ff", 6),
    ("letters", "84 000a 00000001 0000 81 0001 c3", 6),
    ("signs-in-any-order", "84 000c 00000001 0000 81 0003 3e3c3c", 0),
    ("second-template-torn", "84 0009 00000001 0000 81 0000 84", 3),
    ("front-to-back", "84 000a 00000001 0000 81 0001 ff 84", 6),
];

const OLD_TEMPLATES: &[Row] = &[
    ("no-templates", "", 0),
    ("another-layout", "84 0009 00000001 0000 81 0000", 4),
    ("no-body", "80 0000", 4),
    ("number-cut", "80 0001 00", 4),
    ("no-string", "80 0002 0001", 4),
    ("one-string", "80 0005 0001 81 0000", 0),
    ("number-high", "80 0005 ffff 81 0000", 0),
    ("two-strings", "80 0008 0001 81 0000 81 0000", 0),
    ("neither-kind-fits", "80 0009 0001 81 0001 3c 81 0000", 0),
    ("string-torn", "80 0003 0001 81", 3),
    ("another-tag", "80 0005 0001 20 0000", 4),
    ("letters", "80 0006 0001 81 0001 80", 6),
];

/// Without calls of templates, so that both layouts read them alike.
const PAGES: &[Row] = &[
    ("no-page", "", 0),
    ("one-byte", "12", 3),
    ("two-bytes", "12 00", 3),
    ("two-bytes-of-no-tag", "ff 00", 3),
    ("past-the-end", "12 0001", 3),
    ("no-item", "20 0000", 4),
    ("page-in", "01 0000", 4),
    ("items", "10 0000 11 0000 12 0000 13 0000", 0),
    ("empty-statement-with-body", "13 0001 00", 4),
    // 82
    ("import-empty", "82 0000", 4),
    ("import-one-byte", "82 0001 01", 3),
    ("import-two-bytes", "82 0002 8100", 3),
    ("import-no-sum", "82 0003 81 0000", 4),
    ("import", "82 0004 81 0000 01", 0),
    ("import-all", "82 0004 81 0000 0f", 0),
    ("import-sum-0", "82 0004 81 0000 00", 4),
    ("import-sum-16", "82 0004 81 0000 10", 4),
    ("import-two-sums", "82 0005 81 0000 01 01", 4),
    ("import-source-takes-all", "82 0004 81 0001 61", 4),
    ("import-source-past-it", "82 0004 81 0002 61", 3),
    ("import-letters-before-sum", "82 0004 81 0001 ff", 6),
    ("import-another-tag", "82 0004 20 0000 01", 4),
    ("import-twice", "82 0004 81 0000 01 82 0004 81 0000 01", 4),
    ("import-behind-an-item", "13 0000 82 0004 81 0000 01", 4),
    ("import-behind-83", "83 0000 82 0004 81 0000 01", 4),
    // 83
    ("mark-alone", "83 0000", 0),
    ("mark-with-body", "83 0001 00", 4),
    ("mark-behind-import", "82 0004 81 0000 01 83 0000", 0),
    ("mark-before-statement", "83 0000 12 0000", 0),
    ("mark-before-export", "83 0000 10 0000 11 0000", 0),
    ("mark-before-declarations", "83 0000 11 0000 13 0000", 0),
    ("mark-then-declaration-then-statement", "83 0000 11 0000 12 0000", 4),
    ("mark-then-empty-then-export", "83 0000 13 0000 10 0000", 4),
    ("mark-among", "11 0000 13 0000 83 0000 10 0000", 0),
    ("mark-among-then-declaration", "11 0000 83 0000 11 0000", 4),
    ("mark-among-at-the-end", "11 0000 83 0000", 4),
    ("mark-among-then-torn", "11 0000 83 0000 11 0001", 3),
    ("mark-late", "12 0000 83 0000", 4),
    ("mark-late-before-statement", "10 0000 83 0000 12 0000", 4),
    ("mark-twice", "83 0000 83 0000", 4),
    ("mark-twice-among", "11 0000 83 0000 83 0000", 4),
    ("header-before-its-place", "12 0000 83 0001", 3),
    // Pieces and expressions.
    ("piece-element", "12 0003 30 0000", 4),
    ("piece-fragment", "12 0003 31 0000", 4),
    ("piece-string-out", "12 0003 81 0000", 4),
    ("piece-source", "12 0004 20 0001 61", 0),
    ("piece-letters", "12 0004 20 0001 ff", 6),
    ("piece-props", "12 0003 95 0000", 4),
    ("piece-property", "12 0003 96 0000", 4),
    ("piece-spread", "12 0006 77 0003 73 0000", 4),
    ("piece-hole", "12 0003 78 0000", 4),
    ("piece-name", "12 0004 40 0001 61", 4),
    ("string", "12 0004 70 0001 61", 0),
    ("string-letters", "12 0004 70 0001 ed", 6),
    ("literal", "11 0004 74 0001 61", 0),
    ("literal-letters", "11 0004 74 0001 f5", 6),
    ("whole", "12 000b 71 0008 001fffffffffffff", 0),
    ("whole-over", "12 000b 71 0008 0020000000000000", 7),
    ("whole-short", "12 000a 71 0007 ffffffffffffff", 4),
    ("minus", "12 000b 75 0008 001fffffffffffff", 0),
    ("minus-over", "12 000b 75 0008 ffffffffffffffff", 7),
    ("minus-long", "12 000c 75 0009 000000000000000000", 4),
    ("decimal", "12 000c 7a 0009 00038d7ea4c67fff 0f", 0),
    ("decimal-digits-over", "12 000c 7a 0009 00038d7ea4c68000 0f", 7),
    ("decimal-places-over", "12 000c 7a 0009 0000000000000000 10", 7),
    ("decimal-short", "12 000b 7a 0008 ffffffffffffffff", 4),
    ("minus-decimal", "12 000c 7b 0009 0000000000000000 00", 0),
    ("minus-decimal-over", "12 000c 7b 0009 0000000000000000 ff", 7),
    ("boolean", "12 0004 72 0001 01", 0),
    ("boolean-2", "12 0004 72 0001 02", 4),
    ("boolean-empty", "12 0003 72 0000", 4),
    ("boolean-long", "12 0005 72 0002 0000", 4),
    ("null", "12 0003 73 0000", 0),
    ("null-with-body", "12 0004 73 0001 00", 4),
    ("array", "12 000f 76 000c 73 0000 78 0000 77 0003 76 0000", 0),
    ("array-source", "12 0006 76 0003 20 0000", 4),
    ("array-hole-with-body", "12 0007 76 0004 78 0001 00", 4),
    ("spread-of-nothing", "12 0006 76 0003 77 0000", 4),
    ("spread-of-two", "12 000c 76 0009 77 0006 73 0000 73 0000", 4),
    ("spread-of-spread", "12 0009 76 0006 77 0003 78 0000", 4),
    ("other", "12 0009 79 0006 20 0000 73 0000", 0),
    ("other-empty", "12 0003 79 0000", 0),
    ("other-hole", "12 0006 79 0003 78 0000", 4),
    // Calls but those of templates.
    ("attribute-call", "12 0009 91 0006 81 0000 73 0000", 0),
    ("attribute-call-no-name", "12 0006 91 0003 73 0000", 4),
    ("attribute-call-no-value", "12 0006 91 0003 81 0000", 4),
    ("attribute-call-two-values", "12 000c 91 0009 81 0000 73 0000 73 0000", 4),
    ("attribute-call-letters", "12 000a 91 0007 81 0001 ff 20 0000", 6),
    ("attribute-name-of-any-text", "12 000a 91 0007 81 0001 3c 73 0000", 0),
    ("escape", "12 0006 92 0003 73 0000", 0),
    ("escape-of-a-call", "12 0009 92 0006 92 0003 73 0000", 0),
    ("escape-of-nothing", "12 0003 92 0000", 4),
    ("escape-of-two", "12 0009 92 0006 73 0000 73 0000", 4),
    ("escape-of-source", "12 0006 92 0003 20 0000", 4),
    ("choice", "12 0009 93 0006 73 0000 81 0000", 0),
    ("choice-turned", "12 0009 93 0006 81 0000 73 0000", 4),
    ("choice-no-name", "12 0006 93 0003 73 0000", 4),
    ("choice-two-names", "12 000c 93 0009 73 0000 81 0000 81 0000", 4),
    ("call-of-a-tag", "12 0009 94 0006 81 0000 73 0000", 0),
    ("call-of-a-component", "12 000a 94 0007 40 0001 41 73 0000", 0),
    ("call-name-small-with-hyphen", "12 000c 94 0009 40 0003 612d62 73 0000", 0),
    ("call-name-empty", "12 0009 94 0006 40 0000 73 0000", 5),
    ("call-name-digit", "12 000a 94 0007 40 0001 31 73 0000", 5),
    ("call-name-hyphen-first", "12 000a 94 0007 40 0001 2d 73 0000", 5),
    ("call-name-not-utf8", "12 000a 94 0007 40 0001 ff 73 0000", 5),
    ("call-of-a-member", "12 0011 94 000e 41 0008 40 0001 61 40 0001 62 73 0000", 0),
    ("member-of-one", "12 000d 94 000a 41 0004 40 0001 61 73 0000", 4),
    ("member-empty", "12 0009 94 0006 41 0000 73 0000", 4),
    ("member-hyphen", "12 0012 94 000f 41 0009 40 0001 61 40 0002 622d 73 0000", 5),
    (
        "member-of-eight",
        "12 0029 94 0026 41 0020 40000161 40000161 40000161 40000161 40000161 40000161 40000161 40000161 73 0000",
        0,
    ),
    (
        "member-of-nine",
        "12 002d 94 002a 41 0024 40000161 40000161 40000161 40000161 40000161 40000161 40000161 40000161 400001ff 73 0000",
        4,
    ),
    ("member-of-strings", "12 000f 94 000c 41 0006 81 0000 81 0000 73 0000", 4),
    ("call-of-a-namespace", "12 0011 94 000e 42 0008 40 0001 61 40 0001 62 73 0000", 4),
    ("call-of-nothing", "12 0003 94 0000", 4),
    ("call-no-props", "12 0006 94 0003 81 0000", 4),
    ("call-props-no-object", "12 0009 94 0006 81 0000 70 0000", 4),
    ("call-key", "12 000c 94 0009 81 0000 73 0000 73 0000", 0),
    ("call-key-any-expression", "12 000f 94 000c 81 0000 95 0000 92 0003 73 0000", 0),
    ("call-two-keys", "12 000f 94 000c 81 0000 73 0000 73 0000 73 0000", 4),
    ("call-key-source", "12 000c 94 0009 81 0000 73 0000 20 0000", 4),
    ("props-empty", "12 0009 94 0006 81 0000 95 0000", 0),
    ("props", "12 0018 94 0015 81 0000 95 000f 96 0006 81 0000 73 0000 53 0003 73 0000", 0),
    ("props-null", "12 000c 94 0009 81 0000 95 0003 73 0000", 4),
    ("property-no-value", "12 000f 94 000c 81 0000 95 0006 96 0003 81 0000", 4),
    ("property-two-values", "12 0015 94 0012 81 0000 95 000c 96 0009 81 0000 73 0000 73 0000", 4),
    ("property-spread-of-nothing", "12 000c 94 0009 81 0000 95 0003 53 0000", 4),
    ("torn-within", "12 0004 79 0002 20", 3),
    ("torn-within-its-row", "12 0005 79 0002 20 00", 3),
    ("front-to-back", "12 0008 70 0001 ff 72 0001 02", 6),
];

const NEW_PAGES: &[Row] = &[
    ("template-call", "12 0007 90 0004 00000001", 0),
    ("template-call-number-cut", "12 0006 90 0003 000001", 4),
    ("template-call-high", "12 0007 90 0004 ffffffff", 0),
    ("template-call-gap", "12 000a 90 0007 00000001 73 0000", 0),
    ("template-call-source", "12 000a 90 0007 00000001 20 0000", 4),
    ("template-call-torn", "12 0009 90 0006 00000001 7300", 3),
    ("template-call-in-a-gap", "12 000e 90 000b 00000001 90 0004 00000001", 0),
];

const OLD_PAGES: &[Row] = &[
    ("template-call", "12 0005 90 0002 0001", 0),
    ("template-call-number-cut", "12 0004 90 0001 00", 4),
    ("template-call-gaps", "12 000e 90 000b ffff 91 0006 81 0000 73 0000", 0),
    ("template-call-torn", "12 0007 90 0004 0000 0001", 3),
];
