//! Fields: a tag byte, a two-byte length with the high byte first, a body. Page, options, templates out, page out and
//! orders are all series of fields; this is the one place that reads a header.

pub use crate::path::{Path, Step};

use crate::decimal::Decimal;

/// A field of some bytes.
///
/// ```
/// use jsx_precompile::field::Fields;
///
/// let field = Fields::new(&[0x20, 0, 2, b'h', b'i']).next().unwrap();
/// assert_eq!((field.tag, field.at, field.body), (0x20, 0, &b"hi"[..]));
/// ```
#[derive(Clone, Copy, Debug, PartialEq, Eq)]
pub struct Field<'a> {
    /// What the field is: a number of document 01's lists.
    pub tag: u8,
    /// Where its header begins in the bytes that were read.
    pub at: usize,
    /// What it holds.
    pub body: &'a [u8],
}

/// The bytes of a header.
pub(crate) const HEADER: usize = 3;

impl<'a> Field<'a> {
    /// The fields in the body: of an 80, 85 or 90 those behind its number, of an 84 those behind its kinds, of an 82 those
    /// before its sum, of a leaf none.
    ///
    /// ```
    /// use jsx_precompile::field::Fields;
    ///
    /// let template = Fields::new(&[0x84, 0, 10, 0, 0, 0, 1, 0, 0, 0x81, 0, 1, b'x']).next().unwrap();
    /// let string = template.inner().next().unwrap();
    /// assert_eq!((string.tag, string.at, string.body), (0x81, 9, &b"x"[..]));
    /// assert_eq!(string.inner().next(), None);
    /// ```
    pub fn inner(&self) -> Fields<'a> {
        let (front, back) = around(self.tag, self.body).unwrap_or((self.body.len(), 0));
        let end = self.body.len().saturating_sub(back);
        let start = front.min(end);
        Fields { bytes: &self.body[start..end], at: self.at + HEADER + start }
    }

    /// The name of the tag, as [`tag_name`] has it.
    ///
    /// ```
    /// use jsx_precompile::field::Fields;
    ///
    /// assert_eq!(Fields::new(&[0x31, 0, 0]).next().unwrap().name(), Some("fragment"));
    /// ```
    pub fn name(&self) -> Option<&'static str> {
        tag_name(self.tag)
    }

    /// The number at the front of an 84, 85 or 90, four bytes, or of an 80, two bytes.
    ///
    /// ```
    /// use jsx_precompile::field::Fields;
    ///
    /// assert_eq!(Fields::new(&[0x90, 0, 4, 0, 1, 0, 2]).next().unwrap().number(), Some(65_538));
    /// assert_eq!(Fields::new(&[0x80, 0, 5, 1, 2, 0x81, 0, 0]).next().unwrap().number(), Some(258));
    /// assert_eq!(Fields::new(&[0x31, 0, 0]).next().unwrap().number(), None);
    /// ```
    pub fn number(&self) -> Option<u32> {
        match (self.tag, self.body) {
            (TEMPLATE | ORDER | 0x90, [a, b, c, d, ..]) => Some(u32::from_be_bytes([*a, *b, *c, *d])),
            (OLD_TEMPLATE, [high, low, ..]) => Some(u16::from_be_bytes([*high, *low]).into()),
            _ => None,
        }
    }

    /// The kinds of an 84's dynamic expressions, a byte each: 1 of an attribute, 2 of a child.
    ///
    /// ```
    /// use jsx_precompile::field::Fields;
    ///
    /// let template = Fields::new(b"\x84\0\x11\0\0\0\x01\0\x02\x01\x02\x81\0\0\x81\0\0\x81\0\0").next().unwrap();
    /// assert_eq!(template.kinds(), Some(&[1, 2][..]));
    /// ```
    pub fn kinds(&self) -> Option<&'a [u8]> {
        match (self.tag, self.body) {
            (TEMPLATE, [_, _, _, _, high, low, kinds @ ..]) => {
                kinds.get(..usize::from(u16::from_be_bytes([*high, *low])))
            }
            _ => None,
        }
    }

    /// The eight-byte number that the body of a 71 or 75 is.
    pub(crate) fn whole_number(&self) -> u64 {
        self.body.try_into().map_or(0, u64::from_be_bytes)
    }

    /// The decimal that the body of a 7a or 7b is; whoever reads has checked that it is one.
    pub(crate) fn decimal(&self) -> Decimal {
        Decimal::from_bytes(self.body).and_then(Result::ok).unwrap_or(Decimal::ZERO)
    }

    /// The body as text; whoever reads has checked that it is UTF-8.
    pub(crate) fn text(&self) -> &'a str {
        std::str::from_utf8(self.body).unwrap_or_default()
    }
}

/// The fields of some bytes, front to back. Ends at the end, or where no field stands: [`rest`](Fields::rest) is then
/// what is left.
///
/// ```
/// use jsx_precompile::field::Fields;
///
/// let mut fields = Fields::new(&[0x13, 0, 0, 0x20, 0, 1, b';', 0x12, 0, 9]);
/// assert_eq!(fields.by_ref().map(|field| field.tag).collect::<Vec<_>>(), [0x13, 0x20]);
/// assert_eq!(fields.rest(), [0x12, 0, 9]); // its body is not there
/// ```
#[derive(Clone, Debug, PartialEq, Eq)]
pub struct Fields<'a> {
    bytes: &'a [u8],
    at: usize,
}

impl<'a> Fields<'a> {
    /// The fields of these bytes.
    ///
    /// ```
    /// assert_eq!(jsx_precompile::field::Fields::new(&[]).next(), None);
    /// ```
    pub fn new(bytes: &'a [u8]) -> Fields<'a> {
        Fields { bytes, at: 0 }
    }

    /// What was not read yet.
    ///
    /// ```
    /// use jsx_precompile::field::Fields;
    ///
    /// let mut fields = Fields::new(&[0x13, 0, 0, 0x13, 0, 0]);
    /// fields.next();
    /// assert_eq!(fields.rest(), [0x13, 0, 0]);
    /// ```
    pub fn rest(&self) -> &'a [u8] {
        self.bytes
    }

    /// Where [`rest`](Fields::rest) begins in the bytes that were read.
    ///
    /// ```
    /// use jsx_precompile::field::Fields;
    ///
    /// let mut fields = Fields::new(&[0x13, 0, 0, 0x13, 0, 0]);
    /// fields.next();
    /// assert_eq!(fields.place(), 3);
    /// ```
    pub fn place(&self) -> usize {
        self.at
    }
}

impl<'a> Iterator for Fields<'a> {
    type Item = Field<'a>;

    fn next(&mut self) -> Option<Field<'a>> {
        let [tag, high, low, behind @ ..] = self.bytes else { return None };
        let (body, rest) = behind.split_at_checked(usize::from(u16::from_be_bytes([*high, *low])))?;
        let field = Field { tag: *tag, at: self.at, body };
        self.at += HEADER + body.len();
        self.bytes = rest;
        Some(field)
    }
}

/// A template as the library writes it.
pub(crate) const TEMPLATE: u8 = 0x84;

/// A template as it was written before its dynamic expressions had kinds.
pub(crate) const OLD_TEMPLATE: u8 = 0x80;

/// A template to be filled, its number and its fillings.
pub(crate) const ORDER: u8 = 0x85;

/// A filling in an opening tag.
pub(crate) const ATTRIBUTE_TEXT: u8 = 0x86;

/// A filling among children that is escaped.
pub(crate) const PLAIN_TEXT: u8 = 0x87;

/// The bytes of an 84's number and count.
pub(crate) const NUMBER_AND_COUNT: usize = 6;

/// The bytes of the number of an 85 or 90.
const NUMBER: usize = 4;

/// Of a field whose body has fields: how many bytes stand before them, and how many behind.
pub(crate) fn around(tag: u8, body: &[u8]) -> Option<(usize, usize)> {
    match tag {
        0x01..=0x03 | 0x10..=0x12 | 0x30 | 0x31 | 0x41 | 0x42 | 0x50 | 0x52 | 0x53 | 0x61 => Some((0, 0)),
        0x76 | 0x77 | 0x79 | 0x91..=0x96 => Some((0, 0)),
        OLD_TEMPLATE => Some((2, 0)),
        TEMPLATE => {
            let count = body.get(4..NUMBER_AND_COUNT).map_or(0, |two| u16::from_be_bytes([two[0], two[1]]));
            Some((NUMBER_AND_COUNT + usize::from(count), 0))
        }
        ORDER | 0x90 => Some((NUMBER, 0)),
        0x82 => Some((0, 1)),
        _ => None,
    }
}

/// What a tag means; none for a byte that is no tag.
///
/// ```
/// use jsx_precompile::field::tag_name;
///
/// assert_eq!(tag_name(0x50), Some("attribute"));
/// assert_eq!(tag_name(0x99), None);
/// ```
pub fn tag_name(tag: u8) -> Option<&'static str> {
    Some(match tag {
        0x01 => "page",
        0x02 => "elements not serialized",
        0x03 => "attributes not serialized",
        0x04 => "import source",
        0x05 => "sums worked out",
        0x10 => "export",
        0x11 => "declaration",
        0x12 => "statement",
        0x13 => "empty statement",
        0x20 => "source",
        0x30 => "element",
        0x31 => "fragment",
        0x40 => "identifier",
        0x41 => "member",
        0x42 => "namespaced name",
        0x50 => "attribute",
        0x51 => "attribute string",
        0x52 => "container",
        0x53 => "spread",
        0x60 => "text",
        0x61 => "spread child",
        0x70 => "string",
        0x71 => "number",
        0x72 => "boolean",
        0x73 => "null",
        0x74 => "other literal",
        0x75 => "minus",
        0x76 => "array",
        0x77 => "array spread",
        0x78 => "hole",
        0x79 => "other expression",
        0x7a => "decimal",
        0x7b => "minus decimal",
        OLD_TEMPLATE => "old template",
        0x81 => "static string",
        0x82 => "import",
        0x83 => "templates go here",
        TEMPLATE => "template",
        ORDER => "order",
        ATTRIBUTE_TEXT => "attribute text",
        PLAIN_TEXT => "plain text",
        0x90 => "jsxTemplate",
        0x91 => "jsxAttr",
        0x92 => "jsxEscape",
        0x93 => "choice",
        0x94 => "jsx",
        0x95 => "props",
        0x96 => "prop",
        _ => return None,
    })
}
