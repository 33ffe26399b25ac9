//! Why a text is no tag, and where.

use std::fmt;

/// Why a text is not read as a tag, in the order in which that is looked for.
///
/// ```
/// use jsx_precompile::{Tag, TagRefusal};
///
/// let refusal = Tag::read("<a").unwrap_err().refusal;
/// assert_eq!((refusal, refusal.number()), (TagRefusal::NoReading, 14));
/// ```
#[derive(Clone, Copy, Debug, PartialEq, Eq, Hash)]
#[repr(u32)]
pub enum TagRefusal {
    /// The text has over 32,768 bytes.
    InputTooLong = 2,
    /// The text is not UTF-8.
    NotUtf8 = 6,
    /// The text is no tag by the grammar.
    NoReading = 14,
    /// A closing name is not that of its tag; but for such names the text is a tag.
    NamesDiffer = 15,
    /// A number is over 9,007,199,254,740,991; of a decimal, digits over 999,999,999,999,999 or over 15 places.
    NumberTooLarge = 7,
    /// Fields would lie more than 48 deep in a page, where the tag itself is 3 deep.
    TooDeep = 8,
    /// A body of the field would have over 65,535 bytes.
    OutputTooLong = 11,
    /// The field does not fit the bytes lent for it.
    TagTooSmall = 13,
}

use TagRefusal::*;

/// In the order in which they are looked for.
const ALL: [TagRefusal; 8] =
    [InputTooLong, NotUtf8, NoReading, NamesDiffer, NumberTooLarge, TooDeep, OutputTooLong, TagTooSmall];

impl TagRefusal {
    /// The refusal of that number; none for 0 and for what is no number of a tag's refusal.
    ///
    /// ```
    /// use jsx_precompile::TagRefusal;
    ///
    /// assert_eq!(TagRefusal::from_number(15), Some(TagRefusal::NamesDiffer));
    /// assert_eq!(TagRefusal::from_number(3), None);
    /// ```
    pub fn from_number(number: u32) -> Option<TagRefusal> {
        ALL.into_iter().find(|refusal| refusal.number() == number)
    }

    /// The number of documents 01 and 02.
    ///
    /// ```
    /// assert_eq!(jsx_precompile::TagRefusal::TooDeep.number(), 8);
    /// ```
    pub fn number(self) -> u32 {
        self as u32
    }

    /// What went wrong, in plain words.
    ///
    /// ```
    /// assert_eq!(jsx_precompile::TagRefusal::NamesDiffer.explanation(), "a closing name is not that of its tag");
    /// ```
    pub fn explanation(self) -> &'static str {
        match self {
            InputTooLong => "the text is over 32,768 bytes",
            NotUtf8 => "the text is not UTF-8",
            NoReading => "the text is no tag",
            NamesDiffer => "a closing name is not that of its tag",
            NumberTooLarge => {
                "a number is over 9,007,199,254,740,991, or the digits of a decimal over 999,999,999,999,999 or its places over 15"
            }
            TooDeep => "fields lie more than 48 deep within each other",
            OutputTooLong => "a body of the field is over 65,535 bytes",
            TagTooSmall => "the field does not fit the bytes lent for it",
        }
    }
}

impl fmt::Display for TagRefusal {
    fn fmt(&self, f: &mut fmt::Formatter<'_>) -> fmt::Result {
        write!(f, "{}: {}", self.number(), self.explanation())
    }
}

/// Where in a text something stands.
///
/// ```
/// use jsx_precompile::Tag;
///
/// // A line ends at LF, CR LF or CR; columns count characters.
/// let place = Tag::read("<p>\r\n  é {</p>").unwrap_err().place;
/// assert_eq!((place.byte, place.line, place.column), (12, 2, 7));
/// assert_eq!(place.to_string(), "line 2, column 7");
/// ```
#[derive(Clone, Copy, Debug, PartialEq, Eq)]
pub struct Place {
    /// Counted from 0.
    pub byte: usize,
    /// Counted from 1.
    pub line: usize,
    /// The character in its line, counted from 1.
    pub column: usize,
}

impl Place {
    /// The place of a byte in a text, which may be no UTF-8 from there on.
    pub(super) fn of(text: &[u8], byte: usize) -> Place {
        let before = String::from_utf8_lossy(&text[..byte.min(text.len())]);
        // CR LF ends one line.
        let before = before.replace("\r\n", "\n");
        let mut lines = before.split(['\n', '\r']);
        let last = lines.next_back().unwrap_or_default();
        Place { byte, line: 1 + lines.count(), column: 1 + last.chars().count() }
    }
}

impl fmt::Display for Place {
    fn fmt(&self, f: &mut fmt::Formatter<'_>) -> fmt::Result {
        write!(f, "line {}, column {}", self.line, self.column)
    }
}

/// Where and why a text is not read as a tag.
///
/// ```
/// use jsx_precompile::{Tag, TagRefusal};
///
/// let error = Tag::read("<p>\n  {a / b}\n</p>").unwrap_err();
/// assert_eq!((error.refusal, error.place.line, error.place.column), (TagRefusal::NoReading, 2, 6));
/// assert_eq!(error.reason, "a slash is not read in braces");
/// assert_eq!(error.to_string(), "line 2, column 6: 14: a slash is not read in braces");
/// ```
#[derive(Clone, Debug, PartialEq, Eq)]
pub struct TagError {
    /// Why the text is refused.
    pub refusal: TagRefusal,
    /// Where it shows: the sign that cannot stand there, the closing tag whose name differs, the number, the part that
    /// lies too deep, the part whose field is too long, the byte that is not UTF-8, the limit of what is too long.
    pub place: Place,
    /// Where the tag is opened whose closing name differs or is missing.
    pub opened: Option<Place>,
    /// What was expected and what stands there, in plain words.
    pub reason: String,
}

impl fmt::Display for TagError {
    fn fmt(&self, f: &mut fmt::Formatter<'_>) -> fmt::Result {
        write!(f, "{}: {}: {}", self.place, self.refusal.number(), self.reason)
    }
}

impl std::error::Error for TagError {}

/// A [`TagError`] before lines and columns are counted.
pub(super) struct Found {
    pub refusal: TagRefusal,
    pub at: usize,
    /// The tag that is open, and where it is opened.
    pub opened: Option<(String, usize)>,
    pub reason: String,
}

impl Found {
    /// 14 at this byte.
    pub fn no_reading(at: usize, reason: impl Into<String>) -> Found {
        Found { refusal: NoReading, at, opened: None, reason: reason.into() }
    }

    pub fn into_error(self, text: &[u8]) -> TagError {
        let Found { refusal, at, opened, mut reason } = self;
        let place = Place::of(text, at);
        let opened = opened.map(|(tag, at)| {
            let opened = Place::of(text, at);
            reason += &match refusal {
                NamesDiffer => format!(" `{tag}` of {opened}"),
                _ => format!("; `{tag}` of {opened} is open"),
            };
            opened
        });
        TagError { refusal, place, opened, reason }
    }
}

#[cfg(test)]
mod tests {
    use super::*;

    #[test]
    fn each_number_of_a_refusal() {
        let mut numbers: Vec<u32> = (0..=100).filter(|number| TagRefusal::from_number(*number).is_some()).collect();
        assert_eq!(numbers, [2, 6, 7, 8, 11, 13, 14, 15]);
        numbers.sort_by_key(|number| ALL.iter().position(|refusal| refusal.number() == *number));
        assert_eq!(numbers, [2, 6, 14, 15, 7, 8, 11, 13]);
    }

    #[test]
    fn lines_and_columns() {
        let text = "a\nb\r\nc\rd\n\né".as_bytes();
        let places: Vec<(usize, usize)> =
            (0..=text.len()).map(|at| Place::of(text, at)).map(|place| (place.line, place.column)).collect();
        let expected = [(1, 1), (1, 2), (2, 1), (2, 2), (3, 1), (3, 1), (3, 2), (4, 1), (4, 2), (5, 1), (6, 1)];
        assert_eq!(places[..11], expected);
        assert_eq!(places[12], (6, 2));
    }
}
