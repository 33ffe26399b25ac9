//! Tag text: one element or fragment as it is written in JSX, read into the field that a page holds. Document 02, A3.

mod braces;
mod call;
mod error;
mod name;
mod read;
mod write;

pub use call::{TagAnswer, read_tag_into};
pub use error::{Place, TagError, TagRefusal};

use crate::field::Fields;
use crate::limits::MAX_TAG;
use crate::page::{Child, Expression, Piece, Value, read::piece};

/// An element or a fragment, read from its text: the bytes of one field, 30 or 31, ready to be put into a page.
///
/// The text is one tag by the JSX grammar, with nothing around it and no comments. In braces stand numbers, strings in
/// quotes, `true`, `false`, `null`, a tag alone, or source text without another tag; docs/FORMAT.md of the repository
/// has the whole.
///
/// ```
/// use jsx_precompile::Tag;
/// use jsx_precompile::page::{Element, Expression, Item, Page};
///
/// let tag = Tag::read("<p class=\"t\">Hi {n}</p>")?;
/// let page = Page::new([Item::statement(["const a = ".into(), tag.into(), ";".into()])]);
/// let built = Element::new("p").attribute("class", "t").text("Hi ").child(Expression::source("n"));
/// assert_eq!(page, Page::new([Item::statement(["const a = ".into(), built.into(), ";".into()])]));
///
/// let error = Tag::read("<ul>\n  <li>1\n</ul>").unwrap_err();
/// assert_eq!(error.to_string(), "line 3, column 1: 14: expected `</li>`, found `</ul>`; `<li>` of line 2, column 3 is open");
/// # Ok::<(), jsx_precompile::TagError>(())
/// ```
#[derive(Clone, Debug, PartialEq, Eq)]
pub struct Tag {
    bytes: Vec<u8>,
}

impl Tag {
    /// The tag that a text is; where it is none, the number, the place and the reason.
    ///
    /// ```
    /// use jsx_precompile::{Tag, TagRefusal};
    ///
    /// assert_eq!(Tag::read("<br/>")?.bytes(), [0x30, 0, 5, 0x40, 0, 2, b'b', b'r']);
    ///
    /// let error = Tag::read("<b>x</i>").unwrap_err();
    /// assert_eq!((error.refusal, error.place.byte), (TagRefusal::NamesDiffer, 4));
    /// assert_eq!(error.to_string(), "line 1, column 5: 15: `</i>` closes `<b>` of line 1, column 1");
    /// # Ok::<(), jsx_precompile::TagError>(())
    /// ```
    pub fn read(text: &str) -> Result<Tag, TagError> {
        Tag::read_bytes(text.as_bytes())
    }

    /// The same of bytes that may be no text: [`TagRefusal::NotUtf8`] then.
    ///
    /// ```
    /// use jsx_precompile::Tag;
    ///
    /// let error = Tag::read_bytes(b"<p>caf\xe9</p>").unwrap_err();
    /// assert_eq!(error.to_string(), "line 1, column 7: 6: byte e9 is not UTF-8");
    /// ```
    pub fn read_bytes(text: &[u8]) -> Result<Tag, TagError> {
        // Most fields are shorter than three times their text.
        let guess = (3 * text.len() + 64).min(MAX_TAG);
        let mut bytes = vec![0; guess];
        let mut answer = read_tag_into(text, &mut bytes);
        if answer.refusal() == Some(TagRefusal::TagTooSmall) {
            bytes.resize(MAX_TAG, 0);
            answer = read_tag_into(text, &mut bytes);
        }
        match answer.refusal() {
            None => {
                bytes.truncate(answer.tag_bytes);
                Ok(Tag { bytes })
            }
            Some(refusal) => Err(located(text, refusal)),
        }
    }

    /// The field: a tag of one byte, 30 or 31, a length of two and the body.
    ///
    /// ```
    /// assert_eq!(jsx_precompile::Tag::read("<></>")?.bytes(), [0x31, 0, 0]);
    /// # Ok::<(), jsx_precompile::TagError>(())
    /// ```
    pub fn bytes(&self) -> &[u8] {
        &self.bytes
    }

    /// As a tree of a page: a [`Piece::Element`] or a [`Piece::Fragment`].
    ///
    /// ```
    /// use jsx_precompile::{Tag, page::{Element, Piece}};
    ///
    /// assert_eq!(Tag::read("<a.b c/>")?.to_piece(), Piece::Element(Element::new("a.b").valueless("c")));
    /// # Ok::<(), jsx_precompile::TagError>(())
    /// ```
    pub fn to_piece(&self) -> Piece {
        // A tag is one field.
        Fields::new(&self.bytes).next().map_or(Piece::Source(String::new()), piece)
    }
}

/// The library's refusal, with its place: the reader of this crate goes over the text a second time, and refuses as the
/// library does.
fn located(text: &[u8], refusal: TagRefusal) -> TagError {
    let alike = read::read(text).err().filter(|error| error.refusal == refusal);
    alike.unwrap_or_else(|| TagError {
        refusal,
        place: Place::of(text, 0),
        opened: None,
        reason: refusal.explanation().to_string(),
    })
}

macro_rules! from_tag {
    ($($to:ident)+) => {
        $(
            /// The element or fragment that the tag is.
            impl From<Tag> for $to {
                fn from(tag: Tag) -> $to {
                    match tag.to_piece() {
                        Piece::Element(element) => element.into(),
                        Piece::Fragment(fragment) => fragment.into(),
                        Piece::Source(_) => unreachable!("a tag is no source text"),
                    }
                }
            }
        )+
    };
}

from_tag! { Child Expression Value }

/// The element or fragment that the tag is.
impl From<Tag> for Piece {
    fn from(tag: Tag) -> Piece {
        tag.to_piece()
    }
}

/// As [`Tag::read`].
///
/// ```
/// let tag: jsx_precompile::Tag = "<br/>".parse()?;
/// assert_eq!(tag, jsx_precompile::Tag::read("<br/>")?);
/// # Ok::<(), jsx_precompile::TagError>(())
/// ```
impl std::str::FromStr for Tag {
    type Err = TagError;

    fn from_str(text: &str) -> Result<Tag, TagError> {
        Tag::read(text)
    }
}
