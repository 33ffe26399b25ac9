//! The limits of pages, options, outputs, orders and catalogues.
//!
//! ```
//! use jsx_precompile::{Options, Refusal, limits::MAX_PAGE, transform};
//!
//! let longest = vec![0; MAX_PAGE];
//! assert_ne!(transform(&longest, &Options::new()).unwrap_err().refusal, Refusal::InputTooLong);
//! let longer = vec![0; MAX_PAGE + 1];
//! let fault = transform(&longer, &Options::new()).unwrap_err();
//! assert_eq!(fault.to_string(), "page, byte 32768: 2 (thick): 32769 bytes, at most 32768 are taken");
//! ```

/// The bytes of a page.
///
/// ```
/// assert_eq!(jsx_precompile::limits::MAX_PAGE, 32_768);
/// ```
pub const MAX_PAGE: usize = 32_768;

/// The bytes of the options.
///
/// ```
/// assert_eq!(jsx_precompile::limits::MAX_OPTIONS, 4_096);
/// ```
pub const MAX_OPTIONS: usize = 4_096;

/// The bytes of a tag's text, for [`Tag::read`](crate::Tag::read).
///
/// ```
/// use jsx_precompile::{Tag, limits::MAX_TAG_TEXT};
///
/// let text = |bytes: usize| format!("<>{}</>", "t".repeat(bytes - 5));
/// assert!(Tag::read(&text(MAX_TAG_TEXT)).is_ok() && Tag::read(&text(MAX_TAG_TEXT + 1)).is_err());
/// ```
pub const MAX_TAG_TEXT: usize = 32_768;

/// The bytes of the longest field that a tag's text becomes: a header and a body.
///
/// ```
/// use jsx_precompile::{TagRefusal, limits::MAX_TAG, read_tag_into};
///
/// let mut out = vec![0; MAX_TAG];
/// // Each `{1}` gives 14 bytes.
/// assert_eq!(read_tag_into(format!("<>{}</>", "{1}".repeat(4_681)).as_bytes(), &mut out).tag_bytes, MAX_TAG - 1);
/// let answer = read_tag_into(format!("<>{}</>", "{1}".repeat(4_682)).as_bytes(), &mut out);
/// assert_eq!(answer.refusal(), Some(TagRefusal::OutputTooLong));
/// ```
pub const MAX_TAG: usize = 65_538;

/// How deep the fields of a page, or of an order, lie within each other; the page or order itself is 1.
///
/// ```
/// use jsx_precompile::{WriteError, page::{Element, Item, Page}};
///
/// // The page and a statement lie around the elements, a name lies in the innermost.
/// let nested = |count: usize| {
///     let tag = (1..count).fold(Element::new("i"), |inner, _| Element::new("i").child(inner));
///     Page::new([Item::statement([tag.into()])]).to_bytes()
/// };
/// assert!(nested(jsx_precompile::limits::MAX_DEPTH - 3).is_ok());
/// assert_eq!(nested(jsx_precompile::limits::MAX_DEPTH - 2), Err(WriteError::TooDeep));
/// ```
pub const MAX_DEPTH: usize = 48;

/// The bytes of a field's body, and of a merged run of text.
///
/// ```
/// assert_eq!(jsx_precompile::limits::MAX_BODY, usize::from(u16::MAX));
/// ```
pub const MAX_BODY: usize = 65_535;

/// The bytes of one name.
///
/// ```
/// use jsx_precompile::{limits::MAX_NAME, page::{Element, Item, Page}};
///
/// let named = |name: String| Page::new([Item::statement([Element::new(name).into()])]).to_bytes();
/// assert!(named("n".repeat(MAX_NAME)).is_ok());
/// assert!(named("n".repeat(MAX_NAME + 1)).is_err());
/// ```
pub const MAX_NAME: usize = 128;

/// The fewest names of a member such as `a.b`.
///
/// ```
/// assert_eq!(jsx_precompile::limits::MIN_MEMBERS, "a.b".split('.').count());
/// ```
pub const MIN_MEMBERS: usize = 2;

/// The most names of a member such as `a.b.c`.
///
/// ```
/// assert_eq!(jsx_precompile::limits::MAX_MEMBERS, "a.b.c.d.e.f.g.h".split('.').count());
/// ```
pub const MAX_MEMBERS: usize = 8;

/// The numbers of templates that are looked up at once.
///
/// ```
/// use jsx_precompile::{Refusal, find, limits::MAX_NUMBERS};
///
/// let numbers: Vec<u32> = (0..=MAX_NUMBERS as u32).collect();
/// assert!(find(&[], &numbers[1..]).is_ok());
/// assert_eq!(find(&[], &numbers), Err(Refusal::NotRising));
/// ```
pub const MAX_NUMBERS: usize = 256;

/// The bytes of a catalogue.
///
/// ```
/// use jsx_precompile::{catalogue::{Catalogue, Shares}, limits::MAX_CATALOGUE};
///
/// let arrival = |length: usize| Catalogue::new(length).add(5, 1, &Shares::new(), &[], &[]);
/// assert!(arrival(MAX_CATALOGUE).is_ok());
/// let error = arrival(MAX_CATALOGUE + 1).unwrap_err();
/// assert_eq!(error.to_string(), "catalogue, byte 16777216: 4 (misplaced): 16777217 bytes, at most 16777216 are taken");
/// ```
pub const MAX_CATALOGUE: usize = 16_777_216;

/// The houses of a catalogue, numbered from 1.
///
/// ```
/// use jsx_precompile::{catalogue::Shares, limits::HOUSES};
///
/// assert_eq!(Shares::new().numbers().len(), 2 * HOUSES);
/// ```
pub const HOUSES: usize = 16;

/// The greatest number of a template that an 80, a template of before, has room for.
///
/// ```
/// use jsx_precompile::{Refusal, downgrade, limits::MAX_OLD_NUMBER};
///
/// let numbered = |number: u32| [&b"\x84\0\x09"[..], &number.to_be_bytes(), b"\0\0\x81\0\0"].concat();
/// assert!(downgrade(&numbered(MAX_OLD_NUMBER), &[]).is_ok());
/// assert_eq!(downgrade(&numbered(MAX_OLD_NUMBER + 1), &[]), Err(Refusal::Disagreeing));
/// ```
pub const MAX_OLD_NUMBER: u32 = 65_535;

/// The greatest whole number: up to here JavaScript's numbers are exact.
///
/// ```
/// assert_eq!(jsx_precompile::limits::MAX_NUMBER, (1 << 53) - 1);
/// ```
pub const MAX_NUMBER: u64 = 9_007_199_254_740_991;

/// The digits of a decimal, all taken together as one whole number: up to here they are those that JavaScript's nearest
/// number is printed with.
///
/// ```
/// use jsx_precompile::{Decimal, limits::MAX_DIGITS};
///
/// assert_eq!(MAX_DIGITS, 10_u64.pow(15) - 1);
/// assert!(Decimal::new(MAX_DIGITS, 2).is_ok() && Decimal::new(MAX_DIGITS + 1, 2).is_err());
/// ```
pub const MAX_DIGITS: u64 = 999_999_999_999_999;

/// The places of a decimal behind its point.
///
/// ```
/// use jsx_precompile::{Decimal, limits::MAX_PLACES};
///
/// assert!(Decimal::new(1, MAX_PLACES).is_ok() && Decimal::new(1, MAX_PLACES + 1).is_err());
/// ```
pub const MAX_PLACES: u8 = 15;

/// The least bytes of lent scratch.
///
/// ```
/// use jsx_precompile::{Refusal, limits::MIN_SCRATCH, transform_into};
///
/// let page = [1, 0, 0];
/// assert_eq!(transform_into(&page, &[], &mut vec![0; MIN_SCRATCH], &mut [], &mut []).refusal(), None);
/// let answer = transform_into(&page, &[], &mut vec![0; MIN_SCRATCH - 1], &mut [], &mut []);
/// assert_eq!(answer.refusal(), Some(Refusal::ScratchTooSmall));
/// ```
pub const MIN_SCRATCH: usize = 65_536;
