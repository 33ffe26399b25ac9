//! The grammar of document 01, with the place and the reason of a refusal. Front to back: at each field its header
//! (torn, then misplaced), then its depth, then its body; a missing field where what should hold it ends.

use crate::decimal::{Decimal, DecimalError};
use crate::field::{
    ATTRIBUTE_TEXT, HEADER, NUMBER_AND_COUNT, OLD_TEMPLATE, ORDER, PLAIN_TEXT, TEMPLATE, around, tag_name,
};
use crate::limits::*;
use crate::path::Path;
use crate::refusal::Refusal;
use std::fmt;

/// Where and why bytes are refused.
///
/// ```
/// use jsx_precompile::{Input, Refusal, page::Page};
///
/// // A statement with an element whose name is `1`.
/// let fault = Page::from_bytes(&[1, 0, 10, 0x12, 0, 7, 0x30, 0, 4, 0x40, 0, 1, b'1']).unwrap_err();
/// assert_eq!((fault.input, fault.at, fault.refusal), (Input::Page, 12, Refusal::BadName));
/// assert_eq!(fault.path.to_string(), "01 > 12[0] > 30 1 > 40");
/// assert_eq!(fault.reason, "'1' may not begin a name");
/// assert_eq!(
///     fault.to_string(),
///     "page, byte 12, 01 > 12[0] > 30 1 > 40: 5 (bad name): '1' may not begin a name"
/// );
/// ```
#[derive(Clone, Debug, PartialEq, Eq)]
pub struct Fault {
    /// Which bytes are refused.
    pub input: Input,
    /// The byte at which it shows: the header of a field that is torn, misplaced, too deep or lacks one in it, or the
    /// byte of a body; the header of an element or item that the transform refuses, or of an order or filling that does not
    /// fit its template; the limit of what is too long.
    pub at: usize,
    /// The field that is refused, or that holds it where it cannot be read.
    pub path: Path,
    /// Document 01's refusal.
    pub refusal: Refusal,
    /// What stands there, in plain words.
    pub reason: String,
}

impl fmt::Display for Fault {
    fn fmt(&self, f: &mut fmt::Formatter<'_>) -> fmt::Result {
        let Fault { input, at, path, refusal, reason } = self;
        write!(f, "{input}, byte {at}")?;
        if !path.steps().is_empty() {
            write!(f, ", {path}")?;
        }
        write!(f, ": {} ({}): {reason}", refusal.number(), refusal.word())
    }
}

impl std::error::Error for Fault {}

/// What bytes are read as.
///
/// ```
/// assert_eq!(jsx_precompile::Input::PageOut.to_string(), "page out");
/// ```
#[derive(Clone, Copy, Debug, PartialEq, Eq, PartialOrd, Ord, Hash)]
pub enum Input {
    /// A page, field 01.
    Page,
    /// The options, fields 02 to 05.
    Options,
    /// The templates that were recorded.
    Templates,
    /// The page with its calls.
    PageOut,
    /// What templates are filled with, field 85.
    Order,
    /// The pages of all houses, which are no fields.
    Catalogue,
}

impl fmt::Display for Input {
    fn fmt(&self, f: &mut fmt::Formatter<'_>) -> fmt::Result {
        f.write_str(match self {
            Input::Page => "page",
            Input::Options => "options",
            Input::Templates => "templates out",
            Input::PageOut => "page out",
            Input::Order => "order",
            Input::Catalogue => "catalogue",
        })
    }
}

/// A [`Fault`] before its path is known.
struct Found {
    at: usize,
    refusal: Refusal,
    reason: String,
}

fn fault<T>(at: usize, refusal: Refusal, reason: impl Into<String>) -> Result<T, Found> {
    Err(Found { at, refusal, reason: reason.into() })
}

/// Fields that stand side by side, and how far they are read.
struct Row {
    /// The field that holds them, and its place; 0 outside all fields.
    holder: u8,
    holder_at: usize,
    next: usize,
    end: usize,
    count: usize,
    last: u8,
    has_templates_place: bool,
    /// How many static strings an 84 has.
    strings: usize,
    /// The field that is being read, once its header is whole.
    open: Option<usize>,
}

impl Row {
    fn new(holder: u8, holder_at: usize, next: usize, end: usize) -> Row {
        Row { holder, holder_at, next, end, count: 0, last: 0, has_templates_place: false, strings: 0, open: None }
    }
}

/// Whether the bytes are what they are read as. Rows lie on a stack of their own: page out may be deep.
pub(crate) fn check(input: Input, bytes: &[u8]) -> Result<(), Fault> {
    let mut rows = vec![Row::new(0, 0, 0, bytes.len())];
    length(input, bytes.len()).and_then(|()| walk(input, bytes, &mut rows)).map_err(|found| {
        let mut places: Vec<usize> = rows.iter().skip(1).map(|row| row.holder_at).collect();
        places.extend(rows.last().and_then(|row| row.open));
        let Found { at, refusal, reason } = found;
        Fault { input, at, path: Path::of(bytes, &places), refusal, reason }
    })
}

fn length(input: Input, bytes: usize) -> Result<(), Found> {
    let most = match input {
        Input::Page => MAX_PAGE,
        Input::Options => MAX_OPTIONS,
        _ => usize::MAX,
    };
    match bytes {
        0 if is_alone(input) => fault(0, Refusal::Truncated, format!("an empty {input}")),
        _ if bytes > most => fault(most, Refusal::InputTooLong, format!("{bytes} bytes, at most {most} are taken")),
        _ => Ok(()),
    }
}

/// Whether it is one field with nothing behind it.
fn is_alone(input: Input) -> bool {
    matches!(input, Input::Page | Input::Order)
}

fn walk(input: Input, bytes: &[u8], rows: &mut Vec<Row>) -> Result<(), Found> {
    while let Some(depth) = rows.len().checked_sub(1) {
        let row = &mut rows[depth];
        if row.next == row.end {
            ends(input, row)?;
            rows.pop();
        } else {
            let inner = field(input, bytes, row, depth + 1)?;
            row.open = None;
            rows.extend(inner);
        }
    }
    Ok(())
}

fn ends(input: Input, row: &Row) -> Result<(), Found> {
    let place = place(input, row);
    if place.needed {
        let reason = format!("{} ends where {} must stand", named(row.holder), place.takes.words());
        return fault(row.holder_at, Refusal::Misplaced, reason);
    }
    Ok(())
}

/// One field of the row; the row in it, where its body has fields.
fn field(input: Input, bytes: &[u8], row: &mut Row, depth: usize) -> Result<Option<Row>, Found> {
    let at = row.next;
    let left = row.end - at;
    if is_alone(input) && row.holder == 0 && row.count == 1 {
        return fault(at, Refusal::Truncated, format!("{left} bytes follow the {input}"));
    }
    if left < HEADER {
        return fault(at, Refusal::Truncated, format!("{left} bytes where a field begins"));
    }
    let tag = bytes[at];
    let length = usize::from(u16::from_be_bytes([bytes[at + 1], bytes[at + 2]]));
    if length > left - HEADER {
        let reason = format!("{} of {length} bytes where {} are left", named(tag), left - HEADER);
        return fault(at, Refusal::Truncated, reason);
    }
    row.open = Some(at);
    let takes = place(input, row).takes;
    if !takes.tag(tag) {
        let reason = format!("{} stands where {} may stand", named(tag), takes.words());
        return fault(at, Refusal::Misplaced, reason);
    }
    if matches!(input, Input::Page | Input::Options | Input::Order) && depth > MAX_DEPTH {
        return fault(at, Refusal::TooDeep, format!("{} lies {depth} deep", named(tag)));
    }
    row.next = at + HEADER + length;
    row.count += 1;
    row.last = tag;
    row.has_templates_place |= tag == 0x83;
    let (start, end) = (at + HEADER, at + HEADER + length);
    let Some((front, back)) = around(tag, &bytes[start..end]) else {
        return leaf(tag, row.holder, &bytes[start..end], start).map(|()| None);
    };
    if length < front + back {
        let lacking = match tag {
            TEMPLATE if length < NUMBER_AND_COUNT => "its number and count".to_string(),
            TEMPLATE => format!("its {} kinds", front - NUMBER_AND_COUNT),
            _ => "its number".to_string(),
        };
        return fault(start, Refusal::Misplaced, format!("{} of {length} bytes lacks {lacking}", named(tag)));
    }
    if tag == 0x82 && !(1..=15).contains(&bytes[end - 1]) {
        return fault(end - 1, Refusal::Misplaced, format!("{} is no sum of helpers", bytes[end - 1]));
    }
    let mut inner = Row::new(tag, at, start + front, end - back);
    if tag == TEMPLATE {
        let kinds = &bytes[start + NUMBER_AND_COUNT..start + front];
        if let Some(bad) = kinds.iter().position(|kind| !matches!(kind, 1 | 2)) {
            let reason = format!("{} is no kind (1 of an attribute, 2 of a child)", kinds[bad]);
            return fault(start + NUMBER_AND_COUNT + bad, Refusal::Misplaced, reason);
        }
        inner.strings = kinds.len() + 1;
    }
    Ok(Some(inner))
}

fn named(tag: u8) -> String {
    match tag_name(tag) {
        Some(name) => format!("{tag:02x} ({name})"),
        None => format!("{tag:02x} (no tag)"),
    }
}

/// What may stand in a row next, and whether something must.
struct Place {
    takes: Takes,
    needed: bool,
}

#[derive(Clone, Copy)]
enum Takes {
    Page,
    /// Those behind this tag.
    Options(u8),
    Names,
    Items,
    Pieces,
    ElementName,
    AttributesAndChildren,
    Children,
    Identifier,
    AttributeName,
    Value,
    Expression,
    ArrayItems,
    /// Those like this tag, or of either kind.
    Template(u8),
    StaticString,
    ItemsOut {
        first: bool,
        templates_place: bool,
    },
    PiecesOut,
    ExpressionOut,
    ArrayItemsOut,
    CalledName,
    Props,
    PropList,
    Order,
    Fillings,
    Nothing,
}

fn place(input: Input, row: &Row) -> Place {
    use Takes::*;
    let any = |takes| Place { takes, needed: false };
    // These and no more; of each whether it must be there.
    let these = |all: &[(Takes, bool)]| match all.get(row.count) {
        Some((takes, needed)) => Place { takes: *takes, needed: *needed },
        None => any(Nothing),
    };
    let out = input == Input::PageOut;
    let expression = if out { ExpressionOut } else { Expression };
    match (row.holder, input) {
        (0, Input::Page) => these(&[(Page, true)]),
        (0, Input::Options) => any(Options(row.last)),
        (0, Input::Templates) => any(Template(row.last)),
        (0, Input::PageOut) => any(ItemsOut { first: row.count == 0, templates_place: !row.has_templates_place }),
        (0, Input::Order) => these(&[(Order, true)]),
        (ORDER, _) => any(Fillings),
        (0x01, _) => any(Items),
        (0x02 | 0x03, _) => any(Names),
        (0x10..=0x12 | 0x79, _) => any(if out { PiecesOut } else { Pieces }),
        (0x30, _) if row.count == 0 => these(&[(ElementName, true)]),
        (0x30, _) if matches!(row.last, 0x40..=0x42 | 0x50 | 0x53) => any(AttributesAndChildren),
        (0x30 | 0x31, _) => any(Children),
        (0x41, _) if row.count < MAX_MEMBERS => Place { takes: Identifier, needed: row.count < MIN_MEMBERS },
        (0x42, _) => these(&[(Identifier, true), (Identifier, true)]),
        (0x50, _) => these(&[(AttributeName, true), (Value, false)]),
        (0x52, _) => these(&[(Expression, false)]),
        (0x53 | 0x61 | 0x77 | 0x92, _) => these(&[(expression, true)]),
        (0x76, _) => any(if out { ArrayItemsOut } else { ArrayItems }),
        (OLD_TEMPLATE, _) => Place { takes: StaticString, needed: row.count == 0 },
        (TEMPLATE, _) if row.count < row.strings => Place { takes: StaticString, needed: true },
        (0x82, _) => these(&[(StaticString, true)]),
        (0x90, _) => any(ExpressionOut),
        (0x91 | 0x96, _) => these(&[(StaticString, true), (ExpressionOut, true)]),
        (0x93, _) => these(&[(ExpressionOut, true), (StaticString, true)]),
        (0x94, _) => these(&[(CalledName, true), (Props, true), (ExpressionOut, false)]),
        (0x95, _) => any(PropList),
        _ => any(Nothing),
    }
}

impl Takes {
    fn tag(self, tag: u8) -> bool {
        use Takes::*;
        match self {
            Page => tag == 0x01,
            Options(last) => (0x02..=0x05).contains(&tag) && tag > last,
            Names => tag == 0x20,
            Items => matches!(tag, 0x10..=0x13),
            Pieces => matches!(tag, 0x20 | 0x30 | 0x31),
            ElementName => matches!(tag, 0x40..=0x42),
            AttributesAndChildren => matches!(tag, 0x50 | 0x53) || Children.tag(tag),
            Children => matches!(tag, 0x60 | 0x52 | 0x30 | 0x31 | 0x61),
            Identifier => tag == 0x40,
            AttributeName => matches!(tag, 0x40 | 0x42),
            Value => matches!(tag, 0x51 | 0x52 | 0x30 | 0x31),
            Expression => matches!(tag, 0x70..=0x76 | 0x79..=0x7b | 0x30 | 0x31),
            ArrayItems => matches!(tag, 0x77 | 0x78) || Expression.tag(tag),
            Template(0) => matches!(tag, TEMPLATE | OLD_TEMPLATE),
            Template(last) => tag == last,
            StaticString => tag == 0x81,
            ItemsOut { first, templates_place } => {
                Items.tag(tag) || tag == 0x82 && first || tag == 0x83 && templates_place
            }
            PiecesOut => tag == 0x20 || ExpressionOut.tag(tag),
            ExpressionOut => matches!(tag, 0x70..=0x76 | 0x79..=0x7b | 0x90..=0x94),
            ArrayItemsOut => matches!(tag, 0x77 | 0x78) || ExpressionOut.tag(tag),
            CalledName => matches!(tag, 0x81 | 0x40 | 0x41),
            Props => matches!(tag, 0x73 | 0x95),
            PropList => matches!(tag, 0x96 | 0x53),
            Order => tag == ORDER,
            Fillings => matches!(tag, ORDER | ATTRIBUTE_TEXT | PLAIN_TEXT),
            Nothing => false,
        }
    }

    fn words(self) -> &'static str {
        use Takes::*;
        match self {
            Page => "a page (01)",
            Options(0..=0x01) => "options (02, 03, 04, 05, each at most once, in this order)",
            Options(0x02) => "options behind 02 (03, 04, 05)",
            Options(0x03) => "options behind 03 (04, 05)",
            Options(0x04) => "options behind 04 (05)",
            Options(_) => "no more options",
            Names => "names (20)",
            Items => "items (10 to 13)",
            Pieces => "pieces (20, 30, 31)",
            ElementName => "an element's name (40, 41 or 42)",
            AttributesAndChildren => "attributes (50, 53) and children (60, 52, 30, 31, 61)",
            Children => "children (60, 52, 30, 31, 61)",
            Identifier => "an identifier (40)",
            AttributeName => "an attribute's name (40 or 42)",
            Value => "a value (51, 52, 30 or 31)",
            Expression => "an expression (70 to 76, 79 to 7b, 30 or 31)",
            ArrayItems => "items of an array (an expression, 77 or 78)",
            Template(0) => "templates (84, or 80 of old)",
            Template(OLD_TEMPLATE) => "templates like the first (80)",
            Template(_) => "templates like the first (84)",
            StaticString => "a string (81)",
            ItemsOut { .. } => "items (82 first, 83 once, 10 to 13)",
            PiecesOut => "pieces (20, an expression)",
            ExpressionOut => "an expression (70 to 76, 79 to 7b, 90 to 94)",
            ArrayItemsOut => "items of an array (an expression, 77 or 78)",
            CalledName => "the name of what is called (81, 40 or 41)",
            Props => "props (73 or 95)",
            PropList => "props (96, 53)",
            Order => "an order (85)",
            Fillings => "fillings (85, 86, 87)",
            Nothing => "nothing more",
        }
    }
}

/// The body of a field that holds no fields.
fn leaf(tag: u8, holder: u8, body: &[u8], at: usize) -> Result<(), Found> {
    match tag {
        0x05 | 0x13 | 0x73 | 0x78 | 0x83 if !body.is_empty() => {
            fault(at, Refusal::Misplaced, format!("{} has {} bytes and may have none", named(tag), body.len()))
        }
        0x05 | 0x13 | 0x73 | 0x78 | 0x83 => Ok(()),
        0x40 => name(body, holder == 0x41, at),
        0x71 | 0x75 => number(tag, body, at),
        0x7a | 0x7b => decimal(tag, body, at),
        0x72 if matches!(body, [0] | [1]) => Ok(()),
        0x72 => fault(at, Refusal::Misplaced, "72 (boolean) has not one byte 0 or 1"),
        0x04 if body.is_empty() => fault(at, Refusal::Misplaced, "04 (import source) is empty"),
        _ => match std::str::from_utf8(body) {
            Ok(_) => Ok(()),
            Err(error) => {
                let bad = error.valid_up_to();
                let reason = format!("byte {:02x} in {} is not UTF-8", body[bad], named(tag));
                fault(at + bad, Refusal::NotUtf8, reason)
            }
        },
    }
}

fn number(tag: u8, body: &[u8], at: usize) -> Result<(), Found> {
    let Ok(bytes) = body.try_into() else {
        return fault(at, Refusal::Misplaced, format!("{} has {} bytes and must have 8", named(tag), body.len()));
    };
    match u64::from_be_bytes(bytes) {
        value if value > MAX_NUMBER => {
            fault(at, Refusal::NumberTooLarge, format!("{value} is over the limit of {MAX_NUMBER}"))
        }
        _ => Ok(()),
    }
}

fn decimal(tag: u8, body: &[u8], at: usize) -> Result<(), Found> {
    match Decimal::from_bytes(body) {
        None => fault(at, Refusal::Misplaced, format!("{} has {} bytes and must have 9", named(tag), body.len())),
        // The places are its last byte.
        Some(Err(error @ DecimalError::TooManyPlaces(_))) => {
            fault(at + body.len() - 1, Refusal::NumberTooLarge, error.to_string())
        }
        Some(Err(error)) => fault(at, Refusal::NumberTooLarge, error.to_string()),
        Some(Ok(_)) => Ok(()),
    }
}

fn name(body: &[u8], in_member: bool, at: usize) -> Result<(), Found> {
    if body.is_empty() {
        return fault(at, Refusal::BadName, "an empty name");
    }
    if let Some(bad) = body.iter().enumerate().position(|(i, byte)| !may_stand(*byte, i == 0, in_member)) {
        let letter = char::from(body[bad]).escape_default();
        let reason = match (bad, body[bad]) {
            (0, _) => format!("'{letter}' may not begin a name"),
            (_, b'-') => "'-' may not stand in a member".to_string(),
            _ => format!("'{letter}' may not stand in a name"),
        };
        return fault(at + bad, Refusal::BadName, reason);
    }
    if body.len() > MAX_NAME {
        return fault(at, Refusal::BadName, format!("a name of {} bytes, at most {MAX_NAME} are taken", body.len()));
    }
    Ok(())
}

fn may_stand(byte: u8, first: bool, in_member: bool) -> bool {
    let begins = byte.is_ascii_alphabetic() || byte == b'_' || byte == b'$';
    begins || !first && (byte.is_ascii_digit() || byte == b'-' && !in_member)
}

/// Whether this is an identifier, one of a member or not.
pub(crate) fn is_name(text: &str, in_member: bool) -> bool {
    name(text.as_bytes(), in_member, 0).is_ok()
}
