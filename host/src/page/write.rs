//! A tree as bytes.

use super::*;
use crate::check::is_name;
use crate::limits::*;
use std::fmt;

/// Why a tree or options have no bytes.
///
/// ```
/// use jsx_precompile::{WriteError, page::{Element, Expression, Item, Page}};
///
/// let error = Page::new([Item::statement([Element::new("a b").into()])]).to_bytes().unwrap_err();
/// assert_eq!(error, WriteError::BadName("a b".into()));
/// assert_eq!(error.to_string(), "\"a b\" is no name");
///
/// let value = Expression::Number(1 << 53);
/// let error = Page::new([Item::statement([Element::new("a").child(value).into()])]).to_bytes().unwrap_err();
/// assert_eq!(error, WriteError::NumberTooLarge(1 << 53));
/// ```
#[derive(Clone, Debug, PartialEq, Eq)]
pub enum WriteError {
    /// A name is not 1 to 128 ASCII letters, digits, `_`, `$` and `-` that begin with no digit or `-`; or has a `-` in
    /// a member.
    BadName(String),
    /// A member has not two to eight names.
    BadMember(usize),
    /// A number is over [`MAX_NUMBER`].
    NumberTooLarge(u64),
    /// Fields lie deeper than [`MAX_DEPTH`].
    TooDeep,
    /// The body of a field with this tag has more bytes than a length can say, [`MAX_BODY`].
    BodyTooLong(u8, usize),
    /// The page has more bytes than [`MAX_PAGE`].
    PageTooLong(usize),
    /// The options have more bytes than [`MAX_OPTIONS`].
    OptionsTooLong(usize),
    /// The import source is empty.
    NoImportSource,
}

impl fmt::Display for WriteError {
    fn fmt(&self, f: &mut fmt::Formatter<'_>) -> fmt::Result {
        match self {
            WriteError::BadName(name) => write!(f, "{name:?} is no name"),
            WriteError::BadMember(parts) => {
                write!(f, "a member of {parts} names, {MIN_MEMBERS} to {MAX_MEMBERS} are taken")
            }
            WriteError::NumberTooLarge(number) => write!(f, "{number} is over {MAX_NUMBER}"),
            WriteError::TooDeep => write!(f, "fields lie more than {MAX_DEPTH} deep"),
            WriteError::BodyTooLong(tag, bytes) => {
                write!(f, "a field {tag:02x} of {bytes} bytes, a body has at most {MAX_BODY}")
            }
            WriteError::PageTooLong(bytes) => write!(f, "a page of {bytes} bytes, at most {MAX_PAGE} are taken"),
            WriteError::OptionsTooLong(bytes) => {
                write!(f, "options of {bytes} bytes, at most {MAX_OPTIONS} are taken")
            }
            WriteError::NoImportSource => write!(f, "the import source is empty"),
        }
    }
}

impl std::error::Error for WriteError {}

type Written = Result<(), WriteError>;

pub(super) fn page(page: &Page) -> Result<Vec<u8>, WriteError> {
    let mut writer = Writer::default();
    writer.field(0x01, |w| page.items.iter().try_for_each(|item| w.item(item)))?;
    match writer.out.len() {
        bytes if bytes > MAX_PAGE => Err(WriteError::PageTooLong(bytes)),
        _ => Ok(writer.out),
    }
}

/// Writes fields; a header is filled in behind its body.
#[derive(Default)]
pub(crate) struct Writer {
    pub(crate) out: Vec<u8>,
    depth: usize,
}

impl Writer {
    pub(crate) fn field(&mut self, tag: u8, inside: impl FnOnce(&mut Writer) -> Written) -> Written {
        if self.depth == MAX_DEPTH {
            return Err(WriteError::TooDeep);
        }
        let at = self.out.len();
        self.out.extend([tag, 0, 0]);
        self.depth += 1;
        inside(self)?;
        self.depth -= 1;
        let bytes = self.out.len() - at - 3;
        let length = u16::try_from(bytes).map_err(|_| WriteError::BodyTooLong(tag, bytes))?;
        self.out[at + 1..at + 3].copy_from_slice(&length.to_be_bytes());
        Ok(())
    }

    pub(crate) fn leaf(&mut self, tag: u8, body: &[u8]) -> Written {
        self.field(tag, |w| {
            w.out.extend(body);
            Ok(())
        })
    }

    fn item(&mut self, item: &Item) -> Written {
        match item {
            Item::Export(pieces) => self.field(0x10, |w| w.pieces(pieces)),
            Item::Declaration(pieces) => self.field(0x11, |w| w.pieces(pieces)),
            Item::Statement(pieces) => self.field(0x12, |w| w.pieces(pieces)),
            Item::Empty => self.leaf(0x13, &[]),
        }
    }

    fn pieces(&mut self, pieces: &[Piece]) -> Written {
        pieces.iter().try_for_each(|piece| match piece {
            Piece::Source(text) => self.leaf(0x20, text.as_bytes()),
            Piece::Element(element) => self.element(element),
            Piece::Fragment(fragment) => self.fragment(fragment),
        })
    }

    fn element(&mut self, element: &Element) -> Written {
        self.field(0x30, |w| {
            match &element.name {
                ElementName::Identifier(name) => w.name(name, false)?,
                ElementName::Member(names) => w.member(names)?,
                ElementName::Namespaced(space, name) => w.namespaced(space, name)?,
            }
            element.attributes.iter().try_for_each(|attribute| w.attribute(attribute))?;
            w.children(&element.children)
        })
    }

    fn fragment(&mut self, fragment: &Fragment) -> Written {
        self.field(0x31, |w| w.children(&fragment.children))
    }

    fn name(&mut self, name: &str, in_member: bool) -> Written {
        if !is_name(name, in_member) {
            return Err(WriteError::BadName(name.to_string()));
        }
        self.leaf(0x40, name.as_bytes())
    }

    fn member(&mut self, names: &[String]) -> Written {
        if !(MIN_MEMBERS..=MAX_MEMBERS).contains(&names.len()) {
            return Err(WriteError::BadMember(names.len()));
        }
        self.field(0x41, |w| names.iter().try_for_each(|name| w.name(name, true)))
    }

    fn namespaced(&mut self, space: &str, name: &str) -> Written {
        self.field(0x42, |w| {
            w.name(space, false)?;
            w.name(name, false)
        })
    }

    fn attribute(&mut self, attribute: &Attribute) -> Written {
        match attribute {
            Attribute::Spread(expression) => self.field(0x53, |w| w.expression(expression)),
            Attribute::Named(name, value) => self.field(0x50, |w| {
                match name {
                    AttributeName::Identifier(name) => w.name(name, false)?,
                    AttributeName::Namespaced(space, name) => w.namespaced(space, name)?,
                }
                match value {
                    None => Ok(()),
                    Some(Value::String(text)) => w.leaf(0x51, text.as_bytes()),
                    Some(Value::Container(expression)) => w.container(expression.as_ref()),
                    Some(Value::Element(element)) => w.element(element),
                    Some(Value::Fragment(fragment)) => w.fragment(fragment),
                }
            }),
        }
    }

    fn container(&mut self, expression: Option<&Expression>) -> Written {
        self.field(0x52, |w| expression.map_or(Ok(()), |expression| w.expression(expression)))
    }

    fn children(&mut self, children: &[Child]) -> Written {
        children.iter().try_for_each(|child| match child {
            Child::Text(text) => self.leaf(0x60, text.as_bytes()),
            Child::Container(expression) => self.container(expression.as_ref()),
            Child::Element(element) => self.element(element),
            Child::Fragment(fragment) => self.fragment(fragment),
            Child::Spread(expression) => self.field(0x61, |w| w.expression(expression)),
        })
    }

    fn expression(&mut self, expression: &Expression) -> Written {
        match expression {
            Expression::String(text) => self.leaf(0x70, text.as_bytes()),
            Expression::Number(number) => self.number(0x71, *number),
            Expression::Boolean(value) => self.leaf(0x72, &[u8::from(*value)]),
            Expression::Null => self.leaf(0x73, &[]),
            Expression::Literal(text) => self.leaf(0x74, text.as_bytes()),
            Expression::Minus(number) => self.number(0x75, *number),
            Expression::Array(items) => self.field(0x76, |w| items.iter().try_for_each(|item| w.array_item(item))),
            Expression::Other(pieces) => self.field(0x79, |w| w.pieces(pieces)),
            Expression::Decimal(decimal) => self.leaf(0x7a, &decimal.to_bytes()),
            Expression::MinusDecimal(decimal) => self.leaf(0x7b, &decimal.to_bytes()),
            Expression::Element(element) => self.element(element),
            Expression::Fragment(fragment) => self.fragment(fragment),
        }
    }

    fn number(&mut self, tag: u8, number: u64) -> Written {
        if number > MAX_NUMBER {
            return Err(WriteError::NumberTooLarge(number));
        }
        self.leaf(tag, &number.to_be_bytes())
    }

    fn array_item(&mut self, item: &ArrayItem) -> Written {
        match item {
            ArrayItem::Expression(expression) => self.expression(expression),
            ArrayItem::Spread(expression) => self.field(0x77, |w| w.expression(expression)),
            ArrayItem::Hole => self.leaf(0x78, &[]),
        }
    }
}
