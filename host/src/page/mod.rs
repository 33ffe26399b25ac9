//! A page as a tree of Rust types, its bytes written and read.
//!
//! The host's parser gives each thing the kind that swc gives its source: an export of a declaration is
//! [`Item::Export`], every other import or export an [`Item::Declaration`], all else an [`Item::Statement`]. In these
//! stand [`Piece`]s in the visitor's order: source text as it is, and the elements and fragments within it.
//!
//! ```
//! use jsx_precompile::page::{Element, Expression, Item, Page};
//!
//! // const a = <p class="t">Hi {n}</p>;
//! let tag = Element::new("p").attribute("class", "t").text("Hi ").child(Expression::source("n"));
//! let page = Page::new([Item::statement(["const a = ".into(), tag.into(), ";".into()])]);
//! let bytes = page.to_bytes()?;
//! assert_eq!(Page::from_bytes(&bytes).as_ref(), Ok(&page));
//! # Ok::<(), jsx_precompile::WriteError>(())
//! ```
//!
//! A tree may be deeper than a page: [`Page::to_bytes`] then gives an error, and what is no longer needed is given back
//! without recursion. For that [`Element`], [`Fragment`] and [`ArrayItem`] have a `Drop`; their parts are borrowed, or
//! taken out with [`std::mem::take`].

mod drop;
mod jsx;
pub(crate) mod read;
pub(crate) mod write;

use crate::check::Fault;
use crate::decimal::{Decimal, DecimalError};
use write::WriteError;

/// A module: its items in order. Document 01's field 01.
///
/// ```
/// use jsx_precompile::page::{Item, Page};
///
/// let page = Page { items: vec![Item::Empty] };
/// assert_eq!(page, Page::new([Item::Empty]));
/// assert_eq!(page.to_bytes(), Ok(vec![0x01, 0, 3, 0x13, 0, 0]));
/// ```
#[derive(Clone, Debug, Default, PartialEq, Eq)]
pub struct Page {
    /// In the order of the source.
    pub items: Vec<Item>,
}

impl Page {
    /// A page of these items.
    ///
    /// ```
    /// use jsx_precompile::page::{Item, Page};
    ///
    /// assert_eq!(Page::new([Item::Empty, Item::Empty]).items.len(), 2);
    /// ```
    pub fn new(items: impl IntoIterator<Item = Item>) -> Page {
        Page { items: items.into_iter().collect() }
    }

    /// The page's bytes, as [`transform`](crate::transform) takes them; an error where there are none.
    ///
    /// ```
    /// use jsx_precompile::{WriteError, page::{Element, Item, Page}};
    ///
    /// let page = |name: &str| Page::new([Item::statement([Element::new(name).into()])]);
    /// assert_eq!(page("br").to_bytes(), Ok(vec![1, 0, 11, 0x12, 0, 8, 0x30, 0, 5, 0x40, 0, 2, b'b', b'r']));
    /// assert_eq!(page("2").to_bytes(), Err(WriteError::BadName("2".into())));
    /// ```
    pub fn to_bytes(&self) -> Result<Vec<u8>, WriteError> {
        write::page(self)
    }

    /// The page that these bytes are; where they are none, the place and the reason. The refusal is the one that
    /// [`transform`](crate::transform) gives for its own first part, 2 to 8.
    ///
    /// ```
    /// use jsx_precompile::{Refusal, page::{Item, Page}};
    ///
    /// assert_eq!(Page::from_bytes(&[1, 0, 3, 0x13, 0, 0]), Ok(Page::new([Item::Empty])));
    /// let fault = Page::from_bytes(&[1, 0, 3, 0x13, 0, 1]).unwrap_err();
    /// assert_eq!((fault.at, fault.refusal), (3, Refusal::Truncated));
    /// ```
    pub fn from_bytes(bytes: &[u8]) -> Result<Page, Fault> {
        read::page(bytes)
    }

    /// The page as JSX, each item on lines of its own. It is for reading: comments, and how a text, a string or a number
    /// was written, are not in a page.
    ///
    /// ```
    /// use jsx_precompile::page::{Element, Item, Page};
    ///
    /// let page = Page::new([Item::statement(["a = ".into(), Element::new("p").text("1 < 2").into(), ";".into()])]);
    /// assert_eq!(page.to_jsx(), "a = <p>1 &lt; 2</p>;\n");
    /// ```
    pub fn to_jsx(&self) -> String {
        self.items.iter().map(|item| item.to_jsx() + "\n").collect()
    }
}

/// An item of a module.
///
/// ```
/// use jsx_precompile::page::{Element, Item};
///
/// let item = Item::statement(["return ".into(), Element::new("br").into()]);
/// assert!(matches!(item, Item::Statement(pieces) if pieces.len() == 2));
/// ```
#[derive(Clone, Debug, PartialEq, Eq)]
pub enum Item {
    /// 10: `export` before a declaration, or `export default` before a function or class.
    Export(Vec<Piece>),
    /// 11: any other `import` or `export`.
    Declaration(Vec<Piece>),
    /// 12: a statement.
    Statement(Vec<Piece>),
    /// 13: a statement that is `;` alone.
    Empty,
}

impl Item {
    /// An [`Item::Export`] of these pieces.
    ///
    /// ```
    /// use jsx_precompile::page::Item;
    ///
    /// assert_eq!(Item::export(["export const a = 1;".into()]), Item::Export(vec!["export const a = 1;".into()]));
    /// ```
    pub fn export(pieces: impl IntoIterator<Item = Piece>) -> Item {
        Item::Export(pieces.into_iter().collect())
    }

    /// An [`Item::Declaration`] of these pieces.
    ///
    /// ```
    /// use jsx_precompile::page::Item;
    ///
    /// assert_eq!(Item::declaration(["import 'a';".into()]), Item::Declaration(vec!["import 'a';".into()]));
    /// ```
    pub fn declaration(pieces: impl IntoIterator<Item = Piece>) -> Item {
        Item::Declaration(pieces.into_iter().collect())
    }

    /// An [`Item::Statement`] of these pieces.
    ///
    /// ```
    /// use jsx_precompile::page::Item;
    ///
    /// assert_eq!(Item::statement(["go();".into()]), Item::Statement(vec!["go();".into()]));
    /// ```
    pub fn statement(pieces: impl IntoIterator<Item = Piece>) -> Item {
        Item::Statement(pieces.into_iter().collect())
    }

    /// The item as JSX, as [`Page::to_jsx`] has it.
    ///
    /// ```
    /// assert_eq!(jsx_precompile::page::Item::Empty.to_jsx(), ";");
    /// ```
    pub fn to_jsx(&self) -> String {
        jsx::item(self)
    }
}

/// A part of an item or of an expression: source text, or JSX within it.
///
/// ```
/// use jsx_precompile::page::{Element, Fragment, Piece};
///
/// assert_eq!(Piece::from("a = "), Piece::Source("a = ".into()));
/// assert_eq!(Piece::from(Element::new("br")), Piece::Element(Element::new("br")));
/// assert_eq!(Piece::from(Fragment::new()), Piece::Fragment(Fragment::new()));
/// ```
#[derive(Clone, Debug, PartialEq, Eq)]
pub enum Piece {
    /// 20: source text without JSX.
    Source(String),
    /// 30.
    Element(Element),
    /// 31.
    Fragment(Fragment),
}

/// An element.
///
/// ```
/// use jsx_precompile::page::{Attribute, Child, Element, Value};
///
/// // <a href="/">home</a>
/// let element = Element::new("a").attribute("href", "/").text("home");
/// assert_eq!(element, Element {
///     name: "a".into(),
///     attributes: vec![Attribute::Named("href".into(), Some(Value::String("/".into())))],
///     children: vec![Child::Text("home".into())],
/// });
/// ```
#[derive(Clone, Debug, PartialEq, Eq)]
pub struct Element {
    /// What stands behind `<`.
    pub name: ElementName,
    /// In the order of the source. One name twice is not tested by the library.
    pub attributes: Vec<Attribute>,
    /// In the order of the source.
    pub children: Vec<Child>,
}

impl Element {
    /// An element without attributes and children; the name as it is written: `a`, `a.b`, `a:b`.
    ///
    /// ```
    /// use jsx_precompile::page::{Element, ElementName};
    ///
    /// assert_eq!(Element::new("Icon.Small").name, ElementName::Member(vec!["Icon".into(), "Small".into()]));
    /// ```
    pub fn new(name: impl Into<ElementName>) -> Element {
        Element { name: name.into(), attributes: vec![], children: vec![] }
    }

    /// With one more attribute that has a value: a string, an expression in braces, an element or a fragment.
    ///
    /// ```
    /// use jsx_precompile::page::{Element, Expression};
    ///
    /// // <a href="/" title={t}/>
    /// let element = Element::new("a").attribute("href", "/").attribute("title", Expression::source("t"));
    /// assert_eq!(element.attributes.len(), 2);
    /// ```
    pub fn attribute(self, name: impl Into<AttributeName>, value: impl Into<Value>) -> Element {
        self.with(Attribute::Named(name.into(), Some(value.into())))
    }

    /// With one more attribute that has no value.
    ///
    /// ```
    /// use jsx_precompile::page::{Attribute, Element};
    ///
    /// // <input disabled/>
    /// let element = Element::new("input").valueless("disabled");
    /// assert_eq!(element.attributes, [Attribute::Named("disabled".into(), None)]);
    /// ```
    pub fn valueless(self, name: impl Into<AttributeName>) -> Element {
        self.with(Attribute::Named(name.into(), None))
    }

    /// With one more `{...expression}` among the attributes.
    ///
    /// ```
    /// use jsx_precompile::page::{Attribute, Element, Expression};
    ///
    /// let element = Element::new("a").spread(Expression::source("props"));
    /// assert_eq!(element.attributes, [Attribute::Spread(Expression::source("props"))]);
    /// ```
    pub fn spread(self, expression: impl Into<Expression>) -> Element {
        self.with(Attribute::Spread(expression.into()))
    }

    /// With one more text.
    ///
    /// ```
    /// use jsx_precompile::page::{Child, Element};
    ///
    /// assert_eq!(Element::new("p").text("Hi").children, [Child::Text("Hi".into())]);
    /// ```
    pub fn text(self, text: impl Into<String>) -> Element {
        self.child(Child::Text(text.into()))
    }

    /// With one more child: an element, a fragment, an expression in braces, or any [`Child`].
    ///
    /// ```
    /// use jsx_precompile::page::{Child, Element, Expression};
    ///
    /// // <p><b/>{n}</p>
    /// let element = Element::new("p").child(Element::new("b")).child(Expression::source("n"));
    /// assert_eq!(element.children[1], Child::Container(Some(Expression::source("n"))));
    /// ```
    pub fn child(mut self, child: impl Into<Child>) -> Element {
        self.children.push(child.into());
        self
    }

    fn with(mut self, attribute: Attribute) -> Element {
        self.attributes.push(attribute);
        self
    }
}

/// A fragment, `<>` to `</>`.
///
/// ```
/// use jsx_precompile::page::{Child, Fragment};
///
/// assert_eq!(Fragment::new().text("a"), Fragment { children: vec![Child::Text("a".into())] });
/// ```
#[derive(Clone, Debug, Default, PartialEq, Eq)]
pub struct Fragment {
    /// In the order of the source.
    pub children: Vec<Child>,
}

impl Fragment {
    /// A fragment without children.
    ///
    /// ```
    /// assert!(jsx_precompile::page::Fragment::new().children.is_empty());
    /// ```
    pub fn new() -> Fragment {
        Fragment::default()
    }

    /// With one more text.
    ///
    /// ```
    /// use jsx_precompile::page::{Child, Fragment};
    ///
    /// assert_eq!(Fragment::new().text("Hi").children, [Child::Text("Hi".into())]);
    /// ```
    pub fn text(self, text: impl Into<String>) -> Fragment {
        self.child(Child::Text(text.into()))
    }

    /// With one more child, as [`Element::child`].
    ///
    /// ```
    /// use jsx_precompile::page::{Element, Fragment};
    ///
    /// assert_eq!(Fragment::new().child(Element::new("b")).children.len(), 1);
    /// ```
    pub fn child(mut self, child: impl Into<Child>) -> Fragment {
        self.children.push(child.into());
        self
    }
}

/// The name of an element. From a string: as it is written.
///
/// ```
/// use jsx_precompile::page::ElementName;
///
/// assert_eq!(ElementName::from("div"), ElementName::Identifier("div".into()));
/// assert_eq!(ElementName::from("a.b"), ElementName::Member(vec!["a".into(), "b".into()]));
/// assert_eq!(ElementName::from("a:b"), ElementName::Namespaced("a".into(), "b".into()));
/// assert_eq!(ElementName::from(format!("h{}", 1)), ElementName::from("h1"));
/// ```
#[derive(Clone, Debug, PartialEq, Eq)]
pub enum ElementName {
    /// 40.
    Identifier(String),
    /// 41: two to eight names without hyphens.
    Member(Vec<String>),
    /// 42.
    Namespaced(String, String),
}

/// The name of an attribute. From a string: as it is written.
///
/// ```
/// use jsx_precompile::page::AttributeName;
///
/// assert_eq!(AttributeName::from("class"), AttributeName::Identifier("class".into()));
/// assert_eq!(AttributeName::from("xlink:href"), AttributeName::Namespaced("xlink".into(), "href".into()));
/// assert_eq!(AttributeName::from(format!("data-{}", "row")), AttributeName::from("data-row"));
/// ```
#[derive(Clone, Debug, PartialEq, Eq)]
pub enum AttributeName {
    /// 40.
    Identifier(String),
    /// 42.
    Namespaced(String, String),
}

/// What stands in an opening tag behind the name.
///
/// ```
/// use jsx_precompile::page::{Attribute, Element, Expression};
///
/// // <input disabled {...props}/>
/// let element = Element::new("input").valueless("disabled").spread(Expression::source("props"));
/// assert!(matches!(element.attributes[..], [Attribute::Named(_, None), Attribute::Spread(_)]));
/// ```
#[derive(Clone, Debug, PartialEq, Eq)]
pub enum Attribute {
    /// 50: a name, and its value where it has one.
    Named(AttributeName, Option<Value>),
    /// 53: `{...expression}`.
    Spread(Expression),
}

/// The value of an attribute.
///
/// ```
/// use jsx_precompile::page::{Element, Expression, Fragment, Value};
///
/// assert_eq!(Value::from("t"), Value::String("t".into()));
/// assert_eq!(Value::from(Expression::Null), Value::Container(Some(Expression::Null)));
/// assert_eq!(Value::from(Element::new("i")), Value::Element(Element::new("i")));
/// assert_eq!(Value::from(Fragment::new()), Value::Fragment(Fragment::new()));
/// ```
#[derive(Clone, Debug, PartialEq, Eq)]
pub enum Value {
    /// 51: a string as written in quotes, its character references resolved.
    String(String),
    /// 52: braces, with an expression or empty.
    Container(Option<Expression>),
    /// 30.
    Element(Element),
    /// 31.
    Fragment(Fragment),
}

/// What stands between an opening and a closing tag.
///
/// ```
/// use jsx_precompile::page::{Child, Element, Expression, Fragment};
///
/// assert_eq!(Child::from(Expression::Null), Child::Container(Some(Expression::Null)));
/// assert_eq!(Child::from(Element::new("i")), Child::Element(Element::new("i")));
/// assert_eq!(Child::from(Fragment::new()), Child::Fragment(Fragment::new()));
/// ```
#[derive(Clone, Debug, PartialEq, Eq)]
pub enum Child {
    /// 60: text, its character references resolved.
    Text(String),
    /// 52: braces, with an expression or empty.
    Container(Option<Expression>),
    /// 30.
    Element(Element),
    /// 31.
    Fragment(Fragment),
    /// 61: `{...expression}`.
    Spread(Expression),
}

/// An expression.
///
/// ```
/// use jsx_precompile::page::{Element, Expression, Fragment};
///
/// assert_eq!(Expression::from(Element::new("i")), Expression::Element(Element::new("i")));
/// assert_eq!(Expression::from(Fragment::new()), Expression::Fragment(Fragment::new()));
/// let price: jsx_precompile::Decimal = "12.5".parse()?;
/// assert_eq!(Expression::from(price), Expression::Decimal(price));
/// # Ok::<(), jsx_precompile::DecimalError>(())
/// ```
#[derive(Clone, Debug, PartialEq, Eq)]
pub enum Expression {
    /// 70: the value of a string literal.
    String(String),
    /// 71: a whole number up to [`MAX_NUMBER`](crate::limits::MAX_NUMBER). One with a fraction is an
    /// [`Expression::Decimal`]; what neither holds goes into [`Expression::Other`].
    Number(u64),
    /// 72.
    Boolean(bool),
    /// 73.
    Null,
    /// 74: the source of any other literal, never a number.
    Literal(String),
    /// 75: a minus before a whole number.
    Minus(u64),
    /// 76.
    Array(Vec<ArrayItem>),
    /// 79: any other expression.
    Other(Vec<Piece>),
    /// 7a: a number with places behind its point, such as a price.
    Decimal(Decimal),
    /// 7b: a minus before a decimal.
    MinusDecimal(Decimal),
    /// 30.
    Element(Element),
    /// 31.
    Fragment(Fragment),
}

impl Expression {
    /// An [`Expression::Other`] that is source text alone.
    ///
    /// ```
    /// use jsx_precompile::page::Expression;
    ///
    /// assert_eq!(Expression::source("a + b"), Expression::Other(vec!["a + b".into()]));
    /// ```
    pub fn source(text: impl Into<String>) -> Expression {
        Expression::Other(vec![Piece::Source(text.into())])
    }

    /// An [`Expression::Decimal`] of these digits, with the point so many places before their end; an error where
    /// [`Decimal::new`] gives one.
    ///
    /// ```
    /// use jsx_precompile::page::{Element, Expression, Item, Page};
    /// use jsx_precompile::{DecimalError, limits::MAX_DIGITS};
    ///
    /// // <b>{12.5}</b>
    /// let price = Element::new("b").child(Expression::decimal(1250, 2)?);
    /// assert_eq!(Page::new([Item::statement([price.into()])]).to_jsx(), "<b>{12.5}</b>\n");
    /// assert!(matches!(Expression::decimal(MAX_DIGITS + 1, 2), Err(DecimalError::TooManyDigits(_))));
    /// # Ok::<(), DecimalError>(())
    /// ```
    pub fn decimal(digits: u64, places: u8) -> Result<Expression, DecimalError> {
        Decimal::new(digits, places).map(Expression::Decimal)
    }

    /// An [`Expression::Decimal`], or with a minus in front an [`Expression::MinusDecimal`], from its text, its places as
    /// they are written; an error that says why where the text is no decimal, or cannot be held.
    ///
    /// ```
    /// use jsx_precompile::page::Expression;
    ///
    /// assert_eq!(Expression::parse_decimal("12.5"), Expression::decimal(125, 1));
    /// assert_eq!(Expression::parse_decimal("-0.05"), Ok(Expression::MinusDecimal("0.05".parse()?)));
    /// let error = Expression::parse_decimal("-1e-3").unwrap_err();
    /// assert_eq!(error.to_string(), "\"-1e-3\" is no decimal: only digits and one point may stand in it");
    /// # Ok::<(), jsx_precompile::DecimalError>(())
    /// ```
    pub fn parse_decimal(text: &str) -> Result<Expression, DecimalError> {
        let read = match text.strip_prefix('-') {
            Some(behind) => behind.parse().map(Expression::MinusDecimal),
            None => text.parse().map(Expression::Decimal),
        };
        read.map_err(|error| match error {
            DecimalError::NoDecimal(_, reason) => DecimalError::NoDecimal(text.to_string(), reason),
            error => error,
        })
    }
}

/// An item of an array.
///
/// ```
/// use jsx_precompile::page::{ArrayItem, Expression};
///
/// // [1, , ...a]
/// let items = vec![Expression::Number(1).into(), ArrayItem::Hole, ArrayItem::Spread(Expression::source("a"))];
/// assert!(matches!(Expression::Array(items), Expression::Array(items) if items.len() == 3));
/// ```
#[derive(Clone, Debug, PartialEq, Eq)]
pub enum ArrayItem {
    /// An expression.
    Expression(Expression),
    /// 77: `...expression`.
    Spread(Expression),
    /// 78: nothing between two commas.
    Hole,
}

macro_rules! from {
    ($($to:ident { $($from:ty => $made:expr),+ $(,)? })+) => {
        $($(impl From<$from> for $to {
            fn from(value: $from) -> $to {
                $made(value)
            }
        })+)+
    };
}

from! {
    Piece {
        &str => |text: &str| Piece::Source(text.to_string()),
        String => Piece::Source,
        Element => Piece::Element,
        Fragment => Piece::Fragment,
    }
    Value {
        &str => |text: &str| Value::String(text.to_string()),
        String => Value::String,
        Expression => |expression| Value::Container(Some(expression)),
        Element => Value::Element,
        Fragment => Value::Fragment,
    }
    Child {
        Expression => |expression| Child::Container(Some(expression)),
        Element => Child::Element,
        Fragment => Child::Fragment,
    }
    Expression {
        Element => Expression::Element,
        Fragment => Expression::Fragment,
        Decimal => Expression::Decimal,
    }
    ArrayItem {
        Expression => ArrayItem::Expression,
    }
    ElementName {
        &str => |name: &str| {
            if name.contains('.') {
                return ElementName::Member(name.split('.').map(String::from).collect());
            }
            match name.split_once(':') {
                Some((space, name)) => ElementName::Namespaced(space.to_string(), name.to_string()),
                None => ElementName::Identifier(name.to_string()),
            }
        },
        String => |name: String| ElementName::from(&*name),
    }
    AttributeName {
        &str => |name: &str| match name.split_once(':') {
            Some((space, name)) => AttributeName::Namespaced(space.to_string(), name.to_string()),
            None => AttributeName::Identifier(name.to_string()),
        },
        String => |name: String| AttributeName::from(&*name),
    }
}
