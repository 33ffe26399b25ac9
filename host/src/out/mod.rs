//! Readers of what comes out: the templates, and the page with calls in place of its JSX. Nothing is copied; texts are
//! parts of the bytes that are read.
//!
//! ```
//! use jsx_precompile::{Options, out::{Expression, Item, Piece}, page, transform};
//!
//! // <></> as a statement
//! let page = page::Page::new([page::Item::statement([page::Fragment::new().into()])]);
//! let forms = transform(&page.to_bytes()?, &Options::new())?;
//! let Some(Item::Statement(mut pieces)) = forms.page().items().next() else { panic!() };
//! assert_eq!(pieces.next(), Some(Piece::Expression(Expression::Null)));
//! # Ok::<(), Box<dyn std::error::Error>>(())
//! ```

/// A view shows what its functions read, not the bytes.
macro_rules! debug {
    ($($view:ident { $($part:ident),+ })+) => {
        $(impl std::fmt::Debug for $view<'_> {
            fn fmt(&self, f: &mut std::fmt::Formatter<'_>) -> std::fmt::Result {
                f.debug_struct(stringify!($view))$(.field(stringify!($part), &self.$part()))+.finish()
            }
        })+
    };
}

mod calls;

pub use calls::{AttrCall, Call, CalledName, Choice, EscapeCall, JsxCall, Prop, TemplateCall};

use crate::check::{Fault, Input, check};
use crate::decimal::Decimal;
use crate::field::{Field, Fields};
use std::fmt;

/// Things side by side, read one by one.
///
/// ```
/// use jsx_precompile::out::{Series, Templates};
///
/// let template = Templates::read(b"\x84\0\x0f\0\0\0\x01\0\x01\x02\x81\0\x01a\x81\0\x01b")?.next().unwrap();
/// let strings: Series<&str> = template.strings();
/// assert_eq!(strings.clone().count(), 2);
/// assert_eq!(strings.collect::<String>(), "ab");
/// # Ok::<(), jsx_precompile::Fault>(())
/// ```
pub struct Series<'a, T> {
    fields: Fields<'a>,
    read: fn(Field<'a>) -> T,
}

impl<T> Iterator for Series<'_, T> {
    type Item = T;

    fn next(&mut self) -> Option<T> {
        self.fields.next().map(self.read)
    }
}

impl<T> Clone for Series<'_, T> {
    fn clone(&self) -> Self {
        Series { fields: self.fields.clone(), read: self.read }
    }
}

impl<T: fmt::Debug> fmt::Debug for Series<'_, T> {
    fn fmt(&self, f: &mut fmt::Formatter<'_>) -> fmt::Result {
        f.debug_list().entries(self.clone()).finish()
    }
}

/// Equal where what is left to be read is the same bytes.
impl<T> PartialEq for Series<'_, T> {
    fn eq(&self, other: &Self) -> bool {
        self.fields.rest() == other.fields.rest()
    }
}

impl<T> Eq for Series<'_, T> {}

/// The templates of a page, in the order in which they were recorded: an inner one before the outer one.
///
/// ```
/// use jsx_precompile::{Options, page::{Element, Item, Page}, transform};
///
/// // <div><Foo><i/></Foo></div>
/// let tag = Element::new("div").child(Element::new("Foo").child(Element::new("i")));
/// let forms = transform(&Page::new([Item::statement([tag.into()])]).to_bytes()?, &Options::new())?;
/// assert_eq!(forms.templates().map(|template| template.number()).collect::<Vec<_>>(), [2, 1]);
/// # Ok::<(), Box<dyn std::error::Error>>(())
/// ```
#[derive(Clone, Debug, PartialEq, Eq)]
pub struct Templates<'a>(Series<'a, Template<'a>>);

impl<'a> Templates<'a> {
    /// The templates that these bytes are; where they are none, the place and the reason. They are all 84s, or all 80s:
    /// these were written before dynamic expressions had kinds, and are still read.
    ///
    /// ```
    /// use jsx_precompile::out::Templates;
    ///
    /// assert_eq!(Templates::read(b"\x84\0\x0d\0\0\0\x01\0\0\x81\0\x04<br>")?.count(), 1);
    /// assert_eq!(Templates::read(b"\x84\0\x0d\0\0\0\x01\0\0").unwrap_err().at, 0);
    /// assert_eq!(Templates::read(b"\x80\0\x09\0\x01\x81\0\x04<br>")?.count(), 1);
    /// let fault = Templates::read(b"\x84\0\x0a\0\0\0\x01\0\x01\x02\x81\0\0").unwrap_err();
    /// assert_eq!(fault.reason, "84 (template) ends where a string (81) must stand"); // one more than kinds
    /// # Ok::<(), jsx_precompile::Fault>(())
    /// ```
    pub fn read(bytes: &'a [u8]) -> Result<Templates<'a>, Fault> {
        check(Input::Templates, bytes)?;
        Ok(Templates::of(bytes))
    }

    /// Of bytes that the library wrote.
    pub(crate) fn of(bytes: &'a [u8]) -> Templates<'a> {
        Templates(Series { fields: Fields::new(bytes), read: Template })
    }
}

impl<'a> Iterator for Templates<'a> {
    type Item = Template<'a>;

    fn next(&mut self) -> Option<Template<'a>> {
        self.0.next()
    }
}

/// A template: the HTML around dynamic expressions. Document 02's field 84, or document 01's field 80.
///
/// ```
/// use jsx_precompile::out::Templates;
///
/// let template = Templates::read(b"\x84\0\x0d\0\0\0\x01\0\0\x81\0\x04<br>")?.next().unwrap();
/// assert_eq!((template.number(), template.strings().next()), (1, Some("<br>")));
/// # Ok::<(), jsx_precompile::Fault>(())
/// ```
#[derive(Clone, Copy, PartialEq, Eq)]
pub struct Template<'a>(Field<'a>);

impl<'a> Template<'a> {
    /// By which a call names it.
    ///
    /// ```
    /// use jsx_precompile::out::Templates;
    ///
    /// assert_eq!(Templates::read(b"\x84\0\x09\0\0\0\x07\0\0\x81\0\0")?.next().unwrap().number(), 7);
    /// # Ok::<(), jsx_precompile::Fault>(())
    /// ```
    pub fn number(&self) -> u32 {
        self.0.number().unwrap_or_default()
    }

    /// Of each of its dynamic expressions, from front to back, whether it is an attribute's or a child; none of a
    /// template that was written before templates told it (80).
    ///
    /// ```
    /// use jsx_precompile::out::{Kind, Templates};
    /// use jsx_precompile::{Options, page::{Element, Expression, Item, Page}, transform};
    ///
    /// // <p title={t}>{n}</p>
    /// let tag = Element::new("p").attribute("title", Expression::source("t")).child(Expression::source("n"));
    /// let forms = transform(&Page::new([Item::statement([tag.into()])]).to_bytes()?, &Options::new())?;
    /// let kinds = forms.templates().next().unwrap().kinds().unwrap();
    /// assert!(kinds.eq([Kind::Attribute, Kind::Child]));
    ///
    /// let old = Templates::read(b"\x80\0\x05\0\x01\x81\0\0")?.next().unwrap();
    /// assert_eq!(old.kinds(), None);
    /// # Ok::<(), Box<dyn std::error::Error>>(())
    /// ```
    pub fn kinds(&self) -> Option<Kinds<'a>> {
        self.0.kinds().map(Kinds)
    }

    /// Its static strings, one more than a call of it has dynamic expressions.
    ///
    /// ```
    /// use jsx_precompile::out::Templates;
    ///
    /// let template = Templates::read(b"\x84\0\x0f\0\0\0\x01\0\x01\x02\x81\0\x01a\x81\0\x01b")?.next().unwrap();
    /// assert_eq!(template.strings().collect::<Vec<_>>(), ["a", "b"]);
    /// # Ok::<(), jsx_precompile::Fault>(())
    /// ```
    pub fn strings(&self) -> Series<'a, &'a str> {
        texts(self.0)
    }
}

/// Where a dynamic expression stands in its template's HTML.
///
/// ```
/// use jsx_precompile::out::Kind;
///
/// assert_eq!((Kind::Child as u8, Kind::Child.name()), (2, "child"));
/// ```
#[derive(Clone, Copy, Debug, PartialEq, Eq, PartialOrd, Ord, Hash)]
#[repr(u8)]
pub enum Kind {
    /// In an opening tag: a call of `jsxAttr`, or a choice.
    Attribute = 1,
    /// Among children: any other expression.
    Child = 2,
}

impl Kind {
    /// The kind with this byte.
    ///
    /// ```
    /// use jsx_precompile::out::Kind;
    ///
    /// assert_eq!([0, 1, 2, 3].map(Kind::from_byte), [None, Some(Kind::Attribute), Some(Kind::Child), None]);
    /// ```
    pub fn from_byte(byte: u8) -> Option<Kind> {
        match byte {
            1 => Some(Kind::Attribute),
            2 => Some(Kind::Child),
            _ => None,
        }
    }

    /// A word for it.
    ///
    /// ```
    /// assert_eq!(jsx_precompile::out::Kind::Attribute.name(), "attribute");
    /// ```
    pub fn name(self) -> &'static str {
        match self {
            Kind::Attribute => "attribute",
            Kind::Child => "child",
        }
    }
}

/// The kinds of a template's dynamic expressions, as [`Template::kinds`] gives them.
///
/// ```
/// use jsx_precompile::out::{Kind, Kinds, Templates};
///
/// let template = Templates::read(b"\x84\0\x0f\0\0\0\x01\0\x01\x02\x81\0\x01a\x81\0\x01b")?.next().unwrap();
/// let mut kinds: Kinds = template.kinds().unwrap();
/// assert_eq!((kinds.len(), kinds.next(), kinds.next()), (1, Some(Kind::Child), None));
/// # Ok::<(), jsx_precompile::Fault>(())
/// ```
#[derive(Clone, PartialEq, Eq)]
pub struct Kinds<'a>(&'a [u8]);

impl Iterator for Kinds<'_> {
    type Item = Kind;

    fn next(&mut self) -> Option<Kind> {
        let (first, rest) = self.0.split_first()?;
        self.0 = rest;
        // Whoever reads has checked that there is no other.
        Some(if *first == Kind::Attribute as u8 { Kind::Attribute } else { Kind::Child })
    }

    fn size_hint(&self) -> (usize, Option<usize>) {
        (self.0.len(), Some(self.0.len()))
    }
}

impl ExactSizeIterator for Kinds<'_> {}

impl fmt::Debug for Kinds<'_> {
    fn fmt(&self, f: &mut fmt::Formatter<'_>) -> fmt::Result {
        f.debug_list().entries(self.clone()).finish()
    }
}

fn texts<'a>(field: Field<'a>) -> Series<'a, &'a str> {
    Series { fields: field.inner(), read: |string| string.text() }
}

/// The page with calls in place of its JSX.
///
/// ```
/// use jsx_precompile::out::{Item, PageOut};
///
/// let page = PageOut::read(&[0x13, 0, 0])?;
/// assert_eq!(page.items().collect::<Vec<_>>(), [Item::Empty]);
/// # Ok::<(), jsx_precompile::Fault>(())
/// ```
#[derive(Clone, Copy, PartialEq, Eq)]
pub struct PageOut<'a>(&'a [u8]);

impl<'a> PageOut<'a> {
    /// The page out that these bytes are; where they are none, the place and the reason.
    ///
    /// ```
    /// use jsx_precompile::{Refusal, out::PageOut};
    ///
    /// let fault = PageOut::read(&[0x13, 0, 0, 0x30, 0, 0]).unwrap_err();
    /// assert_eq!((fault.at, fault.refusal), (3, Refusal::Misplaced)); // no element is left in a page out
    /// ```
    pub fn read(bytes: &'a [u8]) -> Result<PageOut<'a>, Fault> {
        check(Input::PageOut, bytes)?;
        Ok(PageOut(bytes))
    }

    /// Of bytes that the library wrote.
    pub(crate) fn of(bytes: &'a [u8]) -> PageOut<'a> {
        PageOut(bytes)
    }

    /// The items, with the import and the place of the templates among them.
    ///
    /// ```
    /// use jsx_precompile::out::{Item, PageOut};
    ///
    /// let mut items = PageOut::read(b"\x83\0\0\x12\0\x04\x20\0\x01;")?.items();
    /// assert_eq!(items.next(), Some(Item::Templates));
    /// assert!(matches!(items.next(), Some(Item::Statement(_))));
    /// # Ok::<(), jsx_precompile::Fault>(())
    /// ```
    pub fn items(&self) -> Series<'a, Item<'a>> {
        Series { fields: Fields::new(self.0), read: item }
    }

    /// The import of the helpers; none where none is called.
    ///
    /// ```
    /// use jsx_precompile::out::PageOut;
    ///
    /// let import = PageOut::read(b"\x82\0\x05\x81\0\x01s\x0a")?.import().unwrap();
    /// assert_eq!((import.source, import.sum), ("s", 10));
    /// assert_eq!(PageOut::read(&[])?.import(), None);
    /// # Ok::<(), jsx_precompile::Fault>(())
    /// ```
    pub fn import(&self) -> Option<Import<'a>> {
        match self.items().next() {
            Some(Item::Import(import)) => Some(import),
            _ => None,
        }
    }

    /// The calls at any depth, an outer one before those in it.
    ///
    /// ```
    /// use jsx_precompile::{Options, out::Call, page::{Element, Expression, Item, Page}, transform};
    ///
    /// // <p>{n}</p>
    /// let tag = Element::new("p").child(Expression::source("n"));
    /// let forms = transform(&Page::new([Item::statement([tag.into()])]).to_bytes()?, &Options::new())?;
    /// let calls: Vec<_> = forms.page().calls().collect();
    /// assert!(matches!(calls[..], [Call::Template(_), Call::Escape(_)]));
    /// # Ok::<(), Box<dyn std::error::Error>>(())
    /// ```
    pub fn calls(&self) -> Calls<'a> {
        Calls { rows: vec![Fields::new(self.0)] }
    }

    /// What stands in the module as it came in: source text, literals and the names of components.
    pub(crate) fn sources(&self) -> impl Iterator<Item = &'a str> + use<'a> {
        let mut rows = vec![Fields::new(self.0)];
        std::iter::from_fn(move || {
            loop {
                let Some(field) = rows.last_mut()?.next() else {
                    rows.pop();
                    continue;
                };
                rows.push(field.inner());
                if matches!(field.tag, 0x20 | 0x40 | 0x74) {
                    return Some(field.text());
                }
            }
        })
    }
}

/// The calls of a page out, as [`PageOut::calls`] gives them.
///
/// ```
/// use jsx_precompile::out::{Calls, PageOut};
///
/// let mut calls: Calls = PageOut::read(&[0x13, 0, 0])?.calls();
/// assert_eq!(calls.next(), None);
/// # Ok::<(), jsx_precompile::Fault>(())
/// ```
#[derive(Clone, Debug)]
pub struct Calls<'a> {
    // Not by recursion: a page out may be deep.
    rows: Vec<Fields<'a>>,
}

impl<'a> Iterator for Calls<'a> {
    type Item = Call<'a>;

    fn next(&mut self) -> Option<Call<'a>> {
        loop {
            let Some(field) = self.rows.last_mut()?.next() else {
                self.rows.pop();
                continue;
            };
            self.rows.push(field.inner());
            if let Expression::Call(call) = expression(field) {
                return Some(call);
            }
        }
    }
}

/// An item of a page out.
///
/// ```
/// use jsx_precompile::out::{Item, PageOut};
///
/// // An import and an export lie around the place of the templates.
/// let page = PageOut::read(b"\x11\0\x0e\x20\0\x0bimport 'a';\x83\0\0\x10\0\0")?;
/// assert!(matches!(page.items().collect::<Vec<_>>()[..], [Item::Declaration(_), Item::Templates, Item::Export(_)]));
/// # Ok::<(), jsx_precompile::Fault>(())
/// ```
#[derive(Clone, Debug, PartialEq, Eq)]
pub enum Item<'a> {
    /// 82: the helpers are imported here.
    Import(Import<'a>),
    /// 83: the templates go here.
    Templates,
    /// 10: an export.
    Export(Series<'a, Piece<'a>>),
    /// 11: another module declaration.
    Declaration(Series<'a, Piece<'a>>),
    /// 12: a statement.
    Statement(Series<'a, Piece<'a>>),
    /// 13: an empty statement.
    Empty,
}

impl<'a> Item<'a> {
    /// The calls in this item, as [`PageOut::calls`] gives those of all.
    ///
    /// ```
    /// use jsx_precompile::out::PageOut;
    ///
    /// let page = PageOut::read(b"\x13\0\0\x12\0\x07\x90\0\x04\0\0\0\x01")?;
    /// assert!(page.items().map(|item| item.calls().count()).eq([0, 1]));
    /// # Ok::<(), jsx_precompile::Fault>(())
    /// ```
    pub fn calls(&self) -> Calls<'a> {
        match self {
            Item::Export(pieces) | Item::Declaration(pieces) | Item::Statement(pieces) => {
                Calls { rows: vec![pieces.fields.clone()] }
            }
            Item::Import(_) | Item::Templates | Item::Empty => Calls { rows: vec![] },
        }
    }
}

fn item(field: Field) -> Item {
    match field.tag {
        0x10 => Item::Export(pieces(field)),
        0x11 => Item::Declaration(pieces(field)),
        0x12 => Item::Statement(pieces(field)),
        0x82 => {
            let source = texts(field).next().unwrap_or_default();
            Item::Import(Import { source, sum: field.body.last().copied().unwrap_or_default() })
        }
        0x83 => Item::Templates,
        _ => Item::Empty,
    }
}

/// The import of the helpers.
///
/// ```
/// use jsx_precompile::out::{Helper, Import};
///
/// let import = Import { source: "react/jsx-runtime", sum: 1 + 2 };
/// assert_eq!(import.helpers().collect::<Vec<_>>(), [Helper::Jsx, Helper::JsxTemplate]);
/// ```
#[derive(Clone, Copy, Debug, PartialEq, Eq)]
pub struct Import<'a> {
    /// Where from, `/jsx-runtime` behind it.
    pub source: &'a str,
    /// The helpers' numbers added up.
    pub sum: u8,
}

impl Import<'_> {
    /// The helpers that are imported, in the order in which they are named.
    ///
    /// ```
    /// use jsx_precompile::out::Import;
    ///
    /// let names: Vec<_> = Import { source: "", sum: 12 }.helpers().map(|helper| helper.name()).collect();
    /// assert_eq!(names, ["jsxAttr", "jsxEscape"]);
    /// ```
    pub fn helpers(&self) -> impl Iterator<Item = Helper> + use<> {
        let sum = self.sum;
        Helper::ALL.into_iter().filter(move |helper| sum & *helper as u8 != 0)
    }
}

/// A function of the runtime that the calls need; its number is its part of the sum.
///
/// ```
/// use jsx_precompile::out::Helper;
///
/// assert_eq!((Helper::JsxEscape as u8, Helper::JsxEscape.name()), (8, "jsxEscape"));
/// ```
#[derive(Clone, Copy, Debug, PartialEq, Eq, PartialOrd, Ord, Hash)]
#[repr(u8)]
pub enum Helper {
    /// `jsx`.
    Jsx = 1,
    /// `jsxTemplate`.
    JsxTemplate = 2,
    /// `jsxAttr`.
    JsxAttr = 4,
    /// `jsxEscape`.
    JsxEscape = 8,
}

impl Helper {
    /// In the order of their numbers.
    ///
    /// ```
    /// assert!(jsx_precompile::out::Helper::ALL.map(|helper| helper as u8) == [1, 2, 4, 8]);
    /// ```
    pub const ALL: [Helper; 4] = [Helper::Jsx, Helper::JsxTemplate, Helper::JsxAttr, Helper::JsxEscape];

    /// Its name in the runtime.
    ///
    /// ```
    /// assert_eq!(jsx_precompile::out::Helper::JsxAttr.name(), "jsxAttr");
    /// ```
    pub fn name(self) -> &'static str {
        match self {
            Helper::Jsx => "jsx",
            Helper::JsxTemplate => "jsxTemplate",
            Helper::JsxAttr => "jsxAttr",
            Helper::JsxEscape => "jsxEscape",
        }
    }
}

/// A part of an item or of an expression.
///
/// ```
/// use jsx_precompile::out::{Item, PageOut, Piece};
///
/// let Some(Item::Statement(mut pieces)) = PageOut::read(b"\x12\0\x04\x20\0\x01;")?.items().next() else { panic!() };
/// assert_eq!(pieces.next(), Some(Piece::Source(";")));
/// # Ok::<(), jsx_precompile::Fault>(())
/// ```
#[derive(Clone, Debug, PartialEq, Eq)]
pub enum Piece<'a> {
    /// 20: source text as it came in.
    Source(&'a str),
    /// What stands for an element or a fragment.
    Expression(Expression<'a>),
}

fn pieces<'a>(field: Field<'a>) -> Series<'a, Piece<'a>> {
    let read = |field: Field<'a>| match field.tag {
        0x20 => Piece::Source(field.text()),
        _ => Piece::Expression(expression(field)),
    };
    Series { fields: field.inner(), read }
}

/// An expression of a page out.
///
/// ```
/// use jsx_precompile::out::{Expression, Item, PageOut, Piece};
///
/// let page = PageOut::read(b"\x12\0\x0d\x73\0\0\x72\0\x01\x01\x70\0\x03abc")?;
/// let Some(Item::Statement(pieces)) = page.items().next() else { panic!() };
/// let expected = [Expression::Null, Expression::Boolean(true), Expression::String("abc")];
/// assert!(pieces.eq(expected.map(Piece::Expression)));
/// # Ok::<(), jsx_precompile::Fault>(())
/// ```
#[derive(Clone, Debug, PartialEq, Eq)]
pub enum Expression<'a> {
    /// 70.
    String(&'a str),
    /// 71.
    Number(u64),
    /// 72.
    Boolean(bool),
    /// 73.
    Null,
    /// 74: the source of any other literal.
    Literal(&'a str),
    /// 75: a minus before a number.
    Minus(u64),
    /// 76.
    Array(Series<'a, ArrayItem<'a>>),
    /// 79: any other expression.
    Other(Series<'a, Piece<'a>>),
    /// 7a: digits and places as they came in.
    Decimal(Decimal),
    /// 7b: a minus before a decimal.
    MinusDecimal(Decimal),
    /// 90 to 94.
    Call(Call<'a>),
}

fn expression(field: Field) -> Expression {
    match field.tag {
        0x70 => Expression::String(field.text()),
        0x71 => Expression::Number(field.whole_number()),
        0x72 => Expression::Boolean(field.body == [1]),
        0x74 => Expression::Literal(field.text()),
        0x75 => Expression::Minus(field.whole_number()),
        0x76 => Expression::Array(Series { fields: field.inner(), read: array_item }),
        0x79 => Expression::Other(pieces(field)),
        0x7a => Expression::Decimal(field.decimal()),
        0x7b => Expression::MinusDecimal(field.decimal()),
        0x90 => Expression::Call(Call::Template(TemplateCall(field))),
        0x91 => Expression::Call(Call::Attr(AttrCall(field))),
        0x92 => Expression::Call(Call::Escape(EscapeCall(field))),
        0x93 => Expression::Call(Call::Choice(Choice(field))),
        0x94 => Expression::Call(Call::Jsx(JsxCall(field))),
        _ => Expression::Null,
    }
}

/// The expression at that place in a field.
fn expression_at(field: Field, place: usize) -> Expression {
    field.inner().nth(place).map_or(Expression::Null, expression)
}

fn text_at(field: Field<'_>, place: usize) -> &str {
    field.inner().nth(place).map_or("", |string| string.text())
}

/// An item of an array.
///
/// ```
/// use jsx_precompile::out::{ArrayItem, Expression, Item, PageOut, Piece};
///
/// let page = PageOut::read(b"\x12\0\x09\x76\0\x06\x78\0\0\x73\0\0")?; // [, null]
/// let Some(Item::Statement(mut pieces)) = page.items().next() else { panic!() };
/// let Some(Piece::Expression(Expression::Array(items))) = pieces.next() else { panic!() };
/// assert!(items.eq([ArrayItem::Hole, ArrayItem::Expression(Expression::Null)]));
/// # Ok::<(), jsx_precompile::Fault>(())
/// ```
#[derive(Clone, Debug, PartialEq, Eq)]
pub enum ArrayItem<'a> {
    /// An expression.
    Expression(Expression<'a>),
    /// 77: `...expression`.
    Spread(Expression<'a>),
    /// 78: nothing between two commas.
    Hole,
}

fn array_item(field: Field) -> ArrayItem {
    match field.tag {
        0x77 => ArrayItem::Spread(expression_at(field, 0)),
        0x78 => ArrayItem::Hole,
        _ => ArrayItem::Expression(expression(field)),
    }
}

debug! {
    Template { number, kinds, strings }
    PageOut { items }
}
