//! What was put in place of JSX: calls of the helpers, and choices.

use super::{Calls, Expression, Helper, Series, expression, expression_at, text_at, texts};
use crate::field::Field;

/// What was put in place of JSX.
///
/// ```
/// use jsx_precompile::{Options, out::{Call, Helper}, page::{Element, Item, Page}, transform};
///
/// // <Foo/>
/// let page = Page::new([Item::statement([Element::new("Foo").into()])]).to_bytes()?;
/// let forms = transform(&page, &Options::new())?;
/// let call = forms.page().calls().next().unwrap();
/// assert_eq!(call.helper(), Some(Helper::Jsx));
/// # Ok::<(), Box<dyn std::error::Error>>(())
/// ```
#[derive(Clone, Copy, Debug, PartialEq, Eq)]
pub enum Call<'a> {
    /// 90.
    Template(TemplateCall<'a>),
    /// 91.
    Attr(AttrCall<'a>),
    /// 92.
    Escape(EscapeCall<'a>),
    /// 93: no helper is called.
    Choice(Choice<'a>),
    /// 94.
    Jsx(JsxCall<'a>),
}

impl Call<'_> {
    /// The helper that is called; none for a choice.
    ///
    /// ```
    /// use jsx_precompile::out::{Helper, PageOut};
    ///
    /// let call = PageOut::read(b"\x12\0\x07\x90\0\x04\0\0\0\x01")?.calls().next().unwrap();
    /// assert_eq!(call.helper(), Some(Helper::JsxTemplate));
    /// # Ok::<(), jsx_precompile::Fault>(())
    /// ```
    pub fn helper(&self) -> Option<Helper> {
        match self {
            Call::Template(_) => Some(Helper::JsxTemplate),
            Call::Attr(_) => Some(Helper::JsxAttr),
            Call::Escape(_) => Some(Helper::JsxEscape),
            Call::Choice(_) => None,
            Call::Jsx(_) => Some(Helper::Jsx),
        }
    }
}

/// `jsxTemplate(template, expression, ...)`.
///
/// ```
/// use jsx_precompile::out::{Call, Expression, PageOut};
///
/// let page = PageOut::read(b"\x12\0\x0a\x90\0\x07\0\0\0\x07\x73\0\0")?;
/// let Some(Call::Template(call)) = page.calls().next() else { panic!() };
/// assert_eq!(call.number(), 7);
/// assert!(call.expressions().eq([Expression::Null]));
/// # Ok::<(), jsx_precompile::Fault>(())
/// ```
#[derive(Clone, Copy, PartialEq, Eq)]
pub struct TemplateCall<'a>(pub(super) Field<'a>);

impl<'a> TemplateCall<'a> {
    /// That of the template.
    ///
    /// ```
    /// use jsx_precompile::out::{Call, PageOut};
    ///
    /// let page = PageOut::read(b"\x12\0\x07\x90\0\x04\0\0\0\x07")?;
    /// assert!(matches!(page.calls().next(), Some(Call::Template(call)) if call.number() == 7));
    /// # Ok::<(), jsx_precompile::Fault>(())
    /// ```
    pub fn number(&self) -> u32 {
        self.0.number().unwrap_or_default()
    }

    /// The dynamic expressions, which document 01 calls gaps: they go between the template's static strings.
    ///
    /// ```
    /// use jsx_precompile::out::{Call, PageOut};
    ///
    /// let page = PageOut::read(b"\x12\0\x07\x90\0\x04\0\0\0\x07")?;
    /// assert!(matches!(page.calls().next(), Some(Call::Template(call)) if call.expressions().count() == 0));
    /// # Ok::<(), jsx_precompile::Fault>(())
    /// ```
    pub fn expressions(&self) -> Series<'a, Expression<'a>> {
        Series { fields: self.0.inner(), read: expression }
    }

    /// The calls in its dynamic expressions, as [`PageOut::calls`](super::PageOut::calls) gives those of all.
    ///
    /// ```
    /// use jsx_precompile::out::{Call, PageOut};
    ///
    /// let page = PageOut::read(b"\x12\0\x0e\x90\0\x0b\0\0\0\x01\x90\0\x04\0\0\0\x02")?;
    /// let Some(Call::Template(outer)) = page.calls().next() else { panic!() };
    /// let Some(Call::Template(inner)) = outer.calls().next() else { panic!() };
    /// assert_eq!((outer.number(), inner.number()), (1, 2));
    /// # Ok::<(), jsx_precompile::Fault>(())
    /// ```
    pub fn calls(&self) -> Calls<'a> {
        Calls { rows: vec![self.0.inner()] }
    }
}

/// `jsxAttr(name, value)`: an attribute in an opening tag.
///
/// ```
/// use jsx_precompile::{Options, out::{Call, Expression}, page::{Element, Item, Page}, transform};
///
/// // <p hidden/>
/// let page = Page::new([Item::statement([Element::new("p").valueless("hidden").into()])]).to_bytes()?;
/// let forms = transform(&page, &Options::new())?;
/// let Some(Call::Attr(call)) = forms.page().calls().nth(1) else { panic!() };
/// assert_eq!((call.name(), call.value()), ("hidden", Expression::Boolean(true)));
/// # Ok::<(), Box<dyn std::error::Error>>(())
/// ```
#[derive(Clone, Copy, PartialEq, Eq)]
pub struct AttrCall<'a>(pub(super) Field<'a>);

impl<'a> AttrCall<'a> {
    /// The attribute's name.
    ///
    /// ```
    /// use jsx_precompile::out::{Call, PageOut};
    ///
    /// let page = PageOut::read(b"\x12\0\x0a\x91\0\x07\x81\0\x01a\x73\0\0")?;
    /// assert!(matches!(page.calls().next(), Some(Call::Attr(call)) if call.name() == "a"));
    /// # Ok::<(), jsx_precompile::Fault>(())
    /// ```
    pub fn name(&self) -> &'a str {
        text_at(self.0, 0)
    }

    /// The attribute's value.
    ///
    /// ```
    /// use jsx_precompile::out::{Call, Expression, PageOut};
    ///
    /// let page = PageOut::read(b"\x12\0\x0a\x91\0\x07\x81\0\x01a\x73\0\0")?;
    /// assert!(matches!(page.calls().next(), Some(Call::Attr(call)) if call.value() == Expression::Null));
    /// # Ok::<(), jsx_precompile::Fault>(())
    /// ```
    pub fn value(&self) -> Expression<'a> {
        expression_at(self.0, 1)
    }
}

/// `jsxEscape(value)`: a child.
///
/// ```
/// use jsx_precompile::out::{Call, Expression, PageOut};
///
/// let page = PageOut::read(b"\x12\0\x06\x92\0\x03\x73\0\0")?;
/// let Some(Call::Escape(call)) = page.calls().next() else { panic!() };
/// assert_eq!(call.value(), Expression::Null);
/// # Ok::<(), jsx_precompile::Fault>(())
/// ```
#[derive(Clone, Copy, PartialEq, Eq)]
pub struct EscapeCall<'a>(pub(super) Field<'a>);

impl<'a> EscapeCall<'a> {
    /// What is escaped.
    ///
    /// ```
    /// use jsx_precompile::out::{Call, Expression, PageOut};
    ///
    /// let page = PageOut::read(b"\x12\0\x07\x92\0\x04\x70\0\x01x")?;
    /// assert!(matches!(page.calls().next(), Some(Call::Escape(call)) if call.value() == Expression::String("x")));
    /// # Ok::<(), jsx_precompile::Fault>(())
    /// ```
    pub fn value(&self) -> Expression<'a> {
        expression_at(self.0, 0)
    }
}

/// `condition ? name : ""`: a boolean attribute in an opening tag.
///
/// ```
/// use jsx_precompile::{Options, out::Call, page::{Element, Expression, Item, Page}, transform};
///
/// // <i disabled={f}/>
/// let tag = Element::new("i").attribute("disabled", Expression::source("f"));
/// let forms = transform(&Page::new([Item::statement([tag.into()])]).to_bytes()?, &Options::new())?;
/// let Some(Call::Choice(choice)) = forms.page().calls().nth(1) else { panic!() };
/// assert_eq!(choice.name(), "disabled");
/// # Ok::<(), Box<dyn std::error::Error>>(())
/// ```
#[derive(Clone, Copy, PartialEq, Eq)]
pub struct Choice<'a>(pub(super) Field<'a>);

impl<'a> Choice<'a> {
    /// Whether the attribute is there.
    ///
    /// ```
    /// use jsx_precompile::out::{Call, Expression, PageOut};
    ///
    /// let page = PageOut::read(b"\x12\0\x0a\x93\0\x07\x73\0\0\x81\0\x01a")?;
    /// assert!(matches!(page.calls().next(), Some(Call::Choice(choice)) if choice.condition() == Expression::Null));
    /// # Ok::<(), jsx_precompile::Fault>(())
    /// ```
    pub fn condition(&self) -> Expression<'a> {
        expression_at(self.0, 0)
    }

    /// The attribute's name.
    ///
    /// ```
    /// use jsx_precompile::out::{Call, PageOut};
    ///
    /// let page = PageOut::read(b"\x12\0\x0a\x93\0\x07\x73\0\0\x81\0\x01a")?;
    /// assert!(matches!(page.calls().next(), Some(Call::Choice(choice)) if choice.name() == "a"));
    /// # Ok::<(), jsx_precompile::Fault>(())
    /// ```
    pub fn name(&self) -> &'a str {
        text_at(self.0, 1)
    }
}

/// `jsx(name, props, key)`.
///
/// ```
/// use jsx_precompile::{Options, out::{Call, CalledName, Expression, Prop}, page::{self, Element, Item, Page}, transform};
///
/// // <Foo a={1} key={2}/>
/// let tag = Element::new("Foo").attribute("a", page::Expression::Number(1)).attribute("key", page::Expression::Number(2));
/// let forms = transform(&Page::new([Item::statement([tag.into()])]).to_bytes()?, &Options::new())?;
/// let Some(Call::Jsx(call)) = forms.page().calls().next() else { panic!() };
/// assert_eq!(call.name(), CalledName::Identifier("Foo"));
/// assert!(call.props().unwrap().eq([Prop::Named("a", Expression::Number(1))]));
/// assert_eq!(call.key(), Some(Expression::Number(2)));
/// # Ok::<(), Box<dyn std::error::Error>>(())
/// ```
#[derive(Clone, Copy, PartialEq, Eq)]
pub struct JsxCall<'a>(pub(super) Field<'a>);

impl<'a> JsxCall<'a> {
    /// What is called.
    ///
    /// ```
    /// use jsx_precompile::out::{Call, CalledName, PageOut};
    ///
    /// let page = PageOut::read(b"\x12\0\x0a\x94\0\x07\x81\0\x01i\x73\0\0")?;
    /// assert!(matches!(page.calls().next(), Some(Call::Jsx(call)) if call.name() == CalledName::Tag("i")));
    /// # Ok::<(), jsx_precompile::Fault>(())
    /// ```
    pub fn name(&self) -> CalledName<'a> {
        match self.0.inner().next() {
            Some(name) if name.tag == 0x40 => CalledName::Identifier(name.text()),
            Some(name) if name.tag == 0x41 => CalledName::Member(texts(name)),
            _ => CalledName::Tag(text_at(self.0, 0)),
        }
    }

    /// Its props; none where `null` stands in their place.
    ///
    /// ```
    /// use jsx_precompile::out::{Call, PageOut};
    ///
    /// let page = PageOut::read(b"\x12\0\x0a\x94\0\x07\x81\0\x01i\x73\0\0")?;
    /// assert!(matches!(page.calls().next(), Some(Call::Jsx(call)) if call.props() == None));
    /// # Ok::<(), jsx_precompile::Fault>(())
    /// ```
    pub fn props(&self) -> Option<Series<'a, Prop<'a>>> {
        let props = self.0.inner().nth(1).filter(|props| props.tag == 0x95)?;
        Some(Series { fields: props.inner(), read: prop })
    }

    /// Its key; none where it has none.
    ///
    /// ```
    /// use jsx_precompile::out::{Call, Expression, PageOut};
    ///
    /// let page = PageOut::read(b"\x12\0\x0e\x94\0\x0b\x81\0\x01i\x73\0\0\x70\0\x01k")?;
    /// assert!(matches!(page.calls().next(), Some(Call::Jsx(call)) if call.key() == Some(Expression::String("k"))));
    /// # Ok::<(), jsx_precompile::Fault>(())
    /// ```
    pub fn key(&self) -> Option<Expression<'a>> {
        self.0.inner().nth(2).map(expression)
    }
}

/// What [`JsxCall::name`] names.
///
/// ```
/// use jsx_precompile::out::{Call, CalledName, PageOut};
///
/// // jsx(a.b, null)
/// let page = PageOut::read(b"\x12\0\x11\x94\0\x0e\x41\0\x08\x40\0\x01a\x40\0\x01b\x73\0\0")?;
/// let Some(Call::Jsx(call)) = page.calls().next() else { panic!() };
/// let CalledName::Member(names) = call.name() else { panic!() };
/// assert!(names.eq(["a", "b"]));
/// # Ok::<(), jsx_precompile::Fault>(())
/// ```
#[derive(Clone, Debug, PartialEq, Eq)]
pub enum CalledName<'a> {
    /// 81: the name of a tag, a string.
    Tag(&'a str),
    /// 40: a component.
    Identifier(&'a str),
    /// 41: a component, its names with points between.
    Member(Series<'a, &'a str>),
}

/// A property of [`JsxCall::props`].
///
/// ```
/// use jsx_precompile::out::{Call, Expression, PageOut, Prop};
///
/// // jsx("i", { ...null })
/// let page = PageOut::read(b"\x12\0\x10\x94\0\x0d\x81\0\x01i\x95\0\x06\x53\0\x03\x73\0\0")?;
/// let Some(Call::Jsx(call)) = page.calls().next() else { panic!() };
/// assert!(call.props().unwrap().eq([Prop::Spread(Expression::Null)]));
/// # Ok::<(), jsx_precompile::Fault>(())
/// ```
#[derive(Clone, Debug, PartialEq, Eq)]
pub enum Prop<'a> {
    /// 96: a name and a value.
    Named(&'a str, Expression<'a>),
    /// 53: `...expression`.
    Spread(Expression<'a>),
}

fn prop(field: Field) -> Prop {
    match field.tag {
        0x96 => Prop::Named(text_at(field, 0), expression_at(field, 1)),
        _ => Prop::Spread(expression_at(field, 0)),
    }
}

debug! {
    TemplateCall { number, expressions }
    AttrCall { name, value }
    EscapeCall { value }
    Choice { condition, name }
    JsxCall { name, props, key }
}
