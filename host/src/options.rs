//! The options of a call.

use crate::check::{Fault, Input, check};
use crate::field::{Field, Fields};
use crate::limits::MAX_OPTIONS;
use crate::page::write::{WriteError, Writer};

/// The options of a call: what is not serialized, where the helpers are imported from, and whether sums are worked out.
///
/// ```
/// use jsx_precompile::{Options, page::{Element, Item, Page}, transform};
///
/// let page = Page::new([Item::statement([Element::new("i").into()])]).to_bytes()?;
/// let options = Options::new().skip_serialize(["i"]).import_source("preact");
/// let forms = transform(&page, &options)?;
/// assert_eq!(forms.count(), 0); // a call of jsx stands there instead
/// assert_eq!(forms.page().import().unwrap().source, "preact/jsx-runtime");
/// # Ok::<(), Box<dyn std::error::Error>>(())
/// ```
#[derive(Clone, Debug, Default, PartialEq, Eq)]
pub struct Options {
    skip_serialize: Vec<String>,
    skip_prop_serialize: Vec<String>,
    import_source: Option<String>,
    sums: bool,
}

impl Options {
    /// Everything is serialized, the helpers come from `react`, and sums stay as they are written.
    ///
    /// ```
    /// assert_eq!(jsx_precompile::Options::new().to_bytes(), Ok(vec![]));
    /// ```
    pub fn new() -> Options {
        Options::default()
    }

    /// With more elements that are not serialized, by name.
    ///
    /// ```
    /// let options = jsx_precompile::Options::new().skip_serialize(["i"]);
    /// assert_eq!(options.to_bytes(), Ok(vec![0x02, 0, 4, 0x20, 0, 1, b'i']));
    /// ```
    pub fn skip_serialize<T: Into<String>>(mut self, names: impl IntoIterator<Item = T>) -> Options {
        self.skip_serialize.extend(names.into_iter().map(T::into));
        self
    }

    /// With more attributes that are not serialized, by name: an identifier as it is written, a namespaced name
    /// normalised (`href` for `xlink:href`).
    ///
    /// ```
    /// let options = jsx_precompile::Options::new().skip_prop_serialize(["a"]);
    /// assert_eq!(options.to_bytes(), Ok(vec![0x03, 0, 4, 0x20, 0, 1, b'a']));
    /// ```
    ///
    /// On an element that is serialized, such an attribute becomes a `jsxAttr` call of the listed name and the value as
    /// it stands: what is in its braces, null for empty ones, and `true` without a value.
    ///
    /// ```
    /// use jsx_precompile::out::{Call, Expression as Out};
    /// use jsx_precompile::{Options, page::{Element, Expression, Item, Page, Value}, transform};
    ///
    /// // <p class={-1} id={}/>
    /// let tag = Element::new("p").attribute("class", Expression::Minus(1)).attribute("id", Value::Container(None));
    /// let page = Page::new([Item::statement([tag.into()])]).to_bytes()?;
    /// let forms = transform(&page, &Options::new().skip_prop_serialize(["class", "id"]))?;
    /// assert!(forms.templates().next().unwrap().strings().eq(["<p ", " ", "></p>"]));
    ///
    /// // _jsxTemplate($$_tpl_1, _jsxAttr("class", -1), _jsxAttr("id", null))
    /// let mut calls = forms.page().calls().skip(1);
    /// for expected in [("class", Out::Minus(1)), ("id", Out::Null)] {
    ///     let Some(Call::Attr(call)) = calls.next() else { panic!() };
    ///     assert_eq!((call.name(), call.value()), expected);
    /// }
    /// # Ok::<(), Box<dyn std::error::Error>>(())
    /// ```
    pub fn skip_prop_serialize<T: Into<String>>(mut self, names: impl IntoIterator<Item = T>) -> Options {
        self.skip_prop_serialize.extend(names.into_iter().map(T::into));
        self
    }

    /// With another import source than `react`; `/jsx-runtime` is put behind it.
    ///
    /// ```
    /// let options = jsx_precompile::Options::new().import_source("h");
    /// assert_eq!(options.to_bytes(), Ok(vec![0x04, 0, 1, b'h']));
    /// ```
    pub fn import_source(mut self, source: impl Into<String>) -> Options {
        self.import_source = Some(source.into());
        self
    }

    /// Whether sums in braces are worked out: whole numbers with `+`, `-` and `*` between them, spaces and round brackets,
    /// as the whole source of an expression. `{2 * 12 + 3}` is then the number 27, wherever it stands, and is written into
    /// the template. What passes 9,007,199,254,740,991 either way stays source, and so does zero times a negative number.
    ///
    /// ```
    /// let options = jsx_precompile::Options::new().sums(true);
    /// assert_eq!(options.to_bytes(), Ok(vec![0x05, 0, 0]));
    /// ```
    ///
    /// ```
    /// use jsx_precompile::{Options, page::{Element, Expression, Item, Page}, transform};
    ///
    /// // <td>{2 * 12 + 3} seats</td>
    /// let tag = Element::new("td").child(Expression::source("2 * 12 + 3")).text(" seats");
    /// let page = Page::new([Item::statement([tag.into()])]).to_bytes()?;
    /// let forms = transform(&page, &Options::new().sums(true))?;
    /// assert!(forms.templates().next().unwrap().strings().eq(["<td>27 seats</td>"]));
    /// # Ok::<(), Box<dyn std::error::Error>>(())
    /// ```
    pub fn sums(mut self, worked_out: bool) -> Options {
        self.sums = worked_out;
        self
    }

    /// The options' fields; an error where there are none.
    ///
    /// ```
    /// use jsx_precompile::{Options, WriteError};
    ///
    /// assert_eq!(Options::new().import_source("").to_bytes(), Err(WriteError::NoImportSource));
    /// assert_eq!(Options::new().import_source("s".repeat(4_094)).to_bytes(), Err(WriteError::OptionsTooLong(4_097)));
    /// ```
    pub fn to_bytes(&self) -> Result<Vec<u8>, WriteError> {
        if self.import_source.as_deref() == Some("") {
            return Err(WriteError::NoImportSource);
        }
        match self.encode()? {
            bytes if bytes.len() > MAX_OPTIONS => Err(WriteError::OptionsTooLong(bytes.len())),
            bytes => Ok(bytes),
        }
    }

    /// The options that these bytes are; where they are none, the place and the reason. An empty list is as none.
    ///
    /// ```
    /// use jsx_precompile::{Options, Refusal};
    ///
    /// assert_eq!(Options::from_bytes(&[0x04, 0, 1, b'h']), Ok(Options::new().import_source("h")));
    /// assert_eq!(Options::from_bytes(&[0x04, 0, 0]).unwrap_err().refusal, Refusal::Misplaced);
    /// ```
    pub fn from_bytes(bytes: &[u8]) -> Result<Options, Fault> {
        check(Input::Options, bytes)?;
        let mut options = Options::new();
        let names = |field: Field| field.inner().map(|name| name.text().to_string()).collect();
        for field in Fields::new(bytes) {
            match field.tag {
                0x02 => options.skip_serialize = names(field),
                0x03 => options.skip_prop_serialize = names(field),
                0x04 => options.import_source = Some(field.text().to_string()),
                _ => options.sums = true,
            }
        }
        Ok(options)
    }

    /// The fields, also where the library refuses them; an error only where a length cannot be written.
    pub(crate) fn encode(&self) -> Result<Vec<u8>, WriteError> {
        let mut writer = Writer::default();
        for (tag, names) in [(0x02, &self.skip_serialize), (0x03, &self.skip_prop_serialize)] {
            if !names.is_empty() {
                writer.field(tag, |w| names.iter().try_for_each(|name| w.leaf(0x20, name.as_bytes())))?;
            }
        }
        if let Some(source) = &self.import_source {
            writer.leaf(0x04, source.as_bytes())?;
        }
        if self.sums {
            writer.leaf(0x05, b"")?;
        }
        Ok(writer.out)
    }
}
