//! Templates filled by an order, and those in it, as HTML. Document 02, A8.

mod order;
mod unfitting;

pub use order::{Filling, Order, OrderError};

use crate::check::{Fault, Input, check};
use crate::field::OLD_TEMPLATE;
use crate::path::Path;
use crate::refusal::Refusal;
use unfitting::unfitting;

unsafe extern "C" {
    // A slice is a pointer and a length.
    fn jsx_precompile_fill(
        templates: *const u8,
        templates_length: usize,
        order: *const u8,
        order_length: usize,
        html_out: *mut u8,
        html_out_length: usize,
    ) -> FillAnswer;
}

/// What a filling answers, laid out as in C. A refusal has its number and a zero.
///
/// ```
/// use jsx_precompile::{FillAnswer, Refusal, fill_into};
///
/// let answer = fill_into(&[], b"\x85\0\x04\0\0\0\x01", &mut []);
/// assert_eq!(answer, FillAnswer { number: 18, html_bytes: 0 });
/// assert_eq!(answer.refusal(), Some(Refusal::Unfitting));
/// ```
#[derive(Clone, Copy, Debug, PartialEq, Eq)]
#[repr(C)]
pub struct FillAnswer {
    /// 0 where the HTML was written, else that of a [`Refusal`].
    pub number: u32,
    /// The bytes written to HTML out.
    pub html_bytes: usize,
}

impl FillAnswer {
    /// Why the call was refused; none where the HTML was written.
    ///
    /// ```
    /// let answer = jsx_precompile::fill_into(b"\x84\0\x09\0\0\0\x01\0\0\x81\0\0", b"\x85\0\x04\0\0\0\x01", &mut []);
    /// assert_eq!(answer.refusal(), None);
    /// ```
    ///
    /// # Panics
    ///
    /// Where the number is none that a filling answers: no call of the library does that.
    pub fn refusal(&self) -> Option<Refusal> {
        match self.number {
            0 => None,
            number => Some(Refusal::from_number(number).unwrap_or_else(|| panic!("{number} is no answer"))),
        }
    }
}

/// The library's own call, on lent bytes: templates of 84s, an order as a field 85, and room for the HTML.
///
/// Filled: the HTML stands at the front of its bytes, and those behind it are as before. Refused: they are all zero.
/// Half a megabyte of stack is enough (tests/fill.rs).
///
/// ```
/// use jsx_precompile::{FillAnswer, fill_into};
///
/// let templates = b"\x84\0\x14\0\0\0\x01\0\x01\x02\x81\0\x03<p>\x81\0\x04</p>";
/// let order = b"\x85\0\x09\0\0\0\x01\x87\0\x02<3";
/// let mut html = [7; 13];
/// assert_eq!(fill_into(templates, order, &mut html), FillAnswer { number: 0, html_bytes: 12 });
/// assert_eq!(&html, b"<p>&lt;3</p>\x07");
/// ```
pub fn fill_into(templates: &[u8], order: &[u8], html_out: &mut [u8]) -> FillAnswer {
    // Safety: the three parts do not overlap, by their types. The function is proved to read the first two and to write
    // the third within their lengths, at every input, and keeps none of them.
    unsafe {
        jsx_precompile_fill(
            templates.as_ptr(),
            templates.len(),
            order.as_ptr(),
            order.len(),
            html_out.as_mut_ptr(),
            html_out.len(),
        )
    }
}

/// The HTML of an order: the static strings of its template and the fillings in turn, templates within templates. Where
/// the templates are a page's, it is well nested.
///
/// ```
/// use jsx_precompile::{Input, Options, Order, Refusal, fill, transform};
/// use jsx_precompile::page::{Element, Expression, Item, Page};
///
/// // <p title={t}>{n}</p>
/// let tag = Element::new("p").attribute("title", Expression::source("t")).child(Expression::source("n"));
/// let forms = transform(&Page::new([Item::statement([tag.into()])]).to_bytes()?, &Options::new())?;
/// let templates = forms.templates_bytes();
///
/// let seats = |filling: Order| filling.text("Stalls & balcony");
/// let order = seats(Order::new(1).attribute_value("title", "\"A\""));
/// let html = fill(templates, &order.to_bytes()?)?;
/// assert_eq!(html, "<p title=\"&quot;A&quot;\">Stalls &amp; balcony</p>");
///
/// let outer = Order::new(1).attribute("").order(order);
/// let html = fill(templates, &outer.to_bytes()?)?;
/// assert_eq!(html, "<p ><p title=\"&quot;A&quot;\">Stalls &amp; balcony</p></p>");
///
/// let fault = fill(templates, &seats(Order::new(1)).to_bytes()?).unwrap_err();
/// assert_eq!((fault.input, fault.at, fault.refusal), (Input::Order, 0, Refusal::Unfitting));
/// assert_eq!(fault.reason, "template 1 has 2 gaps and is given 1 filling");
/// let fault = fill(templates, &Order::new(1).attribute("a=\">\"").text("").to_bytes()?).unwrap_err();
/// assert_eq!(
///     fault.to_string(),
///     "order, byte 13, 85 1 > 86[0]: 18 (unfitting): '>' may not stand in an attribute text"
/// );
/// # Ok::<(), Box<dyn std::error::Error>>(())
/// ```
///
/// A short order may make long HTML, up to 9,362 templates of 65,526 bytes; [`fill_into`] writes no more than is lent.
///
/// # Errors
///
/// [`Refusal::Truncated`], [`Refusal::Misplaced`] or [`Refusal::NotUtf8`] where the templates are none of 84s, then these
/// or [`Refusal::TooDeep`] where the order is none; then [`Refusal::Unfitting`]. The place is that in the input that the
/// fault names.
pub fn fill(templates: &[u8], order: &[u8]) -> Result<String, Fault> {
    let mut html = vec![0; templates.len() + order.len() + 1_024];
    loop {
        let answer = fill_into(templates, order, &mut html);
        match answer.refusal() {
            None => {
                html.truncate(answer.html_bytes);
                // Strings and fillings are UTF-8, or they are refused.
                return Ok(String::from_utf8(html).unwrap_or_else(|error| panic!("{error} in HTML")));
            }
            Some(Refusal::PageTooSmall) => html.resize(2 * html.len(), 0),
            Some(refusal) => return Err(fault(templates, order, refusal)),
        }
    }
}

/// The library's refusal, with its place. The checks go over the bytes a second time, and refuse as the library does.
fn fault(templates: &[u8], order: &[u8], refusal: Refusal) -> Fault {
    let alike = |input, bytes| check(input, bytes).err().filter(|fault| fault.refusal == refusal);
    let at_order = |(at, reason)| Fault { input: Input::Order, at, path: Path::to(order, at), refusal, reason };
    old_templates(templates, refusal)
        .or_else(|| alike(Input::Templates, templates))
        .or_else(|| alike(Input::Order, order))
        .unwrap_or_else(|| {
            at_order(unfitting(templates, order).unwrap_or_else(|| (0, refusal.explanation().to_string())))
        })
}

/// The check takes templates of before too; these are none that can be filled.
fn old_templates(templates: &[u8], refusal: Refusal) -> Option<Fault> {
    let is_old = refusal == Refusal::Misplaced && templates.first() == Some(&OLD_TEMPLATE);
    let reason = "80s are not filled; `upgrade` makes 84s of them".to_string();
    is_old.then(|| Fault { input: Input::Templates, at: 0, path: Path::to(templates, 0), refusal, reason })
}
