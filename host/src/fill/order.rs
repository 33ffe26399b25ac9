//! What a template is filled with, as a tree; its bytes written and read.

use crate::check::{Fault, Input, check};
use crate::field::{ATTRIBUTE_TEXT, Field, Fields, ORDER, PLAIN_TEXT};
use crate::page::write::{WriteError, Writer};
use std::fmt;
use std::mem::take;

/// A template by its number, and a filling for each of its gaps, from front to back. Document 02's field 85.
///
/// ```
/// use jsx_precompile::{Filling, Order};
///
/// let order = Order::new(1).attribute("class=\"t\"").text("Hi ").order(Order::new(2));
/// assert_eq!(order, Order {
///     number: 1,
///     fillings: vec![
///         Filling::Attribute("class=\"t\"".into()),
///         Filling::Text("Hi ".into()),
///         Filling::Order(Order { number: 2, fillings: vec![] }),
///     ],
/// });
/// ```
///
/// A tree may be deeper than an order: [`Order::to_bytes`] then gives an error, and what is no longer needed is given back
/// without recursion. For that it has a `Drop`; its fillings are borrowed, or taken out with [`std::mem::take`].
#[derive(Clone, Debug, PartialEq, Eq)]
pub struct Order {
    /// That of the template.
    pub number: u32,
    /// As many as the template has gaps, each of its gap's kind.
    pub fillings: Vec<Filling>,
}

/// What stands in one gap.
///
/// ```
/// use jsx_precompile::{Filling, Order};
///
/// assert_eq!(Filling::from(Order::new(2)), Filling::Order(Order::new(2)));
/// ```
#[derive(Clone, Debug, PartialEq, Eq)]
pub enum Filling {
    /// 86: for a gap in an opening tag; it is written as it is, and may have no `<` and no `>`.
    Attribute(String),
    /// 87: for a gap among children; it is escaped.
    Text(String),
    /// 85: another template, for a gap among children.
    Order(Order),
}

impl From<Order> for Filling {
    fn from(order: Order) -> Filling {
        Filling::Order(order)
    }
}

impl Order {
    /// An order for this template, without fillings.
    ///
    /// ```
    /// assert_eq!(jsx_precompile::Order::new(7).to_bytes()?, b"\x85\0\x04\0\0\0\x07");
    /// # Ok::<(), jsx_precompile::OrderError>(())
    /// ```
    pub fn new(number: u32) -> Order {
        Order { number, fillings: vec![] }
    }

    /// With one more filling, of any kind.
    ///
    /// ```
    /// use jsx_precompile::{Filling, Order};
    ///
    /// assert_eq!(Order::new(1).filling(Filling::Text("Hi".into())), Order::new(1).text("Hi"));
    /// ```
    pub fn filling(mut self, filling: impl Into<Filling>) -> Order {
        self.fillings.push(filling.into());
        self
    }

    /// With one more attribute text, written as it is: none or several attributes, `id="a" hidden`.
    ///
    /// ```
    /// assert_eq!(jsx_precompile::Order::new(1).attribute("a").to_bytes()?, b"\x85\0\x08\0\0\0\x01\x86\0\x01a");
    /// # Ok::<(), jsx_precompile::OrderError>(())
    /// ```
    pub fn attribute(self, text: impl Into<String>) -> Order {
        self.filling(Filling::Attribute(text.into()))
    }

    /// With one more attribute text, `name="value"`, the value escaped as text of HTML is. The name stands as it is.
    ///
    /// ```
    /// use jsx_precompile::Order;
    ///
    /// assert_eq!(Order::new(1).attribute_value("a", "<\"&'>"), Order::new(1).attribute("a=\"&lt;&quot;&amp;&#39;&gt;\""));
    /// ```
    pub fn attribute_value(self, name: &str, value: &str) -> Order {
        self.attribute(format!("{name}=\"{}\"", escaped(value)))
    }

    /// With one more text among children; it is escaped where it is written.
    ///
    /// ```
    /// assert_eq!(jsx_precompile::Order::new(1).text("a").to_bytes()?, b"\x85\0\x08\0\0\0\x01\x87\0\x01a");
    /// # Ok::<(), jsx_precompile::OrderError>(())
    /// ```
    pub fn text(self, text: impl Into<String>) -> Order {
        self.filling(Filling::Text(text.into()))
    }

    /// With one more template among children.
    ///
    /// ```
    /// use jsx_precompile::Order;
    ///
    /// assert_eq!(Order::new(1).order(Order::new(2)).to_bytes()?, b"\x85\0\x0b\0\0\0\x01\x85\0\x04\0\0\0\x02");
    /// # Ok::<(), jsx_precompile::OrderError>(())
    /// ```
    pub fn order(self, order: Order) -> Order {
        self.filling(order)
    }

    /// The order's bytes, as [`fill`](crate::fill) takes them; an error where there are none.
    ///
    /// ```
    /// use jsx_precompile::{Order, WriteError, limits::MAX_BODY};
    ///
    /// let order = Order::new(1).text("a").order(Order::new(2).text("").text("t".repeat(MAX_BODY + 1)));
    /// let error = order.to_bytes().unwrap_err();
    /// assert_eq!((&error.place[..], &error.error), (&[1, 1][..], &WriteError::BodyTooLong(0x87, 65_536)));
    /// assert_eq!(error.to_string(), "order, filling 1 > 1: a field 87 of 65536 bytes, a body has at most 65535");
    /// ```
    pub fn to_bytes(&self) -> Result<Vec<u8>, OrderError> {
        let (mut writer, mut place) = (Writer::default(), vec![]);
        match write(self, &mut writer, &mut place) {
            Ok(()) => Ok(writer.out),
            Err(error) => Err(OrderError { place, error }),
        }
    }

    /// The order that these bytes are; where they are none, the place and the reason. The refusal is the one that
    /// [`fill`](crate::fill) gives, where the templates are not refused.
    ///
    /// ```
    /// use jsx_precompile::{Order, Refusal};
    ///
    /// assert_eq!(Order::from_bytes(b"\x85\0\x08\0\0\0\x01\x87\0\x01a")?, Order::new(1).text("a"));
    /// let fault = Order::from_bytes(b"\x85\0\x0b\0\0\0\x01\x87\0\x01a\x81\0\0").unwrap_err();
    /// assert_eq!((fault.at, fault.refusal), (11, Refusal::Misplaced));
    /// assert_eq!(fault.reason, "81 (static string) stands where fillings (85, 86, 87) may stand");
    /// # Ok::<(), jsx_precompile::Fault>(())
    /// ```
    pub fn from_bytes(bytes: &[u8]) -> Result<Order, Fault> {
        check(Input::Order, bytes)?;
        Ok(Fields::new(bytes).next().map_or(Order::new(0), read))
    }
}

/// Given back with a stack of its own: what was built too deep for an order may be too deep for the thread's stack as well.
impl Drop for Order {
    fn drop(&mut self) {
        let mut loose = take(&mut self.fillings);
        while let Some(filling) = loose.pop() {
            if let Filling::Order(mut order) = filling {
                loose.append(&mut order.fillings);
            }
        }
    }
}

/// Why an order has no bytes, and where.
///
/// ```
/// use jsx_precompile::{Order, OrderError, WriteError, limits::MAX_DEPTH};
///
/// let nested = |depth| (1..depth).fold(Order::new(1), |inner, _| Order::new(1).text("").order(inner));
/// assert!(nested(MAX_DEPTH).to_bytes().is_ok());
/// let error: OrderError = nested(MAX_DEPTH + 1).to_bytes().unwrap_err();
/// assert_eq!((error.place.len(), error.error), (MAX_DEPTH, WriteError::TooDeep)); // the first text that lies 49 deep
/// ```
#[derive(Clone, Debug, PartialEq, Eq)]
pub struct OrderError {
    /// Of each order on the way the place of the filling in it, counted from 0; none where it is the order itself.
    pub place: Vec<usize>,
    /// What is wrong there: [`WriteError::TooDeep`] or [`WriteError::BodyTooLong`].
    pub error: WriteError,
}

impl fmt::Display for OrderError {
    fn fmt(&self, f: &mut fmt::Formatter<'_>) -> fmt::Result {
        let way: Vec<String> = self.place.iter().map(usize::to_string).collect();
        let filling = if way.is_empty() { String::new() } else { format!(", filling {}", way.join(" > ")) };
        write!(f, "{}{filling}: {}", Input::Order, self.error)
    }
}

impl std::error::Error for OrderError {}

/// The writer stops at what lies too deep, so that this ends. Where it fails, `place` leads there.
fn write(order: &Order, writer: &mut Writer, place: &mut Vec<usize>) -> Result<(), WriteError> {
    writer.field(ORDER, |w| {
        w.out.extend(order.number.to_be_bytes());
        for (gap, filling) in order.fillings.iter().enumerate() {
            place.push(gap);
            match filling {
                Filling::Attribute(text) => w.leaf(ATTRIBUTE_TEXT, text.as_bytes())?,
                Filling::Text(text) => w.leaf(PLAIN_TEXT, text.as_bytes())?,
                Filling::Order(order) => write(order, w, place)?,
            }
            place.pop();
        }
        Ok(())
    })
}

/// Of a field that was checked.
fn read(field: Field) -> Order {
    let filling = |field: Field| match field.tag {
        ORDER => Filling::Order(read(field)),
        ATTRIBUTE_TEXT => Filling::Attribute(field.text().to_string()),
        _ => Filling::Text(field.text().to_string()),
    };
    Order { number: field.number().unwrap_or_default(), fillings: field.inner().map(filling).collect() }
}

fn escaped(text: &str) -> String {
    // First the sign that the others become.
    [("&", "&amp;"), ("<", "&lt;"), (">", "&gt;"), ("'", "&#39;"), ("\"", "&quot;")]
        .into_iter()
        .fold(text.to_string(), |text, (sign, written)| text.replace(sign, written))
}
