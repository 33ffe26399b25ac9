//! JSX pages into templates and calls: safe Rust over libjsx_precompile.a, whose functions are proved to answer as
//! documents 01 and 02 say at every input.
//!
//! A page is written as a tree ([`page`]) or given as bytes; [`transform`] takes it apart; what comes out is read by
//! [`out`] and printed as JavaScript by [`javascript`]. A refusal says where and why ([`Fault`]). A tag that comes as
//! text is read by [`Tag::read`], and stands in a page as an element does. Templates are looked up by [`find`].
//! They are filled by [`fill`], with an [`Order`], into HTML. The pages of several houses stand together in a
//! [`catalogue`]. What hosts of before read and wrote is made by [`downgrade`] and read by [`upgrade`].
//! `const a = <p class="t">Hi {n}</p>;` becomes a template and a call of it:
//!
//! ```
//! use jsx_precompile::{Options, out::{Call, Helper}, page::{Element, Expression, Item, Page}, transform};
//!
//! let tag = Element::new("p").attribute("class", "t").text("Hi ").child(Expression::source("n"));
//! let page = Page::new([Item::statement(["const a = ".into(), tag.into(), ";".into()])]);
//! let forms = transform(&page.to_bytes()?, &Options::new())?;
//!
//! // const $$_tpl_1 = ["<p class=\"t\">Hi ", "</p>"];
//! let template = forms.templates().next().unwrap();
//! assert_eq!(template.number(), 1);
//! assert_eq!(template.strings().collect::<Vec<_>>(), ["<p class=\"t\">Hi ", "</p>"]);
//!
//! // import { jsxTemplate as _jsxTemplate, jsxEscape as _jsxEscape } from "react/jsx-runtime";
//! let import = forms.page().import().unwrap();
//! assert_eq!(import.source, "react/jsx-runtime");
//! assert_eq!(import.helpers().collect::<Vec<_>>(), [Helper::JsxTemplate, Helper::JsxEscape]);
//!
//! // const a = _jsxTemplate($$_tpl_1, _jsxEscape(n));
//! let Some(Call::Template(call)) = forms.page().calls().next() else { panic!() };
//! assert_eq!((call.number(), call.expressions().count()), (1, 1));
//! # Ok::<(), Box<dyn std::error::Error>>(())
//! ```

mod call;
pub mod catalogue;
mod check;
mod convert;
mod decimal;
pub mod field;
mod fill;
mod find;
pub mod javascript;
pub mod limits;
mod locate;
mod options;
pub mod out;
pub mod page;
mod path;
mod refusal;
mod tag;

pub use call::{Answer, Forms, Transformer, library_version, transform, transform_into};
pub use check::{Fault, Input};
pub use convert::{ConvertAnswer, Converted, downgrade, downgrade_into, upgrade, upgrade_into};
pub use decimal::{Decimal, DecimalError};
pub use fill::{FillAnswer, Filling, Order, OrderError, fill, fill_into};
pub use find::{FindAnswer, Places, find, find_answer};
pub use options::Options;
pub use page::write::WriteError;
pub use refusal::Refusal;
pub use tag::{Place, Tag, TagAnswer, TagError, TagRefusal, read_tag_into};

/// The version of this crate, which is also that of the proved library that it belongs to: see [`library_version`].
///
/// ```
/// assert_eq!(jsx_precompile::VERSION.split('.').count(), 3);
/// ```
pub const VERSION: &str = env!("CARGO_PKG_VERSION");

// The README's example runs with the others.
#[cfg(doctest)]
#[doc = include_str!("../README.md")]
struct Readme;
