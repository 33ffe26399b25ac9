//! The pages of examples/ as trees, the orders that fill their templates, and a catalogue.

pub mod festival;
mod marks;
mod orders;
mod seat_pages;

pub use orders::orders;

use jsx_precompile::page::{Expression, Item, Page, Piece};

pub struct Example {
    /// The name of its files, without their ends.
    pub name: &'static str,
    /// What the .jsx shows.
    pub tree: Page,
    /// What the .page has: the tree's bytes, or a damaged copy.
    pub page: Vec<u8>,
}

impl Example {
    fn new(name: &'static str, tree: Page) -> Example {
        let page = tree.to_bytes().unwrap_or_else(|error| panic!("example {name}: {error}"));
        Example { name, tree, page }
    }
}

pub fn all() -> Vec<Example> {
    marks::all().into_iter().chain(seat_pages::all()).collect()
}

/// `const a = TAG;`
fn const_a(tag: impl Into<Piece>) -> Page {
    Page::new([Item::statement(["const a = ".into(), tag.into(), ";".into()])])
}

fn code(source: &str) -> Expression {
    Expression::source(source)
}

fn string(text: &str) -> Expression {
    Expression::String(text.to_string())
}
