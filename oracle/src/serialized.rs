//! 02, A4 and A10: the elements that the Rust serializes into the strings of a template, as the Rust itself tells. An
//! element in a place that it never looks at is none.

use crate::answer::Refusal;
use crate::decode::Options;
use crate::private::is_void_element;
use crate::stand_ins::swc_ecma_ast::Module;
use crate::transform::{Copy, transform_with};
use std::cell::RefCell;
use std::collections::HashSet;

/// An element that was serialized.
#[derive(Clone, Debug, PartialEq, Eq)]
pub struct Element {
    pub name: String,
    /// Of all its attributes, whatever becomes of them, as the Rust normalises them.
    pub attributes: Vec<String>,
}

thread_local! {
    static NOTED: RefCell<Vec<Element>> = const { RefCell::new(vec![]) };
}

/// Called by the noting copy of the source where it begins to write an element.
pub fn note(name: &str, attributes: impl Iterator<Item = String>) {
    let element = Element { name: name.to_string(), attributes: attributes.collect() };
    NOTED.with_borrow_mut(|noted| noted.push(element));
}

/// The elements of a page that are serialized, in the order in which they are written.
pub fn elements(options: &Options, mut module: Module) -> Vec<Element> {
    NOTED.take();
    transform_with(Copy::Noted, options, &mut module);
    NOTED.take()
}

/// What a page is refused for once it is known that no tag is left: 16, then 19, each looked for over the whole page.
pub fn refusal(elements: &[Element]) -> Option<Refusal> {
    if elements.iter().any(Element::repeats) {
        Some(Refusal::RepeatedAttribute)
    } else if elements.iter().any(Element::is_mixed_case_void) {
        Some(Refusal::MixedCaseVoid)
    } else {
        None
    }
}

impl Element {
    /// Whether two of its attributes have one normalised name, compared in small letters.
    pub fn repeats(&self) -> bool {
        let mut seen = HashSet::new();
        !self.attributes.iter().all(|name| seen.insert(name.to_ascii_lowercase()))
    }

    /// Whether its name is one of the 14 only after going to small letters.
    pub fn is_mixed_case_void(&self) -> bool {
        !is_void_element(&self.name) && is_void_element(&self.name.to_ascii_lowercase())
    }
}
