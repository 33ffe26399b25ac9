//! Trees are given back with a stack of their own: one that was built too deep for a page may be too deep for the
//! thread's stack as well. Every way from a tag or array into another goes through one of the three types here.

use super::*;
use std::mem::{replace, take};

impl Drop for Element {
    fn drop(&mut self) {
        let mut loose = Loose::default();
        loose.attributes(take(&mut self.attributes));
        loose.children(take(&mut self.children));
        loose.take_apart();
    }
}

impl Drop for Fragment {
    fn drop(&mut self) {
        let mut loose = Loose::default();
        loose.children(take(&mut self.children));
        loose.take_apart();
    }
}

impl Drop for ArrayItem {
    fn drop(&mut self) {
        let mut loose = Loose::default();
        loose.array_item(self);
        loose.take_apart();
    }
}

/// Parts that are in no tree any more.
#[derive(Default)]
struct Loose(Vec<Part>);

enum Part {
    Element(Element),
    Fragment(Fragment),
    Expression(Expression),
}

impl Loose {
    fn take_apart(mut self) {
        while let Some(part) = self.0.pop() {
            match part {
                // What is dropped here has nothing in it any more.
                Part::Element(mut element) | Part::Expression(Expression::Element(mut element)) => {
                    self.attributes(take(&mut element.attributes));
                    self.children(take(&mut element.children));
                }
                Part::Fragment(mut fragment) | Part::Expression(Expression::Fragment(mut fragment)) => {
                    self.children(take(&mut fragment.children));
                }
                Part::Expression(Expression::Array(items)) => {
                    items.into_iter().for_each(|mut item| self.array_item(&mut item));
                }
                Part::Expression(Expression::Other(pieces)) => self.pieces(pieces),
                Part::Expression(_) => {}
            }
        }
    }

    fn attributes(&mut self, attributes: Vec<Attribute>) {
        self.0.extend(attributes.into_iter().filter_map(|attribute| match attribute {
            Attribute::Spread(inside) | Attribute::Named(_, Some(Value::Container(Some(inside)))) => {
                Some(Part::Expression(inside))
            }
            Attribute::Named(_, Some(Value::Element(inside))) => Some(Part::Element(inside)),
            Attribute::Named(_, Some(Value::Fragment(inside))) => Some(Part::Fragment(inside)),
            Attribute::Named(..) => None,
        }));
    }

    fn children(&mut self, children: Vec<Child>) {
        self.0.extend(children.into_iter().filter_map(|child| match child {
            Child::Element(inside) => Some(Part::Element(inside)),
            Child::Fragment(inside) => Some(Part::Fragment(inside)),
            Child::Container(Some(inside)) | Child::Spread(inside) => Some(Part::Expression(inside)),
            Child::Text(_) | Child::Container(None) => None,
        }));
    }

    fn pieces(&mut self, pieces: Vec<Piece>) {
        self.0.extend(pieces.into_iter().filter_map(|piece| match piece {
            Piece::Element(inside) => Some(Part::Element(inside)),
            Piece::Fragment(inside) => Some(Part::Fragment(inside)),
            Piece::Source(_) => None,
        }));
    }

    fn array_item(&mut self, item: &mut ArrayItem) {
        use Expression::{Array, Element, Fragment, Other};
        if let ArrayItem::Expression(inside) | ArrayItem::Spread(inside) = item
            && let Array(_) | Other(_) | Element(_) | Fragment(_) = inside
        {
            self.0.push(Part::Expression(replace(inside, Expression::Null)));
        }
    }
}
