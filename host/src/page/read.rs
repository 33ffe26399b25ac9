//! Bytes as a tree. They are checked first, so that reading is plain; what cannot stand there is then never met.

use super::*;
use crate::check::{Input, check};
use crate::field::{Field, Fields};

pub(super) fn page(bytes: &[u8]) -> Result<Page, Fault> {
    check(Input::Page, bytes)?;
    let items = Fields::new(bytes).flat_map(|page| page.inner()).map(item).collect();
    Ok(Page { items })
}

fn item(field: Field) -> Item {
    match field.tag {
        0x10 => Item::Export(pieces(field)),
        0x11 => Item::Declaration(pieces(field)),
        0x12 => Item::Statement(pieces(field)),
        _ => Item::Empty,
    }
}

fn pieces(field: Field) -> Vec<Piece> {
    field.inner().map(piece).collect()
}

pub(crate) fn piece(field: Field) -> Piece {
    match field.tag {
        0x20 => Piece::Source(text(field)),
        0x30 => Piece::Element(element(field)),
        _ => Piece::Fragment(fragment(field)),
    }
}

fn text(field: Field) -> String {
    field.text().to_string()
}

fn names(field: Field) -> Vec<String> {
    field.inner().map(text).collect()
}

fn two_names(field: Field) -> (String, String) {
    let mut names = field.inner().map(text);
    (names.next().unwrap_or_default(), names.next().unwrap_or_default())
}

fn element(field: Field) -> Element {
    let mut element = Element::new("");
    for field in field.inner() {
        match field.tag {
            0x40 => element.name = ElementName::Identifier(text(field)),
            0x41 => element.name = ElementName::Member(names(field)),
            0x42 => {
                let (space, name) = two_names(field);
                element.name = ElementName::Namespaced(space, name);
            }
            0x50 => element.attributes.push(attribute(field)),
            0x53 => element.attributes.push(Attribute::Spread(one_expression(field))),
            _ => element.children.push(child(field)),
        }
    }
    element
}

fn fragment(field: Field) -> Fragment {
    Fragment { children: field.inner().map(child).collect() }
}

fn attribute(field: Field) -> Attribute {
    let mut inner = field.inner();
    let name = match inner.next() {
        Some(field) if field.tag == 0x42 => {
            let (space, name) = two_names(field);
            AttributeName::Namespaced(space, name)
        }
        Some(field) => AttributeName::Identifier(text(field)),
        None => AttributeName::Identifier(String::new()),
    };
    let value = inner.next().map(|field| match field.tag {
        0x51 => Value::String(text(field)),
        0x52 => Value::Container(container(field)),
        0x30 => Value::Element(element(field)),
        _ => Value::Fragment(fragment(field)),
    });
    Attribute::Named(name, value)
}

fn child(field: Field) -> Child {
    match field.tag {
        0x60 => Child::Text(text(field)),
        0x52 => Child::Container(container(field)),
        0x30 => Child::Element(element(field)),
        0x31 => Child::Fragment(fragment(field)),
        _ => Child::Spread(one_expression(field)),
    }
}

fn container(field: Field) -> Option<Expression> {
    field.inner().next().map(expression)
}

fn one_expression(field: Field) -> Expression {
    container(field).unwrap_or(Expression::Null)
}

fn expression(field: Field) -> Expression {
    match field.tag {
        0x70 => Expression::String(text(field)),
        0x71 => Expression::Number(field.whole_number()),
        0x72 => Expression::Boolean(field.body == [1]),
        0x74 => Expression::Literal(text(field)),
        0x75 => Expression::Minus(field.whole_number()),
        0x76 => Expression::Array(field.inner().map(array_item).collect()),
        0x79 => Expression::Other(pieces(field)),
        0x7a => Expression::Decimal(field.decimal()),
        0x7b => Expression::MinusDecimal(field.decimal()),
        0x30 => Expression::Element(element(field)),
        0x31 => Expression::Fragment(fragment(field)),
        _ => Expression::Null,
    }
}

fn array_item(field: Field) -> ArrayItem {
    match field.tag {
        0x77 => ArrayItem::Spread(one_expression(field)),
        0x78 => ArrayItem::Hole,
        _ => ArrayItem::Expression(expression(field)),
    }
}
