//! The bytes of both outputs again, from nothing but what the typed readers give.

use jsx_precompile::Decimal;
use jsx_precompile::out::*;
use oracle::make::{field, row};

pub fn templates(templates: Templates) -> Vec<u8> {
    let one = |template: Template| {
        let strings: Vec<u8> = template.strings().flat_map(|string| field(0x81, string.as_bytes())).collect();
        let number = template.number().to_be_bytes();
        let Some(kinds) = template.kinds() else { return field(0x80, &[&number[2..], &strings].concat()) };
        let count = u16::try_from(kinds.len()).expect("a count").to_be_bytes();
        let kinds: Vec<u8> = kinds.map(|kind| kind as u8).collect();
        field(0x84, &[&number[..], &count, &kinds, &strings].concat())
    };
    templates.flat_map(one).collect()
}

pub fn page(page: PageOut) -> Vec<u8> {
    page.items().flat_map(item).collect()
}

fn item(item: Item) -> Vec<u8> {
    match item {
        Item::Import(import) => {
            let sum: u8 = import.helpers().map(|helper| helper as u8).sum();
            assert_eq!(sum, import.sum);
            field(0x82, &[field(0x81, import.source.as_bytes()), vec![sum]].concat())
        }
        Item::Templates => field(0x83, &[]),
        Item::Export(inside) => pieces(0x10, inside),
        Item::Declaration(inside) => pieces(0x11, inside),
        Item::Statement(inside) => pieces(0x12, inside),
        Item::Empty => field(0x13, &[]),
    }
}

fn pieces(tag: u8, pieces: Series<Piece>) -> Vec<u8> {
    let one = |piece| match piece {
        Piece::Source(text) => field(0x20, text.as_bytes()),
        Piece::Expression(inside) => expression(inside),
    };
    row(tag, &pieces.map(one).collect::<Vec<_>>())
}

fn expression(expression: Expression) -> Vec<u8> {
    match expression {
        Expression::String(text) => field(0x70, text.as_bytes()),
        Expression::Number(number) => field(0x71, &number.to_be_bytes()),
        Expression::Boolean(value) => field(0x72, &[value.into()]),
        Expression::Null => field(0x73, &[]),
        Expression::Literal(text) => field(0x74, text.as_bytes()),
        Expression::Minus(number) => field(0x75, &number.to_be_bytes()),
        Expression::Array(items) => row(0x76, &items.map(array_item).collect::<Vec<_>>()),
        Expression::Other(inside) => pieces(0x79, inside),
        Expression::Decimal(decimal) => field(0x7a, &decimal_body(decimal)),
        Expression::MinusDecimal(decimal) => field(0x7b, &decimal_body(decimal)),
        Expression::Call(inside) => call(inside),
    }
}

fn decimal_body(decimal: Decimal) -> Vec<u8> {
    [&decimal.digits().to_be_bytes()[..], &[decimal.places()]].concat()
}

fn array_item(item: ArrayItem) -> Vec<u8> {
    match item {
        ArrayItem::Expression(inside) => expression(inside),
        ArrayItem::Spread(inside) => field(0x77, &expression(inside)),
        ArrayItem::Hole => field(0x78, &[]),
    }
}

fn call(call: Call) -> Vec<u8> {
    let string = |text: &str| field(0x81, text.as_bytes());
    match call {
        Call::Template(call) => {
            let inside: Vec<u8> = call.expressions().flat_map(expression).collect();
            field(0x90, &[&call.number().to_be_bytes()[..], &inside].concat())
        }
        Call::Attr(call) => row(0x91, &[string(call.name()), expression(call.value())]),
        Call::Escape(call) => field(0x92, &expression(call.value())),
        Call::Choice(choice) => row(0x93, &[expression(choice.condition()), string(choice.name())]),
        Call::Jsx(call) => {
            let identifier = |name: &str| field(0x40, name.as_bytes());
            let name = match call.name() {
                CalledName::Tag(name) => string(name),
                CalledName::Identifier(name) => identifier(name),
                CalledName::Member(names) => row(0x41, &names.map(identifier).collect::<Vec<_>>()),
            };
            let props = match call.props() {
                None => field(0x73, &[]),
                Some(props) => row(0x95, &props.map(prop).collect::<Vec<_>>()),
            };
            row(0x94, &[name, props, call.key().map_or(vec![], expression)])
        }
    }
}

fn prop(prop: Prop) -> Vec<u8> {
    match prop {
        Prop::Named(name, value) => row(0x96, &[field(0x81, name.as_bytes()), expression(value)]),
        Prop::Spread(inside) => field(0x53, &expression(inside)),
    }
}
