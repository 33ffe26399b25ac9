//! A tree as the JSX that a parser reads it from: one space before an attribute, one line for an item, strings in
//! double quotes. Spaces and line ends between tags are texts of the tree.

use super::*;

pub(super) fn item(item: &Item) -> String {
    match item {
        Item::Export(inside) | Item::Declaration(inside) | Item::Statement(inside) => pieces(inside),
        Item::Empty => ";".to_string(),
    }
}

fn pieces(pieces: &[Piece]) -> String {
    let one = |piece: &Piece| match piece {
        Piece::Source(text) => text.clone(),
        Piece::Element(inside) => element(inside),
        Piece::Fragment(inside) => fragment(inside),
    };
    pieces.iter().map(one).collect()
}

fn element(element: &Element) -> String {
    let name = match &element.name {
        ElementName::Identifier(name) => name.clone(),
        ElementName::Member(names) => names.join("."),
        ElementName::Namespaced(space, name) => format!("{space}:{name}"),
    };
    let attributes: String = element.attributes.iter().map(|one| format!(" {}", attribute(one))).collect();
    match &element.children[..] {
        [] => format!("<{name}{attributes}/>"),
        children => format!("<{name}{attributes}>{}</{name}>", all(children)),
    }
}

fn fragment(fragment: &Fragment) -> String {
    format!("<>{}</>", all(&fragment.children))
}

fn attribute(attribute: &Attribute) -> String {
    let (name, value) = match attribute {
        Attribute::Spread(inside) => return format!("{{...{}}}", expression(inside)),
        Attribute::Named(AttributeName::Identifier(name), value) => (name.clone(), value),
        Attribute::Named(AttributeName::Namespaced(space, name), value) => (format!("{space}:{name}"), value),
    };
    match value {
        None => name,
        Some(Value::String(text)) => format!("{name}=\"{}\"", references(text, "&\"")),
        Some(Value::Container(inside)) => format!("{name}={}", braces(inside.as_ref())),
        Some(Value::Element(inside)) => format!("{name}={}", element(inside)),
        Some(Value::Fragment(inside)) => format!("{name}={}", fragment(inside)),
    }
}

fn all(children: &[Child]) -> String {
    let one = |child: &Child| match child {
        Child::Text(text) => references(text, "&<>{}"),
        Child::Container(inside) => braces(inside.as_ref()),
        Child::Element(inside) => element(inside),
        Child::Fragment(inside) => fragment(inside),
        Child::Spread(inside) => format!("{{...{}}}", expression(inside)),
    };
    children.iter().map(one).collect()
}

fn braces(inside: Option<&Expression>) -> String {
    format!("{{{}}}", inside.map_or(String::new(), expression))
}

/// The signs among `these`, and those that cannot be seen, as character references.
fn references(text: &str, these: &str) -> String {
    let one = |sign: char| match sign {
        '&' => "&amp;".to_string(),
        '<' if these.contains('<') => "&lt;".to_string(),
        '>' if these.contains('>') => "&gt;".to_string(),
        '"' if these.contains('"') => "&quot;".to_string(),
        '\u{a0}' => "&nbsp;".to_string(),
        '\n' => sign.to_string(),
        _ if these.contains(sign) || sign.is_control() => format!("&#{};", u32::from(sign)),
        _ => sign.to_string(),
    };
    text.chars().map(one).collect()
}

fn expression(inside: &Expression) -> String {
    match inside {
        Expression::String(text) => string(text),
        Expression::Number(number) => number.to_string(),
        Expression::Boolean(value) => value.to_string(),
        Expression::Null => "null".to_string(),
        Expression::Literal(source) => source.clone(),
        Expression::Minus(number) => format!("-{number}"),
        Expression::Array(items) => {
            // A comma behind the last item makes no hole, so a hole at the end has one of its own.
            let end = if items.last() == Some(&ArrayItem::Hole) { "," } else { "" };
            format!("[{}{end}]", items.iter().map(array_item).collect::<Vec<_>>().join(", "))
        }
        Expression::Other(inside) => pieces(inside),
        Expression::Decimal(decimal) => decimal.to_string(),
        Expression::MinusDecimal(decimal) => format!("-{decimal}"),
        Expression::Element(inside) => element(inside),
        Expression::Fragment(inside) => fragment(inside),
    }
}

fn array_item(item: &ArrayItem) -> String {
    match item {
        ArrayItem::Expression(inside) => expression(inside),
        ArrayItem::Spread(inside) => format!("...{}", expression(inside)),
        ArrayItem::Hole => String::new(),
    }
}

fn string(text: &str) -> String {
    let one = |sign: char| match sign {
        '"' => "\\\"".to_string(),
        '\\' => "\\\\".to_string(),
        '\n' => "\\n".to_string(),
        '\r' => "\\r".to_string(),
        '\t' => "\\t".to_string(),
        _ if sign.is_ascii_control() => format!("\\x{:02x}", u32::from(sign)),
        _ => sign.to_string(),
    };
    format!("\"{}\"", text.chars().map(one).collect::<String>())
}
