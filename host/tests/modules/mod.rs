//! Pages whose source text is JavaScript, and their modules by another printer: one that puts everything in parentheses.

use jsx_precompile::page::*;
use jsx_precompile::{Decimal, Forms, out};
use oracle::generate::rng::Rng;

/// A page that makes a value `r`.
pub fn page(rng: &mut Rng) -> Page {
    let mut pieces: Vec<Piece> = vec!["r = ".into()];
    pieces.extend(within_source(rng, 4));
    pieces.push(";".into());
    Page::new([Item::statement(pieces)])
}

const SOURCES: [&str; 24] = [
    "a",
    "a.toFixed",
    "f(a, b)",
    "a, b",
    "a ? b : c",
    "x = b",
    "a + b",
    "!a",
    "typeof a",
    "() => a",
    "(x, y) => ({ x, y })",
    "function (x) { return x; }",
    "{ a, b: 2 }",
    "[a, , b]",
    "/a,b/g",
    "a / b / c",
    "`a${b},`",
    "'a, \\' b'",
    "\"https://a\" + b",
    "a // , b",
    "a /* ( */",
    "a\n  + b",
    "new Map([[a, b]])",
    "(a, b)",
];

/// Source text with a tag in it.
const AROUND: [(&str, &str); 16] = [
    ("", ""),
    ("f(", ")"),
    ("a, ", ""),
    ("", ", a"),
    ("a ? ", " : b"),
    ("", " || b"),
    ("x => ", ""),
    ("[0, 1].map((n) =>", ")"),
    ("`${", "}`"),
    ("(() => {\n  return", "\n})()"),
    ("{ a: ", ", b }"),
    ("typeof", ""),
    ("", ".length"),
    ("", "in { a }"),
    ("[", ", ...[1], ]"),
    ("f(a, /* ( */ ", " // )\n)"),
];

fn within_source(rng: &mut Rng, depth: usize) -> Vec<Piece> {
    let (before, behind) = AROUND[rng.below(AROUND.len())];
    vec![before.into(), tag(rng, depth), behind.into()]
}

fn tag(rng: &mut Rng, depth: usize) -> Piece {
    match rng.chance(20) {
        true => children(rng, depth).into_iter().fold(Fragment::new(), Fragment::child).into(),
        false => element(rng, depth).into(),
    }
}

fn element(rng: &mut Rng, depth: usize) -> Element {
    let mut element = Element::new(rng.pick(&["p", "br", "Foo", "Foo.Bar", "Foo-bar", "a:b"]));
    for name in ["title", "disabled", "b-c", "key", "__proto__", "xml:lang"] {
        if rng.chance(25) {
            element = match rng.below(6) {
                0 => element.valueless(name),
                1 => element.attribute(name, "a \"b\" \u{2028}\n c"),
                _ => element.attribute(name, expression(rng, depth)),
            };
        }
    }
    if rng.chance(15) {
        element = element.spread(expression(rng, depth));
    }
    children(rng, depth).into_iter().fold(element, Element::child)
}

fn children(rng: &mut Rng, depth: usize) -> Vec<Child> {
    (0..rng.below(4))
        .map(|_| match rng.below(if depth == 0 { 3 } else { 5 }) {
            0 => Child::Text(" a < b \n c ".to_string()),
            1 => Child::Container(None),
            2 => expression(rng, depth.saturating_sub(1)).into(),
            3 => element(rng, depth - 1).into(),
            _ => children(rng, depth - 1).into_iter().fold(Fragment::new(), Fragment::child).into(),
        })
        .collect()
}

fn expression(rng: &mut Rng, depth: usize) -> Expression {
    match rng.below(if depth == 0 { 13 } else { 17 }) {
        0 => Expression::String("a\"\\\u{2029}\0".to_string()),
        1 => Expression::Number(7),
        2 => Expression::Minus(rng.below(2) as u64),
        3 => Expression::Boolean(rng.chance(50)),
        4 => Expression::Null,
        5 => Expression::Literal(rng.pick(&["/a,b/g", "5n"]).to_string()),
        6 => Expression::decimal(rng.below(2000) as u64, rng.below(4) as u8).expect("within its limits"),
        7 => Expression::parse_decimal(rng.pick(&["-0.0", "-0.05", "-12.50"])).expect("a decimal"),
        8..13 => Expression::source(SOURCES[rng.below(SOURCES.len())]),
        13 => Expression::Array((0..rng.below(4)).map(|_| array_item(rng, depth - 1)).collect()),
        14 => match tag(rng, depth - 1) {
            Piece::Element(element) => element.into(),
            Piece::Fragment(fragment) => fragment.into(),
            Piece::Source(text) => Expression::source(text),
        },
        _ => Expression::Other(within_source(rng, depth - 1)),
    }
}

fn array_item(rng: &mut Rng, depth: usize) -> ArrayItem {
    match rng.below(4) {
        0 => ArrayItem::Hole,
        1 => ArrayItem::Spread(Expression::Array(vec![expression(rng, depth).into()])),
        _ => expression(rng, depth).into(),
    }
}

/// The module of the outputs without its import, everything in parentheses.
pub fn in_parentheses(forms: &Forms) -> String {
    let mut text = String::new();
    for item in forms.page().items() {
        match item {
            out::Item::Import(_) => {}
            out::Item::Templates => {
                for template in forms.templates() {
                    let strings: Vec<_> = template.strings().map(quoted).collect();
                    text += &format!("const $$_tpl_{} = [{}];\n", template.number(), strings.join(","));
                }
            }
            out::Item::Empty => text += ";\n",
            out::Item::Export(inside) | out::Item::Declaration(inside) | out::Item::Statement(inside) => {
                text += &pieces(inside);
                text += "\n";
            }
        }
    }
    text
}

fn pieces<'a>(all: impl Iterator<Item = out::Piece<'a>>) -> String {
    let one = |piece| match piece {
        out::Piece::Source(text) => text.to_string(),
        out::Piece::Expression(inside) => format!(" {} ", value(inside)),
    };
    all.map(one).collect()
}

fn value(expression: out::Expression) -> String {
    let inside = match expression {
        out::Expression::String(text) => quoted(text),
        out::Expression::Number(number) => number.to_string(),
        out::Expression::Boolean(value) => value.to_string(),
        out::Expression::Null => "null".to_string(),
        out::Expression::Literal(text) => text.to_string(),
        out::Expression::Minus(number) => format!("-{number}"),
        out::Expression::Array(items) => {
            let item = |item| match item {
                out::ArrayItem::Expression(inside) => format!("{},", value(inside)),
                out::ArrayItem::Spread(inside) => format!("...{},", value(inside)),
                out::ArrayItem::Hole => ",".to_string(),
            };
            format!("[{}]", items.map(item).collect::<String>())
        }
        out::Expression::Other(inside) => pieces(inside),
        out::Expression::Decimal(decimal) => exponent(decimal),
        out::Expression::MinusDecimal(decimal) => format!("-{}", exponent(decimal)),
        out::Expression::Call(inside) => call(inside),
    };
    format!("({inside}\n)")
}

/// A decimal by another way than the printer's.
fn exponent(decimal: Decimal) -> String {
    format!("{}e-{}", decimal.digits(), decimal.places())
}

fn call(call: out::Call) -> String {
    match call {
        out::Call::Template(call) => {
            let values: String = call.expressions().map(|inside| format!(",{}", value(inside))).collect();
            format!("_jsxTemplate($$_tpl_{}{values})", call.number())
        }
        out::Call::Attr(call) => format!("_jsxAttr({},{})", quoted(call.name()), value(call.value())),
        out::Call::Escape(call) => format!("_jsxEscape({})", value(call.value())),
        out::Call::Choice(choice) => format!("{}?{}:\"\"", value(choice.condition()), quoted(choice.name())),
        out::Call::Jsx(call) => {
            let name = match call.name() {
                out::CalledName::Tag(name) => quoted(name),
                out::CalledName::Identifier(name) if name.contains('-') => quoted(name),
                out::CalledName::Identifier(name) => name.to_string(),
                out::CalledName::Member(names) => names.collect::<Vec<_>>().join("."),
            };
            let prop = |prop| match prop {
                out::Prop::Named(name, inside) => format!("[{}]:{},", quoted(name), value(inside)),
                out::Prop::Spread(inside) => format!("...{},", value(inside)),
            };
            let props =
                call.props().map_or("null".to_string(), |props| format!("{{{}}}", props.map(prop).collect::<String>()));
            let key = call.key().map_or(String::new(), |key| format!(",{}", value(key)));
            format!("_jsx({name},{props}{key})")
        }
    }
}

/// A text as JavaScript has it, by another way than the printer's.
pub fn quoted(text: &str) -> String {
    let units = text.encode_utf16().map(|unit| format!("\\u{unit:04x}"));
    format!("\"{}\"", units.collect::<String>())
}
