//! 01, The card: the printed text of a page without options, with 65,536 bytes lent for each out.

use crate::answer::LEAST_SCRATCH;
use crate::decimal::{Decimal, is_decimal};
use crate::field::{self, Node};
use crate::judge::judge;

const LENT: usize = 65_536;

/// The names of the helpers in the order of the sum in 82.
pub const HELPERS: [(u8, &str); 4] = [(1, "jsx"), (2, "jsxTemplate"), (4, "jsxAttr"), (8, "jsxEscape")];

/// What the program prints for the page on its standard input.
pub fn card(page: &[u8]) -> Vec<u8> {
    let mut scratch = vec![0; LEAST_SCRATCH];
    let mut templates = vec![0; LENT];
    let mut out = vec![0; LENT];
    let answer = judge(page, &[], &mut scratch, &mut templates, &mut out);
    if answer.number != 0 {
        return format!("{}\n", answer.number).into_bytes();
    }
    printed(&templates[..answer.templates_bytes], &out[..answer.page_bytes])
}

/// The text of both outputs of an accepted page.
pub fn printed(templates: &[u8], page: &[u8]) -> Vec<u8> {
    let templates = field::read(templates).expect("shelf out is a row of fields");
    let page = field::read(page).expect("page out is a row of fields");
    let mut out = vec![];
    for part in &page {
        match part.tag {
            0x82 => import(&mut out, part),
            0x83 => templates.iter().for_each(|t| template(&mut out, t)),
            0x13 => out.extend(b";\n"),
            _ => {
                part.inner.iter().for_each(|piece| expression(&mut out, piece));
                out.push(b'\n');
            }
        }
    }
    out
}

fn import(out: &mut Vec<u8>, import: &Node) {
    let named = HELPERS.iter().filter(|(bit, _)| import.bytes[0] & bit != 0);
    let named: Vec<String> = named.map(|(_, name)| format!("{name} as _{name}")).collect();
    out.extend(format!("import {{ {} }} from ", named.join(", ")).bytes());
    string(out, &import.inner[0].bytes);
    out.extend(b";\n");
}

fn template(out: &mut Vec<u8>, template: &Node) {
    out.extend(b"const ");
    template_name(out, template);
    out.extend(b" = [");
    row(out, &template.inner, |out, strip| string(out, &strip.bytes));
    out.extend(b"];\n");
}

fn template_name(out: &mut Vec<u8>, node: &Node) {
    out.extend(format!("$$_tpl_{}", node.number()).bytes());
}

fn row(out: &mut Vec<u8>, nodes: &[Node], mut each: impl FnMut(&mut Vec<u8>, &Node)) {
    for (i, node) in nodes.iter().enumerate() {
        if i > 0 {
            out.extend(b", ");
        }
        each(out, node);
    }
}

fn string(out: &mut Vec<u8>, text: &[u8]) {
    out.push(b'"');
    for c in text {
        match c {
            b'"' => out.extend(b"\\\""),
            b'\\' => out.extend(b"\\\\"),
            b'\n' => out.extend(b"\\n"),
            b'\r' => out.extend(b"\\r"),
            0x00..0x20 | 0x7f => out.extend(format!("\\x{c:02x}").bytes()),
            _ => out.push(*c),
        }
    }
    out.push(b'"');
}

fn expression(out: &mut Vec<u8>, node: &Node) {
    match node.tag {
        0x20 | 0x40 | 0x74 => out.extend(&node.bytes),
        0x41 => {
            let names: Vec<&[u8]> = node.inner.iter().map(|n| &n.bytes[..]).collect();
            out.extend(names.join(&b'.'));
        }
        0x70 | 0x81 => string(out, &node.bytes),
        0x71 | 0x7a => number(out, node),
        0x72 => out.extend(if node.bytes == [1] { &b"true"[..] } else { b"false" }),
        0x73 => out.extend(b"null"),
        0x75 | 0x7b => {
            out.push(b'-');
            number(out, node);
        }
        0x76 => {
            out.push(b'[');
            row(out, &node.inner, expression);
            out.push(b']');
        }
        0x53 | 0x77 => {
            out.extend(b"...");
            expression(out, &node.inner[0]);
        }
        0x78 => {}
        0x79 => node.inner.iter().for_each(|piece| expression(out, piece)),
        0x90 => {
            out.extend(b"_jsxTemplate(");
            template_name(out, node);
            for gap in &node.inner {
                out.extend(b", ");
                expression(out, gap);
            }
            out.push(b')');
        }
        0x91 => call(out, "_jsxAttr", node),
        0x92 => call(out, "_jsxEscape", node),
        0x93 => {
            expression(out, &node.inner[0]);
            out.extend(b" ? ");
            string(out, &node.inner[1].bytes);
            out.extend(b" : \"\"");
        }
        0x94 => call(out, "_jsx", node),
        0x95 => {
            out.extend(b"{ ");
            row(out, &node.inner, expression);
            out.extend(b" }");
        }
        0x96 => {
            prop_name(out, &node.inner[0].bytes);
            out.extend(b": ");
            expression(out, &node.inner[1]);
        }
        other => panic!("field {other:02x} does not stand in a page out"),
    }
}

fn number(out: &mut Vec<u8>, node: &Node) {
    if is_decimal(node.tag) {
        return out.extend(Decimal::read(&node.bytes).expect("page out has decimals of pages").written().bytes());
    }
    let value = u64::from_be_bytes(node.bytes[..].try_into().expect("a number has eight bytes"));
    out.extend(value.to_string().bytes());
}

fn call(out: &mut Vec<u8>, name: &str, node: &Node) {
    out.extend(name.bytes());
    out.push(b'(');
    row(out, &node.inner, expression);
    out.push(b')');
}

/// An identifier stands bare (a letter, `_` or `$`, then also digits), any other name in quotes.
fn prop_name(out: &mut Vec<u8>, name: &[u8]) {
    let starts = |c: &u8| c.is_ascii_alphabetic() || *c == b'_' || *c == b'$';
    let bare = name.first().is_some_and(starts) && name.iter().all(|c| starts(c) || c.is_ascii_digit());
    if bare { out.extend(name) } else { string(out, name) }
}
