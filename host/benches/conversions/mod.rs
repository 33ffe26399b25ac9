//! Templates and page outs to measure conversions on: what the transform makes of pages shaped like real code, by size, and
//! the densest that a body has room for. Each goes both ways.

use super::pages::usual;
use jsx_precompile::field::Fields;
use jsx_precompile::limits::MAX_BODY;
use jsx_precompile::{Options, transform};
use oracle::make::{field, null, row, statement, string_out, template, template_call};
use oracle::outs::convert::{Way, outcome};

pub struct Conversion {
    pub name: String,
    pub way: Way,
    pub templates: Vec<u8>,
    pub page: Vec<u8>,
}

pub fn all() -> Vec<Conversion> {
    let mut pairs: Vec<(String, Vec<u8>, Vec<u8>)> = vec![];
    for (size, least) in [("1 KB", 1_024), ("8 KB", 8_192), ("64 KB", 65_536)] {
        let (templates, page) = real(least);
        pairs.push((format!("components, {size}"), templates, page));
    }
    pairs.extend(densest().into_iter().map(|(name, templates, page)| (name.to_string(), templates, page)));
    pairs.into_iter().flat_map(|(name, templates, page)| both_ways(&name, templates, page)).collect()
}

fn both_ways(name: &str, templates: Vec<u8>, page: Vec<u8>) -> [Conversion; 2] {
    let old = outcome(Way::Down, &templates, &page).unwrap_or_else(|refusal| panic!("{name}: {refusal:?}"));
    let named = |way: Way, templates, page| Conversion { name: format!("{name}, {way:?}"), way, templates, page };
    [named(Way::Up, old.templates, old.page), named(Way::Down, templates, page)]
}

/// Both outs of real pages, as many as make up so many bytes.
fn real(least: usize) -> (Vec<u8>, Vec<u8>) {
    let (mut templates, mut page) = (vec![], vec![]);
    let sets = usual(1_000);
    for bytes in sets[0].pages.iter().cycle() {
        if templates.len() + page.len() >= least {
            break;
        }
        let forms = transform(bytes, &Options::new()).expect("a page that is taken");
        templates.extend(forms.templates_bytes());
        for item in Fields::new(forms.page_bytes()) {
            // The import stands once, and the place of the templates would.
            if matches!(item.tag, 0x10 | 0x12) || page.is_empty() && item.tag == 0x82 {
                page.extend(field(item.tag, item.body));
            }
        }
    }
    (templates, page)
}

/// One thing as often as there is room for it in a body.
fn densest() -> Vec<(&'static str, Vec<u8>, Vec<u8>)> {
    let items = |one: Vec<u8>| statement(&vec![one.clone(); MAX_BODY / one.len()]);
    let page = |name, one: Vec<u8>| (name, vec![], items(one));
    let strings = |count: usize, text: &str| template(1, &vec![2; count - 1], &vec![text; count]);
    vec![
        page("nulls", null()),
        page("calls", template_call(1, &[])),
        page("calls with a null", template_call(1, &[null()])),
        page("calls of jsx", row(0x94, &[string_out("p"), null()])),
        page("members", row(0x94, &[row(0x41, &[field(0x40, b"a"), field(0x40, b"a")]), null()])),
        page("numbers", field(0x71, &[0; 8])),
        ("one text", vec![], statement(&[field(0x20, &[b'a'; MAX_BODY - 3])])),
        ("one text beyond ASCII", vec![], statement(&[field(0x20, "\u{e9}".repeat(32_766).as_bytes())])),
        ("nested arrays", vec![], nested(MAX_BODY / 3, &[], 0x76)),
        ("nested expressions", vec![], nested(MAX_BODY / 3, &[], 0x79)),
        ("nested calls", vec![], nested(MAX_BODY / 7, &[0, 0, 0, 1], 0x90)),
        ("short templates", template(1, &[], &[""]).repeat(5_461), vec![]),
        ("templates of gaps", strings(16_382, ""), vec![]),
        // Before a gap, so that they are looked through for its kind.
        ("templates of tags", template(1, &[2], &[&"<>".repeat(32_761), ""]), vec![]),
        ("templates of a text", template(1, &[2], &[&"a".repeat(65_522), ""]), vec![]),
        ("templates of a text behind a gap", template(1, &[2], &["", &"a".repeat(65_522)]), vec![]),
    ]
}

/// An item of fields with this front within each other.
fn nested(count: usize, front: &[u8], tag: u8) -> Vec<u8> {
    let level = 3 + front.len();
    let mut bytes = vec![0x12];
    bytes.extend(((count * level) as u16).to_be_bytes());
    for left in (0..count).rev() {
        bytes.push(tag);
        bytes.extend(((left * level + front.len()) as u16).to_be_bytes());
        bytes.extend(front);
    }
    bytes
}
