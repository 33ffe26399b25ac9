//! Demand 3 in 01's words, as checks on the bytes of both outputs up to their written ends. Nothing but the bytes is
//! looked at. 02, A6: where 01 says 80 it is 84, and each kind agrees with where its gap lies.

use crate::field::{self, Node};
use crate::generate::rng::Rng;
use std::collections::HashMap;

/// What is wrong with the outputs of an accepted page; `count` is what the answer says of them.
pub fn violation(templates: &[u8], page: &[u8], count: usize, rng: &mut Rng) -> Option<String> {
    check(templates, page, count, rng).err()
}

fn check(templates: &[u8], page: &[u8], count: usize, rng: &mut Rng) -> Result<(), String> {
    let shelf = field::read(templates).ok_or("shelf out is no row of fields")?;
    let page = field::read(page).ok_or("page out is no row of fields")?;
    ensure(shelf.iter().all(is_template), || "shelf out has more than templates".into())?;
    ensure(shelf.len() == count, || format!("{} templates, {count} answered", shelf.len()))?;
    let calls = calls(&page);
    numbers(&shelf, &calls)?;
    let by_number: HashMap<u32, &Node> = calls.iter().map(|call| (call.number(), *call)).collect();
    for template in &shelf {
        one_template(template, by_number[&template.number()], rng)?;
    }
    places(&page, count)?;
    helpers(&page)
}

fn ensure(holds: bool, words: impl FnOnce() -> String) -> Result<(), String> {
    if holds { Ok(()) } else { Err(words()) }
}

fn is_template(node: &Node) -> bool {
    node.tag == 0x84 && node.inner.iter().all(|n| n.tag == 0x81)
}

/// Every 90 at any depth.
fn calls(page: &[Node]) -> Vec<&Node> {
    let mut calls = vec![];
    each(page, |node| {
        if node.tag == 0x90 {
            calls.push(node);
        }
    });
    calls
}

fn each<'a>(row: &'a [Node], mut f: impl FnMut(&'a Node)) {
    for node in row {
        node.each(&mut f);
    }
}

/// The numbers 1 to the count are recorded once each and called once each, and no other.
fn numbers(shelf: &[Node], calls: &[&Node]) -> Result<(), String> {
    let sorted = |mut numbers: Vec<u32>| {
        numbers.sort();
        numbers
    };
    let expected: Vec<u32> = (1..=shelf.len() as u32).collect();
    let recorded = sorted(shelf.iter().map(Node::number).collect());
    ensure(recorded == expected, || format!("recorded {recorded:?}"))?;
    let called = sorted(calls.iter().map(|call| call.number()).collect());
    ensure(called == expected, || format!("called {called:?}"))
}

/// As many kinds as gaps, and one static string more; each gap in its place, which its kind tells; well nested when
/// filled.
fn one_template(template: &Node, call: &Node, rng: &mut Rng) -> Result<(), String> {
    let strings: Vec<&[u8]> = template.inner.iter().map(|s| &s.bytes[..]).collect();
    let gaps = &call.inner;
    let named = || format!("template {}", template.number());
    // The number, the count and as many kinds: read so by `field::front`.
    let kinds = &template.bytes[6..];
    ensure(kinds.len() == gaps.len(), || format!("{}: {} kinds, {} gaps", named(), kinds.len(), gaps.len()))?;
    ensure(strings.len() == gaps.len() + 1, || format!("{}: {} strings, {} gaps", named(), strings.len(), gaps.len()))?;
    let mut joined = vec![];
    let mut filled = vec![];
    for ((string, gap), kind) in strings.iter().zip(gaps).zip(kinds) {
        joined.extend(*string);
        filled.extend(*string);
        let inside = inside_opening_tag(&joined);
        let attribute = matches!(gap.tag, 0x91 | 0x93);
        ensure(inside == attribute, || format!("{}: a {:02x} where inside is {inside}", named(), gap.tag))?;
        ensure(*kind == if inside { 1 } else { 2 }, || format!("{}: kind {kind} where inside is {inside}", named()))?;
        if attribute { attribute_filling(rng, &mut filled) } else { child_filling(rng, &mut filled, 2) }
    }
    filled.extend(*strings.last().expect("one more than gaps"));
    ensure(well_nested(&filled), || format!("{}: filled {:?}", named(), String::from_utf8_lossy(&filled)))
}

/// The last `<` has no `>` anywhere behind it and no `/` right behind it.
fn inside_opening_tag(joined: &[u8]) -> bool {
    joined.iter().rposition(|c| *c == b'<').is_some_and(|at| {
        let behind = &joined[at + 1..];
        !behind.contains(&b'>') && behind.first() != Some(&b'/')
    })
}

fn attribute_filling(rng: &mut Rng, out: &mut Vec<u8>) {
    let fillings = ["", "a", "class=\"x\"", " ", "/", "a=\"&lt;\" b", "\u{e9}", "//", "disabled"];
    out.extend(rng.pick(&fillings).bytes());
}

/// Text that is well nested by itself.
fn child_filling(rng: &mut Rng, out: &mut Vec<u8>, depth: usize) {
    for _ in 0..rng.below(3) {
        match rng.below(if depth == 0 { 2 } else { 4 }) {
            0 => out.extend(rng.pick(&["", "text", "&lt;", " ", "/", "\u{1f600}"]).bytes()),
            1 => out.extend(rng.pick(&["<br>", "<img src=\"a\">", "<param>", "<BR>", "<iMg a>"]).bytes()),
            _ => {
                let (name, again) = rng.pick(&[&("p", "p"), &("i", "I"), &("x-y", "X-y"), &("Div", "dIV")]);
                out.extend(format!("<{name} a=\"b\">").bytes());
                child_filling(rng, out, depth - 1);
                out.extend(format!("</{again}>").bytes());
            }
        }
    }
}

const VOID: [&str; 14] =
    ["area", "base", "br", "col", "embed", "hr", "img", "input", "link", "meta", "param", "source", "track", "wbr"];

/// 01: `<` and `>` alternate, `<` first and `>` last; every open name but the 14 is closed, the last opened first. 02, A10:
/// names are compared in small letters, with the 14 too.
pub fn well_nested(text: &[u8]) -> bool {
    let mut open: Vec<&[u8]> = vec![];
    let mut rest = text;
    while let Some(start) = rest.iter().position(|c| *c == b'<') {
        if rest[..start].contains(&b'>') {
            return false;
        }
        let Some(end) = rest[start..].iter().position(|c| *c == b'>') else { return false };
        let tag = &rest[start + 1..start + end];
        if tag.contains(&b'<') {
            return false;
        }
        match tag.strip_prefix(b"/") {
            Some(closing) if !open.pop().is_some_and(|name| name.eq_ignore_ascii_case(name_of(closing))) => {
                return false;
            }
            Some(_) => {}
            None if VOID.iter().any(|v| v.as_bytes().eq_ignore_ascii_case(name_of(tag))) => {}
            None => open.push(name_of(tag)),
        }
        rest = &rest[start + end + 1..];
    }
    open.is_empty() && !rest.contains(&b'>')
}

/// A name runs to a space or the end of the tag.
fn name_of(tag: &[u8]) -> &[u8] {
    &tag[..tag.iter().position(|c| *c == b' ').unwrap_or(tag.len())]
}

/// 82 at most once and first, 83 exactly where there are templates: before the first 10 or 12, else before all items.
/// No 30 or 31 anywhere.
fn places(page: &[Node], count: usize) -> Result<(), String> {
    let mut tags: Vec<u8> = page.iter().map(|n| n.tag).collect();
    if tags.first() == Some(&0x82) {
        tags.remove(0);
    }
    let place = tags.iter().position(|t| *t == 0x83);
    if let Some(place) = place {
        tags.remove(place);
    }
    ensure(tags.iter().all(|t| matches!(t, 0x10..=0x13)), || format!("parts {tags:02x?}"))?;
    let due = (count > 0).then(|| tags.iter().position(|t| matches!(t, 0x10 | 0x12)).unwrap_or(0));
    ensure(place == due, || format!("83 at {place:?}, due at {due:?}"))?;
    let mut left = 0;
    each(page, |node| left += usize::from(matches!(node.tag, 0x30 | 0x31)));
    ensure(left == 0, || "a tag is left".into())
}

/// The sum in 82 counts a helper exactly when its field stands somewhere; no 82 without a helper.
fn helpers(page: &[Node]) -> Result<(), String> {
    let mut called = 0;
    each(page, |node| {
        called |= match node.tag {
            0x94 => 1,
            0x90 => 2,
            0x91 => 4,
            0x92 => 8,
            _ => 0,
        }
    });
    let imported = page.first().filter(|n| n.tag == 0x82).map_or(0, |n| n.bytes[0]);
    let stands = page.first().is_some_and(|n| n.tag == 0x82);
    ensure(called == imported && stands == (called != 0), || format!("called {called}, imported {imported}"))
}
