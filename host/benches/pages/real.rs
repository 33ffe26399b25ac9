//! Pages shaped like real code, and the same in sizes and depths.

use super::Set;
use oracle::answer::{MOST_DEPTH, MOST_PAGE};
use oracle::generate::rng::Rng;
use oracle::make::*;

/// Of a hundred pages half under 2 KB, a tenth over 14 KB, most of depth 8, some of depth 18.
pub fn mean(pages: usize) -> Set {
    let mut rng = Rng::new(1);
    let pages = (0..pages)
        .map(|i| {
            let bytes = match i % 100 {
                0..50 => rng.within(300, 1_700),
                50..90 => rng.within(2_000, 13_000),
                _ => rng.within(14_700, 30_000),
            };
            real(&mut rng, bytes, if i % 10 == 7 { 18 } else { 8 })
        })
        .collect();
    Set::of("mean", pages)
}

pub fn sizes() -> Vec<Set> {
    [1, 4, 16, 32]
        .map(|kilo| {
            let mut rng = Rng::new(2);
            let most = kilo * 1_024 - if kilo == 32 { 900 } else { 0 };
            let pages = (0..8).map(|_| real(&mut rng, most, 8)).collect();
            Set::of(&format!("{kilo} KB"), pages)
        })
        .into()
}

pub fn depths() -> Vec<Set> {
    [4, 16, MOST_DEPTH]
        .map(|depth| {
            let mut rng = Rng::new(3);
            let pages = (0..4).map(|_| real_deep(&mut rng, 16_000, depth)).collect();
            Set::of(&format!("depth {depth}"), pages)
        })
        .into()
}

/// The same items at the greatest depth, once and as often as a page holds them.
pub fn sizes_at_depth() -> Vec<Set> {
    [1, 4, 16, 32]
        .map(|kilo| {
            let mut rng = Rng::new(4);
            let items: Vec<_> = (0..kilo).map(|_| deep_item(&mut rng)).collect();
            Set::of(&format!("depth {MOST_DEPTH}, {kilo} KB"), vec![page(&items); 8])
        })
        .into()
}

/// About 1,000 bytes: source text, and elements in each other with a letter beside each.
fn deep_item(rng: &mut Rng) -> Vec<u8> {
    let tag = (0..MOST_DEPTH - 4).fold(element("b", &[]), |inner, _| element("div", &[text("a"), inner]));
    let source_text = words(rng, 990 - tag.len());
    export(&[source(&source_text), tag])
}

/// Items until the page has about that many bytes.
fn real(rng: &mut Rng, bytes: usize, depth: usize) -> Vec<u8> {
    let mut items = vec![statement(&[source(&words(rng, 120))])];
    let mut length = items[0].len() + 3;
    while length + 300 < bytes {
        let item = item(rng, bytes - length, depth);
        if length + item.len() > MOST_PAGE {
            break;
        }
        length += item.len();
        items.push(item);
    }
    page(&items)
}

/// A function with some tags between its source texts, or source text alone.
fn item(rng: &mut Rng, left: usize, depth: usize) -> Vec<u8> {
    if rng.chance(16) {
        let length = rng.within(60, 600).min(left);
        return statement(&[source(&words(rng, length))]);
    }
    let before = rng.within(60, 400).min(left / 2);
    let mut budget = (left / 370).clamp(1, 9);
    let tag = tag(rng, &mut budget, 3, depth);
    let after = rng.within(2, 20);
    export(&[source(&words(rng, before)), tag, source(&words(rng, after))])
}

/// One tag at that depth, and more below it while there is budget.
fn tag(rng: &mut Rng, budget: &mut usize, at: usize, depth: usize) -> Vec<u8> {
    *budget = budget.saturating_sub(1);
    if rng.chance(6) {
        return fragment(&children(rng, budget, at + 1, depth));
    }
    let name = if rng.chance(25) {
        rng.pick(&["Layout", "Button", "Icon.Small"])
    } else {
        rng.pick(&["div", "p", "span", "li", "a", "button", "section", "h1", "img"])
    };
    let mut parts = vec![];
    // no element has an attribute twice, nor `class` beside `className`
    let mut names = ATTRIBUTES.to_vec();
    for _ in 0..rng.weighted(&[13, 36, 34, 13, 6]) {
        let name = rng.pick(&names);
        names.retain(|other| *other != name && !(other.starts_with("class") && name.starts_with("class")));
        parts.push(real_attribute(rng, name));
    }
    if name != "img" {
        parts.extend(children(rng, budget, at + 1, depth));
    }
    element(name, &parts)
}

const ATTRIBUTES: [&str; 10] =
    ["class", "className", "href", "id", "onClick", "type", "disabled", "data-testid", "aria-label", "strokeWidth"];

fn real_attribute(rng: &mut Rng, name: &str) -> Vec<u8> {
    let length = rng.within(4, 40);
    match rng.weighted(&[55, 35, 5, 5]) {
        0 => attribute_string(name, &words(rng, length)),
        1 => {
            let length = rng.within(5, 220);
            attribute_with(name, braces(code(&words(rng, length))))
        }
        2 => attribute(name),
        _ => attribute_with(name, braces(string("plain"))),
    }
}

fn children(rng: &mut Rng, budget: &mut usize, at: usize, depth: usize) -> Vec<Vec<u8>> {
    let mut out = vec![];
    for _ in 0..rng.within(1, 3) {
        if *budget > 0 && at + 3 < depth {
            out.push(text("\n        "));
            if rng.chance(30) && at + 5 < depth {
                let length = rng.within(10, 400);
                let front = source(&words(rng, length));
                let inner = tag(rng, budget, at + 2, depth);
                out.push(braces(other(&[front, inner, source(")")])));
            } else {
                out.push(tag(rng, budget, at, depth));
            }
            out.push(text("\n      "));
        } else if rng.chance(50) {
            let length = rng.within(3, 60);
            out.push(text(&words(rng, length)));
        } else {
            let length = rng.within(4, 300);
            out.push(braces(code(&words(rng, length))));
        }
    }
    out
}

/// Chains of elements down to a depth, with a text and an attribute at each.
fn real_deep(rng: &mut Rng, bytes: usize, depth: usize) -> Vec<u8> {
    let mut items = vec![];
    let mut length = 0;
    while length < bytes {
        let mut tag = element("b", &[]);
        for _ in 5..depth {
            let n = rng.within(3, 30);
            let word = words(rng, n);
            tag = element("div", &[attribute_string("class", &word), text(&word), tag, text("\n  ")]);
        }
        if depth == 4 {
            tag = element("b", &[text(&words(rng, 20))]);
        }
        let n = rng.within(100, 500);
        let item = export(&[source(&words(rng, n)), tag]);
        length += item.len();
        items.push(item);
    }
    page(&items)
}

/// Source text or words of about that length.
fn words(rng: &mut Rng, length: usize) -> String {
    let mut out = String::new();
    while out.len() < length {
        out.push_str(rng.pick(&[
            "const ",
            "value",
            " = ",
            "item",
            "(x) => ",
            "return ",
            ";\n  ",
            "props.name",
            "{ a, b }",
            "one two ",
            "=== 1",
            " 'q' ",
        ]));
    }
    out.truncate(length);
    out
}
