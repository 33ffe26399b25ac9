//! Random names. The names that the Rust lists are read from its own source, so that all of them are met.

use super::rng::Rng;
use crate::SOURCE;
use std::sync::LazyLock;

fn body_of(function: &str) -> &'static str {
    let Some(start) = SOURCE.find(&format!("\nfn {function}(")) else { return "" };
    SOURCE[start..].split("\n}").next().unwrap_or("")
}

/// Every string in the body of a function of the source, in its order.
pub fn listed_in(function: &str) -> Vec<&'static str> {
    let code = body_of(function).lines().map(|line| line.split("//").next().unwrap_or(""));
    code.flat_map(|line| line.split('"').skip(1).step_by(2)).filter(|name| !name.is_empty()).collect()
}

/// The names of `normalize_dom_attr_name`, in its order.
pub struct AttributeNames {
    /// Singled out, and what each becomes.
    pub singled: Vec<(&'static str, &'static str)>,
    /// Those that become hyphenated, as they are written.
    pub hyphenated: Vec<&'static str>,
    /// Those that stay as they are.
    pub kept: Vec<&'static str>,
}

/// Read from the source by the comments that part its lists; nothing where the source is not there.
pub fn attribute_names() -> AttributeNames {
    let body = body_of("normalize_dom_attr_name");
    let behind = |comment: &str| -> Vec<&'static str> {
        let list = body.split_once(comment).map_or("", |(_, rest)| rest.split("=>").next().unwrap_or(""));
        list.split('"').skip(1).step_by(2).collect()
    };
    let singled = body.lines().filter_map(|line| line.trim().strip_prefix('"')?.split_once("\" => "));
    AttributeNames {
        singled: singled.map(|(name, to)| (name, to.split('"').nth(1).unwrap_or(name))).collect(),
        hyphenated: behind("// Attributes that are kebab-cased"),
        kept: behind("// Attributes that are camelCased"),
    }
}

struct Listed {
    attributes: Vec<&'static str>,
    boolean: Vec<&'static str>,
    void: Vec<&'static str>,
}

static LISTED: LazyLock<Listed> = LazyLock::new(|| {
    let or = |names: Vec<&'static str>, one| if names.is_empty() { vec![one] } else { names };
    let mut attributes = listed_in("normalize_dom_attr_name");
    attributes.retain(|name| is_name(name));
    Listed {
        attributes: or(attributes, "className"),
        boolean: or(listed_in("is_boolean_attr"), "disabled"),
        void: or(listed_in("is_void_element"), "br"),
    }
});

fn is_name(name: &str) -> bool {
    name.bytes().all(|c| c.is_ascii_alphanumeric() || c == b'-')
}

const TAGS: [&str; 10] = ["div", "p", "span", "i", "a", "b", "li", "my-tag", "_x", "$y"];
const ODD_TAGS: [&str; 6] = ["dIV", "a-B-9", "h1", "__proto__", "bRr", "sPAN"];
const COMPONENTS: [&str; 8] = ["Foo", "Bar", "B", "BR", "My-Part", "F1", "Br", "INPUT"];
const ATTRIBUTES: [&str; 20] = [
    "class",
    "className",
    "id",
    "title",
    "hidden",
    "data-x",
    "onClick",
    "href",
    "htmlFor",
    "style",
    "value",
    "a",
    "b",
    "Class",
    "children",
    "tabIndex",
    "$v",
    "_w",
    "viewbox",
    "xlink-href",
];
const SPACES: [&str; 6] = ["xlink", "xml", "svg", "a", "Xlink", "my-ns"];
const IN_SPACES: [&str; 9] = ["href", "lang", "title", "Href", "b", "role", "key", "x-Y", "base"];

pub fn tag(rng: &mut Rng) -> String {
    match rng.weighted(&[60, 20, 8, 10, 2]) {
        0 => rng.pick(&TAGS).to_string(),
        1 => rng.pick(&LISTED.void).to_string(),
        2 => rng.pick(&ODD_TAGS).to_string(),
        3 => any(rng).to_lowercase(),
        _ => long(rng),
    }
}

/// One of the void elements with a capital behind its first letter: void only in small letters (02, A10). Now and then
/// with something more, and so no longer void.
pub fn mixed_case_void(rng: &mut Rng) -> String {
    let name = rng.pick(&LISTED.void);
    let capital = rng.within(1, name.len() - 1);
    let mixed: String = name
        .bytes()
        .enumerate()
        .map(|(i, c)| char::from(if i == capital || i > 0 && rng.chance(30) { c.to_ascii_uppercase() } else { c }))
        .collect();
    if rng.chance(10) { mixed + rng.pick(&["s", "-", "1"]) } else { mixed }
}

pub fn component(rng: &mut Rng) -> String {
    rng.pick(&COMPONENTS).to_string()
}

/// The parts of a member name; `parts` of them.
pub fn member(rng: &mut Rng, parts: usize) -> Vec<String> {
    (0..parts).map(|_| rng.pick(&["a", "B", "ctx", "Provider", "$", "_1", "div"]).to_string()).collect()
}

pub fn namespaced(rng: &mut Rng) -> [String; 2] {
    [rng.pick(&SPACES).to_string(), rng.pick(&IN_SPACES).to_string()]
}

pub fn attribute(rng: &mut Rng) -> String {
    match rng.weighted(&[40, 20, 18, 12, 2, 7, 1]) {
        0 => rng.pick(&ATTRIBUTES).to_string(),
        1 => rng.pick(&LISTED.attributes).to_string(),
        2 => cased(rng, LISTED.boolean[..].to_vec()),
        3 => cased(rng, vec!["key", "ref"]),
        4 => "dangerouslySetInnerHTML".to_string(),
        5 => any(rng),
        _ => long(rng),
    }
}

/// The name as it is compared: normalised and in small letters; in small letters alone where the Rust is not there.
pub fn normalised(name: &str) -> String {
    let name = if crate::AVAILABLE { crate::private::normalize_dom_attr_name(name) } else { name.to_string() };
    name.to_ascii_lowercase()
}

/// Names that are normalised alike, or compared alike, or only nearly so.
const ALIKE: [&[&str]; 12] = [
    &["class", "className", "Class", "CLASSNAME", "classname"],
    &["for", "htmlFor", "htmlfor", "FOR"],
    &["href", "xlinkHref", "xlink:href", "Href", "xlinkhref", "Xlink:href"],
    &["viewBox", "viewbox", "VIEWBOX", "view-box"],
    &["xml:lang", "xmlLang", "xmllang", "XML:lang", "xml:Lang", "xml-lang"],
    &["xlink:title", "xlinkTitle", "xlinktitle", "title"],
    &["stroke-width", "strokeWidth", "strokewidth", "STROKE-WIDTH"],
    &["accept-charset", "acceptCharset", "acceptcharset"],
    &["panose1", "panose-1", "Panose1"],
    &["disabled", "DISABLED", "Disabled"],
    &["key", "Key", "KEY"],
    &["tabIndex", "tabindex", "tab-index"],
];

/// The name again: as written, in another case, or another one that goes with it.
pub fn again(rng: &mut Rng, name: &str) -> String {
    let same = |other: &str| normalised(other) == normalised(name);
    match ALIKE.iter().find(|row| row.iter().any(|other| same(other))) {
        Some(row) if rng.chance(60) => rng.pick(row).to_string(),
        _ => match rng.below(4) {
            0 => name.to_ascii_uppercase(),
            1 => name.to_ascii_lowercase(),
            2 => name.bytes().map(|c| char::from(if rng.chance(50) { c.to_ascii_uppercase() } else { c })).collect(),
            _ => name.to_string(),
        },
    }
}

pub fn key(rng: &mut Rng) -> String {
    cased(rng, vec!["key"])
}

/// One of the names, now and then with a capital or in capitals.
fn cased(rng: &mut Rng, names: Vec<&'static str>) -> String {
    let name = rng.pick(&names);
    match rng.below(10) {
        0 => name.to_uppercase(),
        1 => name[..1].to_uppercase() + &name[1..],
        _ => name.to_string(),
    }
}

fn any(rng: &mut Rng) -> String {
    let first = b"abcXYZ_$";
    let then = b"abcdefgXYZ_$0189-";
    let mut name = vec![first[rng.below(first.len())]];
    for _ in 0..rng.below(9) {
        name.push(then[rng.below(then.len())]);
    }
    String::from_utf8(name).expect("ASCII")
}

/// A name at or near the limit of 128 bytes, never over it.
fn long(rng: &mut Rng) -> String {
    let length = rng.within(120, 128);
    (0..length).map(|i| if i % 7 == 6 { 'Q' } else { 'n' }).collect()
}
