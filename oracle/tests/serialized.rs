//! The copy that notes what it serializes: one line of it is another, it gives what the judge gives, and its notes are the
//! elements that stand in the templates.

#[path = "../build/fill_todo.rs"]
mod fill_todo;
#[path = "../build/note_serialized.rs"]
mod note_serialized;

use oracle::decode::decode;
use oracle::judge::{outcome_and_copy, outcome_with};
use oracle::make::*;
use oracle::serialized::{Element, elements, refusal};
use oracle::transform::Copy;
use oracle::{Refusal, SOURCE, field, generate, kept, marks, outcome, private, sums};

#[test]
#[cfg_attr(not(jsx_source), ignore = "jsx_precompile.rs is not there")]
fn one_line_of_the_patched_source_differs() {
    let patched = fill_todo::filled(SOURCE).unwrap();
    let noting = note_serialized::noting(&patched).unwrap();
    let differing: Vec<&str> =
        patched.lines().zip(noting.lines()).filter(|(a, b)| a != b).map(|(a, _)| a.trim()).collect();
    assert_eq!(differing, ["strings.last_mut().unwrap().push('<');"]);
    assert_eq!(patched.lines().count(), noting.lines().count());
    for source in [SOURCE.replace("push('<')", "push('>')"), SOURCE.repeat(2)] {
        assert!(note_serialized::noting(&source).unwrap_err().contains("the notes of A4 need it once"));
    }
}

fn noted(page: &[u8], options: &[u8]) -> Vec<Element> {
    let (options, module) = decode(&sums::given(page, options), options).expect("a page");
    elements(&options, module)
}

/// Of accepted pages: as many elements were noted as tags are opened in the templates, and with these names.
#[test]
#[cfg_attr(not(jsx_source), ignore = "jsx_precompile.rs is not there")]
fn notes_are_the_tags_of_the_templates() {
    let seeds = (0..20_000).map(|seed| (format!("seed {seed}"), generate::case(seed)));
    let marks = marks::all().into_iter().map(|mark| (mark.name, mark.case));
    let (mut pages, mut tags) = (0, 0);
    for (name, case) in marks.chain(seeds) {
        let (outcome, copy) = outcome_and_copy(&case.page, &case.options);
        if copy.is_some() {
            assert!(outcome_with(Copy::Noted, &case.page, &case.options) == outcome, "{name}");
        }
        let Ok(output) = outcome else { continue };
        let mut written = opened(&output.templates);
        let mut names: Vec<Vec<u8>> =
            noted(&case.page, &case.options).into_iter().map(|element| element.name.into_bytes()).collect();
        written.sort();
        names.sort();
        assert!(written == names, "{name}");
        (pages, tags) = (pages + 1, tags + names.len());
    }
    println!("{pages} pages, {tags} serialized elements");
    assert!(pages > 10_000);
}

/// Of all pages in which no tag is left, refused for such an element or not: the elements that were noted are those that
/// the walk of A9 finds by its own few lines, with the same names and attributes.
#[test]
#[cfg_attr(not(jsx_source), ignore = "jsx_precompile.rs is not there")]
fn notes_are_the_elements_outside_lost_places() {
    let seeds = (0..20_000).map(|seed| (format!("seed {seed}"), generate::case(seed)));
    let marks = marks::all().into_iter().map(|mark| (mark.name, mark.case));
    let (mut pages, mut tags, mut refused) = (0, 0, 0);
    for (name, case) in marks.chain(seeds) {
        let refusal = outcome(&case.page, &case.options).err();
        if !matches!(refusal, None | Some(Refusal::RepeatedAttribute | Refusal::MixedCaseVoid | Refusal::OutputTooLong))
        {
            continue;
        }
        let page = field::read(&sums::given(&case.page, &case.options)).expect("a page");
        let options = field::read(&case.options).expect("options");
        let mut walked: Vec<(String, Vec<String>)> = kept::serialized(&page, &options).into_iter().map(parts).collect();
        let noted = noted(&case.page, &case.options).into_iter();
        let mut noted: Vec<(String, Vec<String>)> = noted.map(|element| (element.name, element.attributes)).collect();
        walked.sort();
        noted.sort();
        assert!(walked == noted, "{name}");
        (pages, tags, refused) = (pages + 1, tags + noted.len(), refused + usize::from(refusal.is_some()));
    }
    println!("{pages} pages, {refused} of them refused, {tags} serialized elements");
    assert!(pages > 10_000 && refused > 500);
}

/// The name of an element, and its attributes' as they are normalised.
fn parts(element: &field::Node) -> (String, Vec<String>) {
    let text = |node: &field::Node| String::from_utf8(node.bytes.clone()).expect("ASCII");
    let attributes = element.inner.iter().filter(|part| part.tag == 0x50).map(|attribute| match &attribute.inner[0] {
        name if name.tag == 0x42 => format!("{}:{}", text(&name.inner[0]), text(&name.inner[1])),
        name => text(name),
    });
    (text(&element.inner[0]), attributes.map(|name| private::normalize_dom_attr_name(&name)).collect())
}

/// The names of the opening tags in all static strings.
fn opened(templates: &[u8]) -> Vec<Vec<u8>> {
    let mut names = vec![];
    for template in field::read(templates).unwrap() {
        let joined: Vec<u8> = template.inner.iter().flat_map(|string| string.bytes.clone()).collect();
        for tag in joined.split(|byte| *byte == b'<').skip(1).filter(|tag| tag.first() != Some(&b'/')) {
            let end = tag.iter().position(|byte| matches!(byte, b' ' | b'>')).expect("a tag ends");
            names.push(tag[..end].to_vec());
        }
    }
    names
}

#[test]
#[cfg_attr(not(jsx_source), ignore = "jsx_precompile.rs is not there")]
fn what_is_noted() {
    let attributes = [
        attribute_string("className", "t"),
        attribute_with("viewBox", empty_braces()),
        attribute_with("disabled", braces(boolean(false))),
        attribute_with("xlink:href", element("b", &[])),
        attribute("TITLE"),
    ];
    let tag = element("i", &[&attributes[..], &[element("Foo", &[element("u", &[])]), element("br", &[])]].concat());
    let names: Vec<(String, Vec<String>)> =
        noted(&page_of(tag), &[]).into_iter().map(|one| (one.name, one.attributes)).collect();
    let i = ["class", "viewBox", "disabled", "href", "title"].map(String::from).to_vec();
    assert_eq!(names, [("i".to_string(), i), ("u".to_string(), vec![]), ("br".to_string(), vec![])]);
}

#[test]
fn repeated_names() {
    let with = |names: &[&str]| Element { name: "i".into(), attributes: names.iter().map(|n| n.to_string()).collect() };
    for names in [&[][..], &["a"], &["a", "b"], &["a-b", "ab"], &["\u{e9}", "\u{c9}"]] {
        assert!(!with(names).repeats(), "{names:?}");
    }
    for names in [&["a", "a"][..], &["a", "b", "A"], &["viewBox", "viewbox"]] {
        assert!(with(names).repeats(), "{names:?}");
    }
    assert_eq!(refusal(&[with(&["a"]), with(&["b", "B"])]), Some(Refusal::RepeatedAttribute));
}

/// One 16 anywhere comes before every 19.
#[test]
#[cfg_attr(not(jsx_source), ignore = "jsx_precompile.rs is not there")]
fn names_in_mixed_case() {
    let named = |name: &str, attributes: &[&str]| Element {
        name: name.into(),
        attributes: attributes.iter().map(|n| n.to_string()).collect(),
    };
    for (name, mixed) in [("bR", true), ("iNPUT", true), ("BR", true), ("br", false), ("dIV", false), ("bRr", false)] {
        assert_eq!(named(name, &[]).is_mixed_case_void(), mixed, "{name}");
    }
    assert_eq!(refusal(&[named("br", &["a"]), named("br", &["a"])]), None);
    assert_eq!(refusal(&[named("bR", &["a"]), named("i", &[])]), Some(Refusal::MixedCaseVoid));
    for two in [[named("bR", &[]), named("i", &["a", "A"])], [named("i", &["a", "A"]), named("bR", &[])]] {
        assert_eq!(refusal(&two), Some(Refusal::RepeatedAttribute));
    }
}

/// Without a serialized element that repeats, A4 changes nothing.
#[test]
#[cfg_attr(not(jsx_source), ignore = "jsx_precompile.rs is not there")]
fn a_call_may_repeat() {
    let page = page_of(element("Foo", &[attribute("a"), attribute("a"), element("i", &[attribute("a")])]));
    assert_eq!(outcome(&page, &[]).map(|output| output.count), Ok(1));
}
