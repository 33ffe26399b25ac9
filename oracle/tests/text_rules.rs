//! The text rules of 01, written again from its words alone, against the Rust on random texts.

use oracle::decimal::Decimal;
use oracle::field::read;
use oracle::generate::decimals;
use oracle::generate::names::{AttributeNames, attribute_names, listed_in};
use oracle::generate::rng::Rng;
use oracle::generate::texts::{self, WHITE_SPACE};
use oracle::make::*;
use oracle::{outcome, private};

const TEXTS: u64 = 200_000;

fn random_text(rng: &mut Rng) -> String {
    let mut out = vec![];
    texts::text(rng, &mut out, 400);
    String::from_utf8(out).unwrap()
}

/// Lines end at LF or CR LF; nothing behind the last line end is no line.
fn lines(text: &str) -> Vec<String> {
    let mut out = vec![];
    let mut line = String::new();
    for c in text.chars() {
        if c == '\n' {
            if line.ends_with('\r') {
                line.pop();
            }
            out.push(std::mem::take(&mut line));
        } else {
            line.push(c);
        }
    }
    if !line.is_empty() {
        out.push(line);
    }
    out
}

fn lose_front(mut line: &str) -> &str {
    while let Some(space) = WHITE_SPACE.iter().find(|w| line.starts_with(**w)) {
        line = &line[space.len()..];
    }
    line
}

fn lose_back(mut line: &str) -> &str {
    while let Some(space) = WHITE_SPACE.iter().find(|w| line.ends_with(**w)) {
        line = &line[..line.len() - space.len()];
    }
    line
}

/// Lines after the first lose their front; all but the last lose their back, the last too when asked. Empty lines go;
/// kept lines join with one space.
fn line_rule(text: &str, last_too: bool) -> String {
    let lines = lines(text);
    let mut kept = vec![];
    for (i, line) in lines.iter().enumerate() {
        let front = if i > 0 { lose_front(line) } else { line };
        let line = if i + 1 < lines.len() || last_too { lose_back(front) } else { front };
        if !line.is_empty() {
            kept.push(line.to_string());
        }
    }
    kept.join(" ")
}

/// Every line loses its front, all lines are kept and join with one space.
fn attribute_rule(text: &str) -> String {
    lines(text).iter().map(|line| lose_front(line).to_string()).collect::<Vec<_>>().join(" ")
}

fn escaped(text: &str) -> String {
    text.chars().fold(String::new(), |mut out, c| {
        match c {
            '&' => out.push_str("&amp;"),
            '<' => out.push_str("&lt;"),
            '>' => out.push_str("&gt;"),
            '\'' => out.push_str("&#39;"),
            '"' => out.push_str("&quot;"),
            _ => out.push(c),
        }
        out
    })
}

#[test]
#[cfg_attr(not(jsx_source), ignore = "jsx_precompile.rs is not there")]
fn lines_escapes_and_attribute_strings() {
    let mut rng = Rng::new(1);
    for _ in 0..TEXTS {
        let text = random_text(&mut rng);
        for last in [false, true] {
            let plain = line_rule(&text, last);
            assert_eq!(private::jsx_text_to_str(&text, false, last), plain, "{text:?}");
            assert_eq!(private::jsx_text_to_str(&text, true, last), escaped(&plain), "{text:?}");
        }
        assert_eq!(private::normalize_lit_str(&text), attribute_rule(&text), "{text:?}");
        assert_eq!(private::escape_html(&text), escaped(&text), "{text:?}");
    }
    println!("{TEXTS} texts");
}

#[test]
#[cfg_attr(not(jsx_source), ignore = "jsx_precompile.rs is not there")]
fn short_texts_of_line_ends() {
    let parts = ["", "a", " ", "\n", "\r", "\r\n", "\u{85}", "\u{2028}", "\u{200b}"];
    let mut count = 0;
    let each = |text: &str| {
        for last in [false, true] {
            assert_eq!(private::jsx_text_to_str(text, false, last), line_rule(text, last), "{text:?}");
        }
        assert_eq!(private::normalize_lit_str(text), attribute_rule(text), "{text:?}");
    };
    for n in 0..parts.len().pow(5) {
        let text: String = (0..5).map(|i| parts[n / parts.len().pow(i) % parts.len()]).collect();
        each(&text);
        count += 1;
    }
    println!("{count} texts");
}

/// A child of a run: a text, a string, a number, a decimal, a boolean, or empty braces.
enum Child {
    Text(String),
    Str(String),
    Num(u64),
    Decimal(Decimal),
    Bool,
    Empty,
}

fn random_children(rng: &mut Rng, least: usize) -> Vec<Child> {
    let one = |rng: &mut Rng| match rng.below(7) {
        0..=1 => Child::Text(random_text(rng)),
        2..=3 => Child::Str(random_text(rng)),
        4 => Child::Num(rng.draw() % (1 << 53)),
        5 => Child::Decimal(decimals::decimal(rng)),
        _ if rng.chance(50) => Child::Bool,
        _ => Child::Empty,
    };
    (0..rng.within(least, 6)).map(|_| one(rng)).collect()
}

fn field_of(child: &Child) -> Vec<u8> {
    match child {
        Child::Text(t) => text(t),
        Child::Str(s) => braces(string(s)),
        Child::Num(n) => braces(number(*n)),
        Child::Decimal(d) => braces(decimal(d.digits, d.places)),
        Child::Bool => braces(boolean(true)),
        Child::Empty => empty_braces(),
    }
}

/// One merge: strings are always escaped, texts when asked, booleans dropped; the last child's back goes when asked.
fn merged(children: &[Child], escape_texts: bool, trim_last: bool) -> String {
    let mut out = String::new();
    for (i, child) in children.iter().enumerate() {
        match child {
            Child::Text(t) => {
                let t = line_rule(t, trim_last && i + 1 == children.len());
                out.push_str(&if escape_texts { escaped(&t) } else { t });
            }
            Child::Str(s) => out.push_str(&escaped(s)),
            Child::Num(n) => out.push_str(&n.to_string()),
            Child::Decimal(d) => out.push_str(&d.written()),
            Child::Bool | Child::Empty => {}
        }
    }
    out
}

/// The bytes of the first field with this tag, at any depth.
fn first(bytes: &[u8], tag: u8) -> Option<Vec<u8>> {
    let mut found = None;
    for node in &read(bytes).unwrap() {
        node.each(&mut |n| {
            if n.tag == tag && found.is_none() {
                found = Some(n.bytes.clone());
            }
        });
    }
    found
}

#[test]
#[cfg_attr(not(jsx_source), ignore = "jsx_precompile.rs is not there")]
fn runs_of_a_tag_a_fragment_and_a_call() {
    let mut rng = Rng::new(2);
    for _ in 0..20_000 {
        let children = random_children(&mut rng, 2);
        let fields: Vec<Vec<u8>> = children.iter().map(field_of).collect();
        let template = |tag: Vec<u8>| {
            let output = outcome(&page_of(tag), &[]).unwrap();
            String::from_utf8(first(&output.templates, 0x81).unwrap()).unwrap()
        };
        assert_eq!(template(element("p", &fields)), format!("<p>{}</p>", merged(&children, true, true)));
        assert_eq!(template(fragment(&fields)), merged(&children, true, false));

        // A call's children without an element are one string, merged once.
        let output = outcome(&page_of(element("Foo", &fields)), &[]).unwrap();
        let run = merged(&children, false, false);
        let expected = if run.is_empty() { None } else { Some(run.clone()) };
        assert_eq!(first(&output.page, 0x70).map(|s| String::from_utf8(s).unwrap()), expected);

        // With two elements they become a template: the run goes through the line rule and the escapes once more.
        let with = [fields, vec![element("i", &[]), element("b", &[])]].concat();
        assert_eq!(template(element("Foo", &with)), format!("{}<i></i><b></b>", escaped(&line_rule(&run, false))));
    }
    println!("20000 runs");
}

#[test]
#[cfg_attr(not(jsx_source), ignore = "jsx_precompile.rs is not there")]
fn numbers_in_decimal_digits() {
    let mut rng = Rng::new(3);
    let mut numbers: Vec<u64> = (0..16).flat_map(|e| [10_u64.pow(e), 10_u64.pow(e) - 1]).collect();
    numbers.extend([(1 << 53) - 1, (1 << 53) - 2]);
    numbers.extend((0..20_000).map(|_| rng.draw() % (1 << 53)));
    for n in numbers {
        for (expression, digits) in [(number(n), n.to_string()), (minus(n), format!("-{n}"))] {
            let tag = element("a", &[attribute_with("b", braces(expression))]);
            let output = outcome(&page_of(tag), &[]).unwrap();
            let expected = format!("<a b=\"{digits}\"></a>");
            assert_eq!(first(&output.templates, 0x81).unwrap(), expected.as_bytes());
        }
    }
}

#[test]
#[cfg_attr(not(jsx_source), ignore = "jsx_precompile.rs is not there")]
fn counts_of_names() {
    let AttributeNames { singled, hyphenated, kept } = attribute_names();
    let void = listed_in("is_void_element");
    let boolean = listed_in("is_boolean_attr");
    assert_eq!((singled.len(), hyphenated.len(), kept.len()), (15, 76, 59));
    assert_eq!((void.len(), boolean.len()), (14, 24));

    for (name, to) in &singled {
        assert_eq!(private::normalize_dom_attr_name(name), *to);
    }
    for name in &hyphenated {
        let hyphens: String = name
            .chars()
            .flat_map(|c| if c.is_ascii_uppercase() { vec!['-', c.to_ascii_lowercase()] } else { vec![c] })
            .collect();
        assert_eq!(private::normalize_dom_attr_name(name), hyphens);
        assert_eq!(private::normalize_dom_attr_name(&name.to_uppercase()), name.to_lowercase());
    }
    for name in &kept {
        assert_eq!(private::normalize_dom_attr_name(name), *name);
    }
    for name in &void {
        assert!(private::is_void_element(name) && !private::is_void_element(&name.to_uppercase()));
    }
    for name in &boolean {
        assert!(private::is_boolean_attr(name) && !private::is_boolean_attr(&name.to_uppercase()));
    }
}

#[test]
#[cfg_attr(not(jsx_source), ignore = "jsx_precompile.rs is not there")]
fn identifiers() {
    for c in 0..=127_u8 {
        let c = char::from(c);
        let starts = c.is_ascii_alphabetic() || c == '_' || c == '$';
        assert_eq!(private::is_text_valid_identifier(&c.to_string()), starts);
        assert_eq!(private::is_text_valid_identifier(&format!("a{c}")), starts || c.is_ascii_digit());
    }
    assert!(!private::is_text_valid_identifier(""));
}
