//! docs/FORMAT.md: its examples are what the library answers, its tables name every tag, refusal and limit. With
//! FORMAT_WRITE=1 the answers and outputs of the examples are written anew; node/test/format.test.js has the rest.

use jsx_precompile::field::{Field, Fields, tag_name};
use jsx_precompile::limits::*;
use jsx_precompile::{Refusal, transform_into};
use std::collections::BTreeSet;
use std::fs;
use std::path::{Path, PathBuf};
use std::sync::Once;

const VARIABLE: &str = "FORMAT_WRITE";
const FENCE: &str = "```";
/// The columns of an example: its keys, and the whole.
const KEY: usize = 11;
const LINE: usize = 118;

fn at(name: &str) -> PathBuf {
    Path::new(env!("CARGO_MANIFEST_DIR")).with_file_name("").join(name)
}

/// The document; its answers are written before it is read, where that is asked.
fn document() -> String {
    static WRITTEN: Once = Once::new();
    let file = at("docs/FORMAT.md");
    let read = || fs::read_to_string(&file).expect("docs/FORMAT.md is there");
    WRITTEN.call_once(|| {
        if std::env::var(VARIABLE).is_ok_and(|word| word == "1") {
            fs::write(&file, rewritten(&read())).expect("it is written");
        }
    });
    read()
}

/// What is answered to a page.
struct Answered {
    number: u32,
    templates: Vec<u8>,
    out: Vec<u8>,
}

fn answered(page: &[u8], options: &[u8]) -> Answered {
    let (mut scratch, mut templates, mut out) = (vec![0; MIN_SCRATCH], vec![0; MIN_SCRATCH], vec![0; MIN_SCRATCH]);
    let answer = transform_into(page, options, &mut scratch, &mut templates, &mut out);
    templates.truncate(answer.templates_bytes);
    out.truncate(answer.page_bytes);
    Answered { number: answer.number, templates, out }
}

/// A field, also where no page has it.
fn field(tag: u8, parts: &[&[u8]]) -> Vec<u8> {
    let body = parts.concat();
    let length = u16::try_from(body.len()).expect("a short body");
    [&[tag], &length.to_be_bytes()[..], &body].concat()
}

/// An example: rows of a key and the lines of its value.
struct Example {
    /// The number of its first line.
    line: usize,
    rows: Vec<(String, Vec<String>)>,
}

impl Example {
    fn value(&self, key: &str) -> Option<&[String]> {
        self.rows.iter().find(|(name, _)| name == key).map(|(_, lines)| &lines[..])
    }

    fn bytes(&self, key: &str) -> Vec<u8> {
        let digits: String = self.value(key).unwrap_or_default().join("").split_whitespace().collect();
        let pairs = digits.trim_matches('-').as_bytes().chunks(2).map(|pair| std::str::from_utf8(pair).expect("ASCII"));
        pairs.map(|pair| u8::from_str_radix(pair, 16).unwrap_or_else(|_| panic!("{pair}, {}", self.place()))).collect()
    }

    fn place(&self) -> String {
        format!("docs/FORMAT.md, line {}", self.line)
    }

    /// What the library says of a key; none for a key that is not its matter.
    fn answered(&self, key: &str) -> Option<Vec<String>> {
        let Answered { number, templates, out } = answered(&self.bytes("page"), &self.bytes("options"));
        match key {
            "answer" => Some(vec![match Refusal::from_number(number) {
                None => format!("{number} accepted"),
                Some(refusal) => format!("{number} {refusal:?}"),
            }]),
            "templates" => Some(wrapped(&spaced(&templates))),
            "out" => Some(wrapped(&spaced(&out))),
            _ => None,
        }
    }
}

/// The examples of a document, and its lines with each example's rows in one.
fn examples(text: &str) -> Vec<Example> {
    let mut found = vec![];
    let mut lines = text.lines().enumerate();
    while let Some((number, line)) = lines.next() {
        if line != "```page" {
            continue;
        }
        let mut rows: Vec<(String, Vec<String>)> = vec![];
        for (_, line) in lines.by_ref().take_while(|(_, line)| *line != FENCE) {
            let (key, value) = line.split_at_checked(KEY).unwrap_or((line, ""));
            match (key.trim(), rows.last_mut()) {
                ("", Some((_, more))) => more.push(value.to_string()),
                (key, _) => rows.push((key.to_string(), vec![value.to_string()])),
            }
        }
        found.push(Example { line: number + 1, rows });
    }
    found
}

/// Bytes as hex, with a space behind each tag, length and body.
fn spaced(bytes: &[u8]) -> String {
    let mut words = vec![];
    Fields::new(bytes).for_each(|field| field_words(field, &mut words));
    words.retain(|word| !word.is_empty());
    if words.is_empty() { "-".to_string() } else { words.join(" ") }
}

fn field_words(field: Field, words: &mut Vec<String>) {
    let inner = field.inner();
    let front = inner.place() - field.at - 3;
    let back = front + inner.rest().len();
    words.extend([hex(&[field.tag]), format!("{:04x}", field.body.len())]);
    // Of a template its number, its count and its kinds.
    let parts = if field.kinds().is_some() { vec![0, 4, 6, front] } else { vec![0, front] };
    words.extend(parts.windows(2).map(|part| hex(&field.body[part[0]..part[1]])));
    inner.for_each(|field| field_words(field, words));
    words.push(hex(&field.body[back..]));
}

fn hex(bytes: &[u8]) -> String {
    bytes.iter().map(|byte| format!("{byte:02x}")).collect()
}

fn wrapped(text: &str) -> Vec<String> {
    let mut lines = vec![String::new()];
    for word in text.split(' ') {
        let line = lines.last_mut().expect("there is one");
        if line.is_empty() {
            line.push_str(word);
        } else if KEY + line.len() + 1 + word.len() <= LINE {
            line.push(' ');
            line.push_str(word);
        } else {
            lines.push(word.to_string());
        }
    }
    lines
}

/// The document with the library's answers in its examples.
fn rewritten(text: &str) -> String {
    let mut examples = examples(text).into_iter();
    let mut result = String::new();
    let mut lines = text.lines();
    while let Some(line) = lines.next() {
        result += &format!("{line}\n");
        if line != "```page" {
            continue;
        }
        let example = examples.next().expect("as many as there are");
        for (key, lines) in &example.rows {
            let lines = example.answered(key).unwrap_or(lines.clone());
            let rows =
                lines.iter().enumerate().map(|(at, line)| format!("{:KEY$}{line}", if at == 0 { key } else { "" }));
            rows.for_each(|row| result += &format!("{}\n", row.trim_end()));
        }
        lines.by_ref().find(|line| *line == FENCE);
        result += &format!("{FENCE}\n");
    }
    result
}

#[test]
fn examples_hold() {
    let (mut compared, mut answers) = (0, BTreeSet::new());
    let examples = examples(&document());
    for example in &examples {
        assert!(example.value("answer").is_some(), "{}: no answer", example.place());
        for (key, lines) in &example.rows {
            let Some(answered) = example.answered(key) else { continue };
            assert_eq!(lines, &answered, "{key} of {}", example.place());
            compared += 1;
        }
        answers.insert(example.value("answer").map(|lines| lines[0].clone()));
    }
    // Each refusal that a short page has is shown.
    for number in [3, 4, 5, 6, 7, 8, 10, 16, 19] {
        let refusal = Refusal::from_number(number).expect("a refusal");
        assert!(answers.contains(&Some(format!("{number} {refusal:?}"))), "no example is refused with {number}");
    }
    println!("format: {} examples, {compared} rows of them as the library answers", examples.len());
}

/// The rows of the document's tables, by their first cell.
fn rows(first: &str) -> Vec<String> {
    document().lines().filter(|line| line.starts_with(&format!("| {first} |"))).map(str::to_string).collect()
}

#[test]
fn every_tag_has_one_row() {
    let mut count = 0;
    for tag in 0..=u8::MAX {
        let rows = rows(&format!("`{tag:02x}`"));
        assert_eq!(rows.len(), usize::from(tag_name(tag).is_some()), "{tag:02x}: {rows:?}");
        count += rows.len();
    }
    println!("format: {count} tags have a row each");
}

#[test]
fn every_refusal_has_its_rows() {
    let given: Vec<Refusal> = (1..=100).filter_map(Refusal::from_number).collect();
    assert!(given.len() >= 14);
    for refusal in given {
        let rows = rows(&refusal.number().to_string());
        let [meaning, word] = &rows[..] else { panic!("{refusal:?}: {rows:?}") };
        assert!(meaning.starts_with(&format!("| {} | `{refusal:?}` |", refusal.number())), "{meaning}");
        assert_eq!(*word, format!("| {} | {} |", refusal.number(), refusal.word()));
    }
}

#[test]
fn every_limit_has_its_row() {
    let limits = [
        ("page", MAX_PAGE, " bytes"),
        ("tag text", MAX_TAG_TEXT, " bytes"),
        ("options", MAX_OPTIONS, " bytes"),
        ("depth", MAX_DEPTH, " fields"),
        ("name", MAX_NAME, " bytes"),
        ("member", MAX_MEMBERS, " names"),
        ("whole number", MAX_NUMBER as usize, ""),
        ("digits of a number with a fraction", MAX_DIGITS as usize, ""),
        ("places of a number with a fraction", MAX_PLACES.into(), ""),
        ("body of a field, in and out", MAX_BODY, " bytes"),
        ("scratch, at least", MIN_SCRATCH, " bytes"),
        ("numbers looked up at once", MAX_NUMBERS, ""),
        ("a catalogue", MAX_CATALOGUE, " bytes"),
        ("houses of a catalogue", HOUSES, ""),
        ("number of a template in an `80`", MAX_OLD_NUMBER as usize, ""),
    ];
    for (name, limit, unit) in limits {
        assert_eq!(rows(name), [format!("| {name} | {}{unit} |", grouped(limit))]);
    }
}

/// A number with a comma before every third digit from the end.
fn grouped(number: usize) -> String {
    let digits = number.to_string();
    let groups: Vec<_> = digits.as_bytes().rchunks(3).rev().map(String::from_utf8_lossy).collect();
    groups.join(",")
}

/// How many tags can lie within each other, each held by the one around it in this way; the next is refused as too deep.
fn levels(held: impl Fn(&[u8]) -> Vec<u8>) -> usize {
    let tag = |inner: &[u8]| field(0x30, &[&field(0x40, &[b"i"]), inner]);
    let number = |count: usize| {
        let tags = (1..count).fold(tag(b""), |inner, _| tag(&held(&inner)));
        answered(&field(0x01, &[&field(0x12, &[&tags])]), &[]).number
    };
    let count = (1..).take_while(|count| number(*count) == 0).count();
    assert_eq!(number(count + 1), Refusal::TooDeep.number());
    count
}

#[test]
fn levels_are_as_counted() {
    let map = |inner: &[u8]| field(0x79, &[&field(0x20, &[b"a.map((b) => "]), inner, &field(0x20, &[b")"])]);
    let counted = [
        ("`<i>` in `<i>`", 1, levels(|inner| inner.to_vec())),
        ("`{<i/>}`: braces", 2, levels(|inner| field(0x52, &[inner]))),
        (
            "`{a && <i/>}`, `{a.map((b) => <i/>)}`: braces and an expression",
            3,
            levels(|inner| field(0x52, &[&map(inner)])),
        ),
        ("`{[<i/>]}`: braces and an array", 3, levels(|inner| field(0x52, &[&field(0x76, &[inner])]))),
    ];
    for (how, fields, count) in counted {
        // The page and an item lie around the tags, a name in the innermost.
        assert_eq!(count, (MAX_DEPTH - 4) / fields + 1, "{how}");
        assert_eq!(rows(how), [format!("| {how} | {fields} | {count} |")]);
    }
    println!("format: four ways of nesting, counted by the library");
}

/// The refusal that no short page has.
#[test]
fn a_page_too_long_in_the_output() {
    let number = |quotes: usize| {
        let string = field(0x52, &[&field(0x70, &[&b"\"".repeat(quotes)])]);
        let tag = field(
            0x30,
            &[&field(0x40, &[b"Foo"]), &field(0x60, &[b"a"]), &string, &field(0x30, &[&field(0x40, &[b"i"])])],
        );
        answered(&field(0x01, &[&field(0x12, &[&tag])]), &[]).number
    };
    assert_eq!((number(6_551), number(6_552)), (0, Refusal::OutputTooLong.number()));
}

/// The bytes of a series, by each 74 and 79 at any depth: its own text.
fn own_expressions(fields: Fields, found: &mut Vec<Vec<u8>>) {
    for field in fields {
        match field.tag {
            0x74 => found.push(field.body.to_vec()),
            0x79 => found.push(
                field
                    .inner()
                    .filter(|piece| piece.tag == 0x20)
                    .flat_map(|piece| [piece.body, &[0xff]].concat())
                    .collect(),
            ),
            _ => {}
        }
        own_expressions(field.inner(), found);
    }
}

fn sorted_expressions(bytes: &[u8]) -> Vec<Vec<u8>> {
    let mut found = vec![];
    own_expressions(Fields::new(bytes), &mut found);
    found.sort();
    found
}

#[test]
fn expressions_are_kept_but_in_the_four_places() {
    let mut kept = 0;
    let mut pages = 0;
    for entry in fs::read_dir(at("examples")).expect("examples/ is there") {
        let path = entry.expect("an entry").path();
        if path.extension().is_none_or(|end| end != "page") {
            continue;
        }
        let page = fs::read(&path).expect("it is read");
        let Answered { number: 0, out, .. } = answered(&page, &[]) else { continue };
        let expressions = sorted_expressions(&page);
        assert_eq!(sorted_expressions(&out), expressions, "{}", path.display());
        (kept, pages) = (kept + expressions.len(), pages + 1);
    }
    let document = document();
    let section = document.split("\n## ").find(|part| part.starts_with("What is kept")).expect("the section");
    let lost: Vec<_> = examples(section)
        .iter()
        .map(|example| {
            let out = example.bytes("out");
            (sorted_expressions(&example.bytes("page")).len(), sorted_expressions(&out).len(), out.is_empty())
        })
        .collect();
    // Void, spread child, tag, the same listed (whose out is not shown), key.
    assert_eq!(lost, [(1, 0, false), (1, 0, false), (1, 0, false), (1, 0, true), (2, 1, false)]);
    println!("format: {kept} expressions of {pages} examples are kept; four places lose theirs");
}

#[test]
fn the_size_of_pages_is_as_said() {
    let size = |end: &str| {
        let entries =
            fs::read_dir(at("examples")).expect("examples/ is there").map(|entry| entry.expect("an entry").path());
        let files = entries.filter(|path| path.extension().is_some_and(|own| own == end));
        files.map(|path| fs::metadata(path).expect("a file").len() as f64).sum::<f64>()
    };
    let words =
        format!("The pages of examples/ have {:.2} times the bytes of their sources", size("page") / size("jsx"));
    assert!(document().contains(&words), "{words}");
}
