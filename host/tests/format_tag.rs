//! docs/FORMAT.md, Tag text: its examples are what `Tag::read` and the judge give, its table has every refusal.

use jsx_precompile::field::{Field, Fields};
use jsx_precompile::{Tag, TagRefusal};
use oracle::tag::outcome;
use std::path::Path;

const FENCE: &str = "```";
/// The columns of an example's keys.
const KEY: usize = 11;

fn document() -> String {
    let file = Path::new(env!("CARGO_MANIFEST_DIR")).with_file_name("docs").join("FORMAT.md");
    std::fs::read_to_string(file).expect("docs/FORMAT.md is there")
}

/// The rows of an example: a key and the lines of its value.
type Rows = Vec<(String, Vec<String>)>;

fn examples(text: &str) -> Vec<(usize, Rows)> {
    let mut found = vec![];
    let mut lines = text.lines().enumerate();
    while let Some((number, line)) = lines.next() {
        if line != "```tag" {
            continue;
        }
        let mut rows: Rows = vec![];
        for (_, line) in lines.by_ref().take_while(|(_, line)| *line != FENCE) {
            let (key, value) = line.split_at_checked(KEY).unwrap_or((line, ""));
            match (key.trim(), rows.last_mut()) {
                ("", Some((_, more))) => more.push(value.to_string()),
                (key, _) => rows.push((key.to_string(), vec![value.to_string()])),
            }
        }
        found.push((number + 1, rows));
    }
    found
}

/// A field as hex, with a space behind each tag, length and body.
fn spaced(field: Field) -> String {
    let inner: Vec<String> = field.inner().map(spaced).collect();
    let body = match (&inner[..], field.body) {
        ([], []) => String::new(),
        ([], bytes) => format!(" {}", bytes.iter().map(|byte| format!("{byte:02x}")).collect::<String>()),
        (inner, _) => format!(" {}", inner.join(" ")),
    };
    format!("{:02x} {:04x}{body}", field.tag, field.body.len())
}

#[test]
fn examples_hold() {
    let examples = examples(&document());
    let (mut read, mut refused) = (0, 0);
    for (line, rows) in &examples {
        let [(text_key, text), (key, value)] = &rows[..] else { panic!("line {line}: {rows:?}") };
        let text = text.join("\n");
        assert_eq!(text_key, "text", "line {line}");
        match Tag::read(&text) {
            Ok(tag) => {
                let field = Fields::new(tag.bytes()).next().expect("a field");
                assert_eq!((key.as_str(), value.join(" ")), ("field", spaced(field)), "line {line}");
                assert_eq!(outcome(text.as_bytes()).as_deref(), Ok(tag.bytes()), "line {line}");
                read += 1;
            }
            Err(error) => {
                assert_eq!((key.as_str(), value.join(" ")), ("refused", error.to_string()), "line {line}");
                let number = outcome(text.as_bytes()).map_or_else(|refusal| refusal as u32, |_| 0);
                assert_eq!(number, error.refusal.number(), "line {line}");
                refused += 1;
            }
        }
    }
    println!("format: {} tag texts, {read} read, {refused} refused, as shown", examples.len());
    assert!(read > 2 && refused > 4, "{read} read, {refused} refused");
}

/// In the order in which they are looked for, which is that of the judge.
#[test]
fn every_refusal_has_its_row() {
    let document = document();
    let section = document.split("\n## ").find(|part| part.starts_with("Tag text")).expect("the section");
    let table = section.split("| Name | Number | Cause |").nth(1).expect("the table");
    let rows: Vec<&str> = table.lines().skip(2).take_while(|line| line.starts_with('|')).collect();
    assert_eq!(rows.len(), oracle::tag::NUMBERS.len() - 1);
    for (row, number) in rows.iter().zip(&oracle::tag::NUMBERS[1..]) {
        let refusal = TagRefusal::from_number(*number).expect("a refusal");
        assert!(row.starts_with(&format!("| `{refusal:?}` | {number} |")), "{row}");
    }
}
