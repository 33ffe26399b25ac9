//! docs/FORMAT.md, Looking templates up, Filling templates, Catalogues and Outs of before: their examples are what the
//! library and the judge answer.

use jsx_precompile::catalogue::{Catalogue, CatalogueError, Shares};
use jsx_precompile::{Converted, Refusal, downgrade, fill, find, upgrade};
use oracle::outs::catalogue::Catalogued;
use oracle::outs::convert::{self, Way};
use oracle::outs::fill as judge;
use oracle::outs::find::{ABSENT, outcome};
use oracle::outs::shares;
use oracle::vectors::unhex;
use std::collections::BTreeSet;
use std::path::Path;

const FENCE: &str = "```";
/// The columns of an example's keys.
const KEY: usize = 11;

fn document() -> String {
    let file = Path::new(env!("CARGO_MANIFEST_DIR")).with_file_name("docs").join("FORMAT.md");
    std::fs::read_to_string(file).expect("docs/FORMAT.md is there")
}

/// An example: the line on which it begins, and its keys with their values.
struct Example {
    line: usize,
    rows: Vec<(String, String)>,
}

impl Example {
    fn value(&self, key: &str) -> Option<&str> {
        self.rows.iter().find(|(own, _)| own == key).map(|(_, value)| value.as_str())
    }

    fn number(&self, key: &str) -> Option<u32> {
        self.value(key).map(|word| word.parse().expect("a number"))
    }

    fn bytes(&self, key: &str) -> Vec<u8> {
        let digits = self.value(key).unwrap_or_else(|| panic!("line {}: no {key}", self.line));
        unhex(&digits.replace([' ', '-'], "")).expect("hex digits")
    }
}

/// The examples of a kind, which stands behind their fence.
fn examples(kind: &str) -> Vec<Example> {
    let mut found = vec![];
    let document = document();
    let mut lines = document.lines().enumerate();
    while let Some((number, line)) = lines.next() {
        if line.strip_prefix(FENCE) != Some(kind) {
            continue;
        }
        let mut rows: Vec<(String, String)> = vec![];
        for (_, line) in lines.by_ref().take_while(|(_, line)| *line != FENCE) {
            let (key, value) = line.split_at_checked(KEY).unwrap_or((line, ""));
            match (key.trim(), rows.last_mut()) {
                ("", Some((_, more))) => *more += &format!(" {value}"),
                (key, _) => rows.push((key.to_string(), value.to_string())),
            }
        }
        found.push(Example { line: number + 1, rows });
    }
    found
}

#[test]
fn lookups_hold() {
    let examples = examples("find");
    let (mut found, mut refused) = (0, 0);
    for example in &examples {
        let templates = example.bytes("templates");
        let words = example.value("numbers").expect("numbers");
        let numbers: Vec<u32> = words.split(' ').map(|word| word.parse().expect("a number")).collect();
        let mut rows = example.rows[..2].to_vec();
        let mut row = |key: &str, value: String| rows.push((key.to_string(), value));
        match find(&templates, &numbers) {
            Ok(places) => {
                let word = |place: &Option<usize>| place.map_or("absent".to_string(), |place| place.to_string());
                row("answer", "0 accepted".to_string());
                row("read", places.records().to_string());
                row("places", places.places().iter().map(word).collect::<Vec<_>>().join(" "));
                let all = places.places().iter().map(|place| place.unwrap_or(ABSENT)).collect();
                assert_eq!(outcome(&templates, &numbers), Ok((places.records(), all)), "line {}", example.line);
                found += 1;
            }
            Err(refusal) => {
                row("answer", format!("{} {refusal:?}", refusal.number()));
                let judged = outcome(&templates, &numbers).map_err(|refusal| refusal as u32);
                assert_eq!(judged, Err(refusal.number()), "line {}", example.line);
                refused += 1;
            }
        }
        assert_eq!(example.rows, rows, "line {}", example.line);
    }
    println!("format: {} lookups, {found} taken, {refused} refused, as shown", examples.len());
    assert!(found > 1 && refused > 1, "{found} taken, {refused} refused");
}

#[test]
fn fillings_hold() {
    let examples = examples("fill");
    let (mut filled, mut refused) = (0, BTreeSet::new());
    for example in &examples {
        let [templates, order] = ["templates", "order"].map(|key| example.bytes(key));
        let judged = judge::outcome(&templates, &order).map_err(|refusal| refusal as u32);
        let mut rows = example.rows[..2].to_vec();
        let mut row = |key: &str, value: String| rows.push((key.to_string(), value));
        match fill(&templates, &order) {
            Ok(html) => {
                row("answer", "0 accepted".to_string());
                assert_eq!(judged.as_deref(), Ok(html.as_bytes()), "line {}", example.line);
                row("html", html);
                filled += 1;
            }
            Err(fault) => {
                let number = fault.refusal.number();
                row("answer", format!("{number} {:?}", fault.refusal));
                row("said", fault.to_string());
                assert_eq!(judged, Err(number), "line {}", example.line);
                refused.insert(number);
            }
        }
        assert_eq!(example.rows, rows, "line {}", example.line);
    }
    println!("format: {} fillings, {filled} taken, refused {refused:?}, as shown", examples.len());
    assert!(filled > 1 && refused.contains(&18), "{filled} taken, refused {refused:?}");
}

/// A call of a catalogue: the name of the page that leaves, or name, house, shares, templates and page out of one that
/// arrives. Shares stand in one line, and the program reads them from several.
enum CatalogueCall {
    Leaves(u32),
    Arrives(u32, u32, Shares, Vec<u8>, Vec<u8>),
}

impl CatalogueCall {
    fn of(example: &Example) -> CatalogueCall {
        if let Some(name) = example.number("leaves") {
            return CatalogueCall::Leaves(name);
        }
        let shares = example.value("shares").unwrap_or_default().replace(", ", "\n");
        let shares = shares.parse().unwrap_or_else(|error| panic!("line {}: {error}", example.line));
        let [name, house] = ["name", "house"].map(|key| example.number(key).expect("a number"));
        CatalogueCall::Arrives(name, house, shares, example.bytes("templates"), example.bytes("page"))
    }

    fn run(&self, catalogue: &mut Catalogue) -> Result<(), CatalogueError> {
        match self {
            CatalogueCall::Leaves(name) => catalogue.remove(*name),
            CatalogueCall::Arrives(name, house, shares, templates, page) => {
                catalogue.add(*name, *house, shares, templates, page)
            }
        }
    }

    fn judge(&self, bytes: &mut [u8]) -> Catalogued {
        match self {
            CatalogueCall::Leaves(name) => shares::remove(bytes, *name),
            CatalogueCall::Arrives(name, house, of_houses, templates, page) => {
                shares::add(bytes, *name, *house, &of_houses.numbers(), templates, page)
            }
        }
    }
}

#[test]
fn catalogues_hold() {
    let examples = examples("catalogue");
    let (mut taken, mut refused) = (0, BTreeSet::new());
    for example in &examples {
        let (line, call) = (example.line, CatalogueCall::of(example));
        let lent = [example.bytes("catalogue"), vec![0; example.number("zeros").expect("zeros") as usize]].concat();
        let mut theirs = lent.clone();
        let judged = call.judge(&mut theirs);
        let given = example.rows.iter().take_while(|(key, _)| key != "answer").count();
        let mut rows = example.rows[..given].to_vec();
        let mut row = |key: &str, value: &str| rows.push((key.to_string(), value.to_string()));
        let after = Catalogue::over(lent.clone())
            .map_err(CatalogueError::Unsound)
            .and_then(|mut catalogue| call.run(&mut catalogue).map(|()| catalogue));
        match after {
            Ok(catalogue) => {
                row("answer", "0 accepted");
                row("after", example.value("after").expect("bytes"));
                row("used", &catalogue.used().to_string());
                row("pages", &catalogue.count().to_string());
                assert_eq!(catalogue.bytes(), theirs, "line {line}");
                assert_eq!(catalogue.bytes()[..catalogue.used()], example.bytes("after"), "line {line}");
                assert_eq!((judged.number, judged.used, judged.pages), (0, catalogue.used(), catalogue.count()));
                taken += 1;
            }
            Err(error) => {
                let refusal = error.refusal();
                row("answer", &format!("{} {refusal:?}", refusal.number()));
                row("said", &error.to_string());
                assert_eq!((judged.number, &theirs), (refusal.number(), &lent), "line {line}");
                refused.insert(refusal.number());
            }
        }
        assert_eq!(example.rows, rows, "line {line}");
    }
    println!("format: {} calls of a catalogue, {taken} taken, refused {refused:?}, as shown", examples.len());
    assert!(taken > 2 && refused == BTreeSet::from([4, 17, 21, 22, 24, 25, 26]), "{taken} taken, refused {refused:?}");
}

type Call = fn(&[u8], &[u8]) -> Result<Converted, Refusal>;

/// Those that are accepted both ways.
fn conversions_hold(way: Way, [from, to]: [&str; 2], [there, back]: [Call; 2]) -> (usize, usize) {
    let both = |example: &Example, age: &str| [example.bytes(age), example.bytes(&format!("{age} page"))];
    let kind = if way == Way::Up { "up" } else { "down" };
    let (mut taken, mut refused) = (0, 0);
    for example in examples(kind) {
        let line = example.line;
        let [templates, page] = both(&example, from);
        let judged = convert::outcome(way, &templates, &page).map(|outs| (outs.templates, outs.page));
        let answer = example.value("answer").expect("an answer");
        match there(&templates, &page) {
            Ok(outs) => {
                assert_eq!(answer, "0 accepted", "line {line}");
                let expected = both(&example, to);
                assert_eq!([outs.templates_bytes(), outs.page_bytes()], expected, "line {line}");
                assert_eq!(judged, Ok((expected[0].clone(), expected[1].clone())), "line {line}");
                let again = back(&expected[0], &expected[1]).unwrap_or_else(|refusal| panic!("line {line}: {refusal}"));
                assert_eq!([again.templates_bytes(), again.page_bytes()], [templates, page], "line {line}");
                taken += 1;
            }
            Err(refusal) => {
                assert_eq!(answer, format!("{} {refusal:?}", refusal.number()), "line {line}");
                assert_eq!(judged.map_err(|refusal| refusal as u32), Err(refusal.number()), "line {line}");
                assert_eq!(example.rows.len(), 3, "line {line}");
                refused += 1;
            }
        }
    }
    (taken, refused)
}

#[test]
fn ways_up_and_down_hold() {
    let up = conversions_hold(Way::Up, ["old", "new"], [upgrade, downgrade]);
    let down = conversions_hold(Way::Down, ["new", "old"], [downgrade, upgrade]);
    let (taken, refused) = (up.0 + down.0, up.1 + down.1);
    println!("format: {taken} conversions both ways, {refused} refused, as shown");
    assert!(taken > 0 && up.1 > 1 && down.1 > 1, "{up:?} {down:?}");
}
