//! The pages of examples/: each .page is what the tree here is written as, each .jsx the source of that tree, each
//! .card what the judge prints of the page and what the program `card` prints. With EXAMPLES_WRITE=1 the files are
//! written, the cards by the judge; without it they are only compared. Of each .tag the .field is what the program
//! `jsx-precompile tag` says, and what the judge reads. A .templates is templates out of a page, and its .found what
//! `jsx-precompile find` says of them. An .order is what the order here is written as, and its .html what it makes of these
//! templates. festival.catalogue and festival-before.catalogue have pages of these under festival.shares, and their .list is
//! what `jsx-precompile catalogue list` says of them. NAME-old and NAME-new, .templates and .out, are both outs of a page as version 0.1.0 wrote them and as they
//! are written now.

mod common;
mod program;
mod trees;

use common::{jsx_precompile, no_judge, say};
use jsx_precompile::catalogue::{Catalogue, CatalogueError, Shares};
use jsx_precompile::javascript::Printer;
use jsx_precompile::out::{PageOut, Templates};
use jsx_precompile::page::Page;
use jsx_precompile::{Forms, Options, Order, downgrade, fill, transform, upgrade};
use oracle::outs::convert::{self, Way};
use oracle::outs::shares as judge;
use oracle::{marks, outcome};
use program::{Program, parting};
use std::collections::BTreeSet;
use std::fs;
use std::path::{Path, PathBuf};
use std::sync::Once;
use trees::{Example, festival, orders};

const VARIABLE: &str = "EXAMPLES_WRITE";

/// What `jsx-precompile build --sums` prints of the example with sums; the card takes no options.
const SUMS: (&str, &str) = ("blocks", "examples/blocks.sums.js");

/// The tag texts, and the number that each is answered with.
const TAGS: [(&str, u32); 7] =
    [("worked", 0), ("programme", 0), ("spaces", 0), ("crossed", 15), ("open", 14), ("list", 14), ("unit", 14)];

/// The page whose templates are looked up, and the numbers that are asked for.
const FOUND: (&str, [u32; 4]) = ("rows", [1, 2, 3, 9]);

/// The page whose outs are converted.
const CONVERTED: &str = "hall";

/// A file of the repository, by its name seen from the root.
fn at(name: &str) -> PathBuf {
    Path::new(env!("CARGO_MANIFEST_DIR")).with_file_name("").join(name)
}

fn stored(name: &str) -> Vec<u8> {
    fs::read(at(name)).unwrap_or_else(|error| panic!("{name}: {error}"))
}

fn file(example: &Example, end: &str) -> String {
    format!("examples/{}.{end}", example.name)
}

/// All examples; the files are written before, where that is asked.
fn examples() -> Vec<Example> {
    static WRITTEN: Once = Once::new();
    let examples = trees::all();
    if std::env::var(VARIABLE).is_ok_and(|word| word == "1") {
        WRITTEN.call_once(|| write(&examples));
    }
    examples
}

fn write(examples: &[Example]) {
    if !oracle::AVAILABLE {
        panic!("{VARIABLE}: the cards are the judge's, and it was built without jsx_precompile.rs");
    }
    for example in examples {
        let files = [
            ("jsx", example.tree.to_jsx().into_bytes()),
            ("page", example.page.clone()),
            ("card", oracle::card(&example.page)),
        ];
        for (end, bytes) in files {
            let name = file(example, end);
            fs::write(at(&name), bytes).unwrap_or_else(|error| panic!("{name}: {error}"));
        }
    }
    fs::write(at(SUMS.1), sums_by_the_judge(examples)).unwrap_or_else(|error| panic!("{}: {error}", SUMS.1));
    for (name, order) in orders() {
        for (name, bytes) in filled_by_the_judge(examples, name, &order) {
            fs::write(at(&name), bytes).unwrap_or_else(|error| panic!("{name}: {error}"));
        }
    }
    let found = format!("examples/{}.found", FOUND.0);
    fs::write(at(&found), found_said()).unwrap_or_else(|error| panic!("{found}: {error}"));
    for (name, bytes) in converted_by_the_judge(examples) {
        fs::write(at(&name), bytes).unwrap_or_else(|error| panic!("{name}: {error}"));
    }
    fs::write(at(SHARES), festival::SHARES).unwrap_or_else(|error| panic!("{SHARES}: {error}"));
    for (name, bytes) in catalogues_by_the_judge(examples) {
        fs::write(at(&name), bytes).unwrap_or_else(|error| panic!("{name}: {error}"));
        let list = name.replace(".catalogue", ".list");
        fs::write(at(&list), listed(&name)).unwrap_or_else(|error| panic!("{list}: {error}"));
    }
    for (tag, _) in TAGS {
        let name = format!("examples/{tag}.field");
        fs::write(at(&name), tag_said(tag)).unwrap_or_else(|error| panic!("{name}: {error}"));
    }
    say(&format!("examples: {} written, and the fields of {} tags", examples.len(), TAGS.len()));
}

fn templates_by_the_judge(examples: &[Example], name: &str) -> Vec<u8> {
    let example = examples.iter().find(|example| example.name == name).expect("the example is there");
    outcome(&example.page, &[]).expect("the judge takes it").templates
}

/// The files of templates that are filled, with their bytes: the templates, the order, and the HTML with a line end.
fn filled_by_the_judge(examples: &[Example], name: &str, order: &Order) -> [(String, Vec<u8>); 3] {
    let templates = templates_by_the_judge(examples, name);
    let order = order.to_bytes().expect("an order");
    let html = oracle::outs::fill::outcome(&templates, &order).expect("the judge fills it");
    let file = |end: &str| format!("examples/{name}.{end}");
    [(file("templates"), templates), (file("order"), order), (file("html"), [&html[..], b"\n"].concat())]
}

#[test]
fn orders_and_html() {
    let examples = examples();
    let readme = String::from_utf8(stored("host/README.md")).expect("text");
    for (name, order) in orders() {
        let [templates, ordered, html] = ["templates", "order", "html"].map(|end| format!("examples/{name}.{end}"));
        let page = stored(&format!("examples/{name}.page"));
        let forms = transform(&page, &Options::new()).expect("it is taken");
        assert!(stored(&templates) == forms.templates_bytes(), "{templates} is not what the library writes");
        assert_eq!(Order::from_bytes(&stored(&ordered)).as_ref(), Ok(&order), "{ordered}");
        let filled = fill(forms.templates_bytes(), &stored(&ordered)).expect("it is filled");
        assert!(oracle::demand3::well_nested(filled.as_bytes()), "{filled}");
        holds(&html, "the library", format!("{filled}\n").as_bytes());
        let said = jsx_precompile(&["fill", &templates, &ordered], b"");
        holds(&html, "the program", &[said.stdout, said.stderr].concat());
        if !no_judge() {
            for (name, bytes) in filled_by_the_judge(&examples, name, &order) {
                assert!(stored(&name) == bytes, "{name} is not what the judge writes");
            }
        }
        if name == FOUND.0 {
            let shown = format!("\n$ jsx-precompile fill {templates} {ordered}\n{filled}\n");
            assert!(readme.contains(&shown), "host/README.md shows other HTML");
            let readme = String::from_utf8(stored("README.md")).expect("text");
            assert!(readme.contains(&format!(" fill {templates} {ordered}\n{filled}\n")), "README.md shows other HTML");
        }
    }
    say(&format!("examples: {} orders filled, as stored", orders().len()));
}

/// The files of the outs that are converted: old templates and page out, then new ones.
fn converted_files() -> [String; 4] {
    let file = |end: &str| format!("examples/{CONVERTED}-{end}");
    [file("old.templates"), file("old.out"), file("new.templates"), file("new.out")]
}

/// These files with their bytes: what the judge of the transform writes, and what the judge of the way down makes of it.
fn converted_by_the_judge(examples: &[Example]) -> Vec<(String, Vec<u8>)> {
    let example = examples.iter().find(|example| example.name == CONVERTED).expect("the example is there");
    let new = outcome(&example.page, &[]).expect("the judge takes it");
    let old = convert::outcome(Way::Down, &new.templates, &new.page).expect("it goes down");
    converted_files().into_iter().zip([old.templates, old.page, new.templates, new.page]).collect()
}

#[test]
fn outs_old_and_new() {
    let examples = examples();
    let [old, old_page, new, new_page] = converted_files().map(|name| stored(&name));
    let forms = transform(&stored(&format!("examples/{CONVERTED}.page")), &Options::new()).expect("it is taken");
    assert!((&new[..], &new_page[..]) == (forms.templates_bytes(), forms.page_bytes()), "not what the library writes");
    let up = upgrade(&old, &old_page).expect("it goes up");
    assert!((&new[..], &new_page[..]) == (up.templates_bytes(), up.page_bytes()), "the old ones become others");
    let down = downgrade(&new, &new_page).expect("it goes down");
    assert!((&old[..], &old_page[..]) == (down.templates_bytes(), down.page_bytes()), "the new ones become others");
    let judged = convert::outcome(Way::Up, &old, &old_page).expect("the judge takes it");
    assert!((new, new_page) == (judged.templates, judged.page), "the judge makes others of the old ones");
    if !no_judge() {
        for (name, bytes) in converted_by_the_judge(&examples) {
            assert!(stored(&name) == bytes, "{name} is not what the judge writes");
        }
    }
    say("examples: an old shelf and page out go up and come back as stored");
}

/// What both houses of the festival have.
const SHARES: &str = "examples/festival.shares";

/// The catalogue before some calls and behind them, by the judge.
fn catalogues_by_the_judge(examples: &[Example]) -> [(String, Vec<u8>); 2] {
    let shares: Shares = festival::SHARES.parse().expect("shares");
    let mut bytes = vec![0; festival::LENGTH];
    let add = |bytes: &mut [u8], name: u32, house: u32, page: &str| {
        let example = examples.iter().find(|example| example.name == page).expect("the example is there");
        let outs = outcome(&example.page, &[]).expect("the judge takes it");
        judge::add(bytes, name, house, &shares.numbers(), &outs.templates, &outs.page).number
    };
    let call = |bytes: &mut [u8], call: &festival::Call| {
        let (answered, due) = match *call {
            festival::Call::Arrives { name, house, page } => (add(bytes, name, house, page), 0),
            festival::Call::Leaves { name } => (judge::remove(bytes, name).number, 0),
            festival::Call::Refused { name, house, page, number } => (add(bytes, name, house, page), number),
        };
        assert_eq!(answered, due);
    };
    festival::BEFORE.iter().for_each(|one| call(&mut bytes, one));
    let before = bytes.clone();
    festival::AFTER.iter().for_each(|one| call(&mut bytes, one));
    [("before", before), ("", bytes)].map(|(word, bytes)| (catalogue_file(word), bytes))
}

fn catalogue_file(word: &str) -> String {
    format!("examples/festival{}{word}.catalogue", if word.is_empty() { "" } else { "-" })
}

/// What the program lists.
fn listed(catalogue: &str) -> Vec<u8> {
    jsx_precompile(&["catalogue", "list", "--shares", SHARES, catalogue], b"").stdout
}

/// What the library writes of an example.
fn outs(page: &str) -> Forms {
    transform(&stored(&format!("examples/{page}.page")), &Options::new()).expect("it is taken")
}

/// A call of the festival by the library.
fn called(catalogue: &mut Catalogue, call: &festival::Call) {
    let shares: Shares = festival::SHARES.parse().expect("shares");
    let mut add = |name: u32, house: u32, page: &str| {
        let forms = outs(page);
        let added = catalogue.add(name, house, &shares, forms.templates_bytes(), forms.page_bytes());
        added.map_or_else(|error: CatalogueError| error.refusal().number(), |()| 0)
    };
    match *call {
        festival::Call::Arrives { name, house, page } => assert_eq!(add(name, house, page), 0),
        festival::Call::Leaves { name } => catalogue.remove(name).expect("it is there"),
        festival::Call::Refused { name, house, page, number } => assert_eq!(add(name, house, page), number),
    }
}

#[test]
fn a_festival() {
    let examples = examples();
    assert_eq!(String::from_utf8(stored(SHARES)).as_deref(), Ok(festival::SHARES));
    let mut catalogue = Catalogue::new(festival::LENGTH);
    festival::BEFORE.iter().for_each(|call| called(&mut catalogue, call));
    let before = catalogue.bytes().to_vec();
    festival::AFTER.iter().for_each(|call| called(&mut catalogue, call));
    for (name, bytes) in [(catalogue_file("before"), &before[..]), (catalogue_file(""), catalogue.bytes())] {
        assert!(stored(&name) == bytes, "{name} is not what the library writes");
        holds(&name.replace(".catalogue", ".list"), "the program", &listed(&name));
    }
    if !no_judge() {
        for (name, bytes) in catalogues_by_the_judge(&examples) {
            assert!(stored(&name) == bytes, "{name} is not what the judge writes");
        }
    }
    let list = String::from_utf8(stored("examples/festival.list")).expect("text");
    for readme in ["host/README.md", "README.md"] {
        let text = String::from_utf8(stored(readme)).expect("text");
        let shown = format!(" catalogue list --shares {SHARES} {}\n{list}", catalogue_file(""));
        assert!(text.contains(&shown), "{readme} shows another catalogue");
    }
    say(&format!("examples: {} calls of a catalogue, as stored", festival::BEFORE.len() + festival::AFTER.len()));
}

/// Each page there is as it arrived, and still the module that it was, but for its numbers.
#[test]
fn pages_of_the_festival() {
    examples();
    let catalogue = Catalogue::over(stored(&catalogue_file(""))).expect("it is sound");
    for page in catalogue.pages() {
        let arrived = festival::BEFORE.iter().chain(&festival::AFTER).find_map(|call| match call {
            festival::Call::Arrives { name, page: file, .. } => (*name == page.name()).then(|| outs(file)),
            _ => None,
        });
        let forms = arrived.expect("it arrived");
        let (templates, page_out) = page.as_arrived();
        assert_eq!((&templates[..], &page_out[..]), (forms.templates_bytes(), forms.page_bytes()));
        let plain = |module: String| module.replace(|letter: char| letter.is_ascii_digit(), "");
        assert_eq!(plain(Printer::new(page.templates(), page.page()).module()), plain(forms.javascript()));
    }
    assert_eq!(catalogue.count(), 3);
}

/// What the program finds.
fn found_said() -> Vec<u8> {
    let numbers = FOUND.1.map(|number| number.to_string());
    let words = [vec!["find".to_string(), format!("examples/{}.templates", FOUND.0)], numbers.to_vec()].concat();
    jsx_precompile(&words.iter().map(String::as_str).collect::<Vec<_>>(), b"").stdout
}

#[test]
fn templates_and_their_places() {
    let examples = examples();
    let name = format!("examples/{}.templates", FOUND.0);
    let templates = stored(&name);
    let page = stored(&format!("examples/{}.page", FOUND.0));
    let forms = transform(&page, &Options::new()).expect("it is taken");
    assert!(templates == forms.templates_bytes(), "{name} is not what the library writes");
    if !no_judge() {
        assert!(templates == templates_by_the_judge(&examples, FOUND.0), "{name} is not what the judge writes");
    }
    let found = format!("examples/{}.found", FOUND.0);
    holds(&found, "the program", &found_said());
    let text = String::from_utf8(stored(&found)).expect("text");
    let (records, places) = oracle::outs::find::outcome(&templates, &FOUND.1).expect("the judge takes it");
    let all = places.iter().map(|place| match *place {
        oracle::outs::find::ABSENT => "absent".to_string(),
        place => format!("{place:6}"),
    });
    assert!(all.eq(text.lines().take(places.len()).map(|line| line[..6].to_string())), "{places:?}\n{text}");
    assert!(text.ends_with(&format!(" found, {records} templates read\n")), "{records} templates read");
    let readme = String::from_utf8(stored("host/README.md")).expect("text");
    let numbers = FOUND.1.map(|number| number.to_string()).join(" ");
    let shown = format!("\n$ jsx-precompile find {name} {numbers}\n{text}");
    assert!(readme.contains(&shown), "host/README.md shows other places");
    let readme = String::from_utf8(stored("README.md")).expect("text");
    assert!(readme.contains(&format!(" find {name} {numbers}\n{text}")), "README.md shows other places");
    say(&format!("examples: {} numbers looked up, as stored", places.len()));
}

/// What the program says of a tag text, wherever it says it.
fn tag_said(tag: &str) -> Vec<u8> {
    let output = jsx_precompile(&["tag", &format!("examples/{tag}.tag")], b"");
    [output.stdout, output.stderr].concat()
}

#[test]
fn tags_and_fields() {
    examples();
    for (tag, number) in TAGS {
        holds(&format!("examples/{tag}.field"), "the program", &tag_said(tag));
        let text = stored(&format!("examples/{tag}.tag"));
        let text = text.strip_suffix(b"\n").expect("a line end");
        let said = String::from_utf8(tag_said(tag)).expect("text");
        match oracle::tag::outcome(text) {
            Ok(field) => {
                assert_eq!(number, 0, "examples/{tag}.tag");
                assert!(said.ends_with(&format!(
                    "tag: {} bytes, {} fields, {} deep\n",
                    field.len(),
                    fields(&field),
                    depth(&field)
                )));
            }
            Err(refusal) => {
                assert_eq!(number, refusal as u32, "examples/{tag}.tag");
                assert!(said.contains(&format!(": {number}: ")), "{said}");
            }
        }
    }
    let readme = String::from_utf8(stored("host/README.md")).expect("text");
    let open = String::from_utf8(stored("examples/open.field")).expect("text");
    assert!(readme.contains(&format!("\n{open}")), "host/README.md shows another refusal of examples/open.tag");
    say(&format!("examples: {} tag texts, their fields and refusals as stored", TAGS.len()));
}

fn fields(field: &[u8]) -> usize {
    oracle::field::read(field).expect("fields").iter().map(oracle::field::Node::fields).sum()
}

fn depth(field: &[u8]) -> usize {
    oracle::field::depth(field)
}

fn with_sums(examples: &[Example]) -> &Example {
    examples.iter().find(|example| example.name == SUMS.0).expect("the example is there")
}

/// The judge's outputs, printed as the program prints the library's.
fn sums_by_the_judge(examples: &[Example]) -> String {
    let options = Options::new().sums(true).to_bytes().expect("options");
    let output = outcome(&with_sums(examples).page, &options).expect("the judge takes it");
    let templates = Templates::read(&output.templates).expect("templates");
    Printer::new(templates, PageOut::read(&output.page).expect("a page out")).module()
}

/// A stored text is what another text says it is.
fn holds(name: &str, other: &str, text: &[u8]) {
    if let Some(words) = parting([name, other], [&stored(name), text]) {
        panic!("{words}");
    }
}

#[test]
fn pages_and_sources() {
    let examples = examples();
    for example in &examples {
        let Example { name, tree, page } = example;
        let bytes = stored(&file(example, "page"));
        if bytes != *page {
            let place = bytes.iter().zip(page).take_while(|(one, other)| one == other).count();
            let lengths = (bytes.len(), page.len());
            panic!("examples/{name}.page parts from the tree's bytes at byte {place}; their lengths are {lengths:?}");
        }
        match (*name, Page::from_bytes(&bytes)) {
            ("damaged", Err(fault)) => assert_eq!((fault.at, fault.refusal.number()), (26, 3), "{fault}"),
            (_, read) => assert_eq!(read.as_ref(), Ok(tree), "examples/{name}.page"),
        }
        holds(&file(example, "jsx"), "the tree", tree.to_jsx().as_bytes());
    }
    say(&format!("examples: {} pages and their sources as stored", examples.len()));
}

#[test]
fn cards_of_the_judge() {
    let examples = examples();
    if no_judge() {
        return;
    }
    for example in &examples {
        holds(&file(example, "card"), "the judge", &oracle::card(&example.page));
    }
    say(&format!("examples: {} cards as the judge prints them", examples.len()));
}

#[test]
fn cards_of_the_program() {
    let examples = examples();
    let card = Program::found("card");
    for example in &examples {
        let page = stored(&file(example, "page"));
        let printed = card.prints(&[&page]).unwrap_or_else(|words| panic!("{}: {words}", file(example, "page")));
        holds(&file(example, "card"), "the program", &printed);
    }
    say(&format!("examples: {} cards as the program prints them", examples.len()));
}

#[test]
fn sums_worked_out() {
    let examples = examples();
    let forms = transform(&with_sums(&examples).page, &Options::new().sums(true)).expect("it is taken");
    holds(SUMS.1, "the library", forms.javascript().as_bytes());
    let shown = String::from_utf8(common::jsx_precompile(&["build", "--sums", "examples/blocks.page"], b"").stdout);
    holds(SUMS.1, "the program", shown.expect("text").as_bytes());
    if !no_judge() {
        holds(SUMS.1, "the judge", sums_by_the_judge(&examples).as_bytes());
    }
}

/// The texts that document 01 fixes, as the marks have them: there the tag is all of the statement.
#[test]
fn cards_of_the_paper() {
    let marks = marks::all();
    let all = examples();
    let of_the_table = all.iter().filter(|example| example.name.starts_with('k') || example.name == "worked");
    let mut count = 0;
    for example in of_the_table {
        let mark = match example.name {
            "worked" => "card",
            "k5-gap" => "k5-string",
            "k7-left" => "k7-nested",
            name => name,
        };
        let mark = marks.iter().find(|one| one.name == mark).unwrap_or_else(|| panic!("no mark {mark}"));
        let text = match &mark.printed {
            None => format!("{}\n", mark.number),
            Some(text) if example.name == "worked" => text.clone(),
            Some(text) => {
                let start = text.trim_end().rfind('\n').map_or(0, |end| end + 1);
                format!("{}const a = {};\n", &text[..start], text[start..].trim_end())
            }
        };
        holds(&file(example, "card"), &format!("the mark {}", mark.name), text.as_bytes());
        count += 1;
    }
    assert_eq!(count, 12, "the worked example, K1 to K9, and the second of K5 and of K7");
    say(&format!("examples: {count} cards as document 01 has them"));
}

/// The program's own run in `rt ci` is the worked example.
#[test]
fn files_of_the_program() {
    examples();
    for (own, example) in [("crates/card/stdin", "worked.page"), ("crates/card/stdout", "worked.card")] {
        let example = format!("examples/{example}");
        assert!(stored(own) == stored(&example), "{own} is not a copy of {example}");
    }
}

/// No file is left over, and both READMEs tell what the files have.
#[test]
fn folder_and_readmes() {
    let examples = examples();
    let files = examples.iter().flat_map(|example| ["card", "jsx", "page"].map(|end| file(example, end)));
    let of_tags = TAGS.iter().flat_map(|(tag, _)| ["tag", "field"].map(|end| format!("examples/{tag}.{end}")));
    let of_orders = orders()
        .into_iter()
        .flat_map(|(name, _)| ["templates", "order", "html"].map(|end| format!("examples/{name}.{end}")));
    let expected: BTreeSet<String> = files
        .chain(of_tags)
        .chain(of_orders)
        .chain([format!("examples/{}.found", FOUND.0)])
        .chain(converted_files())
        .chain(["before", ""].map(catalogue_file))
        .chain(["before", ""].map(|word| catalogue_file(word).replace(".catalogue", ".list")))
        .chain(["examples/README.md", SUMS.1, SHARES].map(str::to_string))
        .collect();
    let folder = fs::read_dir(at("examples")).unwrap_or_else(|error| panic!("examples: {error}"));
    for file in folder {
        let name = format!("examples/{}", file.expect("it is there").file_name().display());
        assert!(expected.contains(&name), "{name} is the file of no example");
    }

    let list = String::from_utf8(stored("examples/README.md")).expect("text");
    for example in &examples {
        let name = example.name;
        assert!(list.contains(&format!("\n| `{name}` |")), "examples/README.md has no line for {name}");
    }
    assert!(list.contains(&format!("\n| `{}.templates` |", FOUND.0)), "examples/README.md has no line for templates");
    for (name, _) in orders() {
        assert!(list.contains(&format!("\n| `{name}.order` |")), "examples/README.md has no line for {name}.order");
    }
    for name in converted_files() {
        let name = name.strip_prefix("examples/").expect("a file of examples/");
        assert!(list.contains(&format!("`{name}`")), "examples/README.md does not name {name}");
    }
    for name in ["before", ""].map(catalogue_file) {
        let name = name.strip_prefix("examples/").expect("a file of examples/");
        assert!(list.contains(&format!("\n| `{name}` |")), "examples/README.md has no line for {name}");
    }
    for (tag, _) in TAGS {
        assert!(list.contains(&format!("\n| `{tag}.tag` |")), "examples/README.md has no line for {tag}.tag");
    }
    let readme = String::from_utf8(stored("README.md")).expect("text");
    for name in ["examples/worked.jsx", "examples/worked.card"] {
        let text = String::from_utf8(stored(name)).expect("text");
        assert!(readme.contains(&text), "README.md does not show {name} as it is");
    }
}
