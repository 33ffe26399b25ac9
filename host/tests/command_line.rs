//! The program `jsx-precompile`: what it prints where, what it writes, and the status it ends with. `show` and `preview`
//! have files of their own.

mod common;

use common::jsx_precompile;
use jsx_precompile::{Options, Refusal, transform};
use std::path::Path;

/// The status, standard output and standard error.
fn run(words: &[&str], input: &[u8]) -> (i32, String, String) {
    let output = jsx_precompile(words, input);
    let [out, said] = [output.stdout, output.stderr].map(|text| String::from_utf8(text).expect("text"));
    (output.status.code().expect("a status"), out, said)
}

fn example(name: &str) -> Vec<u8> {
    let folder = Path::new(env!("CARGO_MANIFEST_DIR")).with_file_name("examples");
    std::fs::read(folder.join(name)).unwrap_or_else(|error| panic!("{name}: {error}"))
}

/// A file that is not there yet.
fn room(name: &str) -> String {
    let file = Path::new(env!("CARGO_TARGET_TMPDIR")).join(name);
    let _ = std::fs::remove_file(&file);
    file.to_str().expect("a name").to_string()
}

#[test]
fn build() {
    let page = example("hall.page");
    let module = transform(&page, &Options::new()).expect("it is taken").javascript();
    assert_eq!(run(&["build", "examples/hall.page"], b""), (0, module.clone(), String::new()));
    assert_eq!(run(&["build", "-"], &page), (0, module.clone(), String::new()));
    let hex: String = page.iter().map(|byte| format!("{byte:02X}\n")).collect();
    assert_eq!(run(&["build", "-"], hex.as_bytes()), (0, module, String::new()));
}

#[test]
fn build_with_options() {
    let page = example("hall.page");
    let options = Options::new().skip_serialize(["h1", "p"]).skip_prop_serialize(["id"]).import_source("preact");
    let module = transform(&page, &options).expect("it is taken").javascript();
    assert_ne!(module, transform(&page, &Options::new()).expect("it is taken").javascript());
    let words = ["--skip-element", "h1", "--skip-element=p", "--skip-attribute", "id", "--import-source", "preact"];
    assert_eq!(
        run(&[&["build"], &words[..], &["examples/hall.page"]].concat(), b""),
        (0, module.clone(), String::new())
    );
    assert_eq!(run(&[&["build", "examples/hall.page"], &words[..]].concat(), b""), (0, module, String::new()));
    let page = example("blocks.page");
    let module = transform(&page, &Options::new().sums(true)).expect("it is taken").javascript();
    assert_ne!(module, transform(&page, &Options::new()).expect("it is taken").javascript());
    assert_eq!(run(&["build", "--sums", "examples/blocks.page"], b""), (0, module, String::new()));
    // options that are refused are said to be the options
    let (status, out, said) = run(&["build", "--import-source", "", "examples/hall.page"], b"");
    assert_eq!((status, &*out), (1, ""));
    let expected = "examples/hall.page: options, byte 3, 04: 4 (misplaced): 04 (import source) is empty";
    assert_eq!(said, format!("jsx-precompile: {expected}\n"));
}

#[test]
fn build_both_outputs() {
    let forms = transform(&example("hall.page"), &Options::new()).expect("it is taken");
    let (templates, page) = (room("hall.templates"), room("hall.out"));
    let words = ["build", "--templates", &templates, "--page", &page, "examples/hall.page"];
    assert_eq!(run(&words, b""), (0, String::new(), String::new()));
    assert_eq!(std::fs::read(&templates).expect("it is written"), forms.templates_bytes());
    assert_eq!(std::fs::read(&page).expect("it is written"), forms.page_bytes());
    // a page that is refused writes neither
    let (templates, page) = (room("damaged.templates"), room("damaged.out"));
    let words = ["build", "--templates", &templates, "--page", &page, "examples/damaged.page"];
    assert_eq!(run(&words, b"").0, 1);
    assert!(!Path::new(&templates).exists() && !Path::new(&page).exists());
    // nor one where there is no folder for it
    let (status, _, said) =
        run(&["build", "--templates", "no/such/folder", "--page", &page, "examples/hall.page"], b"");
    assert!(status == 2 && said.starts_with("jsx-precompile: no/such/folder: "), "{said}");
}

#[test]
fn check() {
    let (status, out, said) = run(&["check", "examples/rows.page", "examples/worked.page"], b"");
    assert_eq!((status, &*said), (0, ""));
    assert_eq!(out, "examples/rows.page: taken, 3 templates\nexamples/worked.page: taken, 1 template\n");
    let words = ["check", "examples/damaged.page", "examples/worked.page", "examples/k7-left.page"];
    let (status, out, said) = run(&words, b"");
    assert_eq!((status, &*out), (1, "examples/worked.page: taken, 1 template\n"));
    let expected = "jsx-precompile: examples/damaged.page: page, byte 26, 01 > 12[0] > 30 p: 3 (torn): 50 (attribute) of 44 bytes where 28 are left
jsx-precompile: examples/k7-left.page: page, byte 22, 01 > 12[0] > 31 > 31: 10 (bare tag): an element or fragment would be left untransformed
";
    assert_eq!(said, expected);
    let readme = include_str!("../README.md");
    assert!(said.lines().any(|line| readme.contains(&format!("\n{line}\n"))), "README.md shows another refusal");
    // what cannot be read outweighs what is refused
    let (status, _, said) = run(&["check", "examples/damaged.page", "no such file"], b"");
    assert!(status == 2 && said.contains("jsx-precompile: no such file: "), "{said}");
}

/// What the READMEs show of templates.
#[test]
fn templates_in_the_readmes() {
    for (name, readme, whole) in
        [("hall", include_str!("../README.md"), true), ("worked", include_str!("../../README.md"), false)]
    {
        let [templates, page] = [room(&format!("{name}.templates")), room(&format!("{name}.out"))];
        let built = ["build", "--templates", &templates, "--page", &page, &format!("examples/{name}.page")];
        assert_eq!(run(&built, b""), (0, String::new(), String::new()));
        let (status, shown, said) = run(&["show", &templates], b"");
        assert_eq!((status, &*said), (0, ""));
        let (tree, _) = shown.trim_end().rsplit_once('\n').expect("lines, and the count of them");
        assert!(
            readme.contains(if whole { &shown } else { tree }),
            "a README shows other templates of {name}: {shown}"
        );
    }
}

#[test]
fn tag() {
    let field = "3000054000026272";
    for text in ["<br/>", "<br/>\n", "<br/>\r\n", "< br / >\n"] {
        assert_eq!(run(&["tag", "--as", "hex", "-"], text.as_bytes()), (0, format!("{field}\n"), String::new()));
    }
    // digits are text here, and one line end is left out
    for (text, said) in [
        (&b"3c62722f3e"[..], "line 1, column 1: 14: expected `<`, with which a tag begins, found `3`"),
        (b"<br/>\n\n", "line 1, column 6: 14: `\\n` stands behind the tag"),
        (b"<br/>\r", "line 1, column 6: 14: `\\r` stands behind the tag"),
        (b"<p>\xff</p>", "line 1, column 4: 6: byte ff is not UTF-8"),
    ] {
        let expected = format!("jsx-precompile: standard input: {said}\n");
        assert_eq!(run(&["tag", "-"], text), (1, String::new(), expected));
    }
    // its page is one that is built
    let (status, page, _) = run(&["tag", "--as", "page", "examples/worked.tag"], b"");
    let (built, module, said) = run(&["build", "-"], page.as_bytes());
    assert_eq!((status, built, &*said), (0, 0, ""));
    assert!(
        module.ends_with(
            "const $$_tpl_1 = [\"<p class=\\\"t\\\">Hi \", \"</p>\"];\n_jsxTemplate($$_tpl_1, _jsxEscape(n))\n"
        ),
        "{module}"
    );
    let deep = format!("{}{}", "<a>".repeat(60), "</a>".repeat(60));
    let (status, _, said) = run(&["tag", "--as", "page", "-"], deep.as_bytes());
    assert!(status == 1 && said.contains(": 8: "), "{said}");
    let (status, _, said) = run(&["tag", "no such file"], b"");
    assert!(status == 2 && said.starts_with("jsx-precompile: no such file: "), "{said}");
}

#[test]
fn find() {
    let found = "     0  84 template 1: child\n    38  84 template 2: attribute, child, child\n";
    let templates = example("rows.templates");
    assert_eq!(
        run(&["find", "examples/rows.templates", "1", "2"], b""),
        (0, format!("{found}2 of 2 found, 2 templates read\n"), String::new())
    );
    let absent = "absent  84 template 4294967295\n0 of 1 found, 3 templates read\n";
    assert_eq!(run(&["find", "-", "4294967295"], &templates), (0, absent.to_string(), String::new()));
    assert_eq!(run(&["find", "-"], &templates), (0, "0 of 0 found, 0 templates read\n".to_string(), String::new()));
    let hex: String = templates.iter().map(|byte| format!("{byte:02x}")).collect();
    let one = "     0  84 template 1: child\n1 of 1 found, 1 template read\n";
    assert_eq!(run(&["find", "-", "1"], hex.as_bytes()), (0, one.to_string(), String::new()));
    for (bytes, words, said) in [
        (&templates[..], &["2", "1"][..], Refusal::NotRising.to_string()),
        (&templates[..40], &["2", "1"], "templates out, byte 38: 3 (torn): 2 bytes where a field begins".to_string()),
        (
            b"\x80\0\x05\0\x01\x81\0\0",
            &["1"],
            "templates out, byte 0: 4 (misplaced): 80s are not looked up; `jsx-precompile upgrade` makes 84s of them"
                .to_string(),
        ),
    ] {
        let expected = format!("jsx-precompile: standard input: {said}\n");
        assert_eq!(run(&[&["find", "-"], words].concat(), bytes), (1, String::new(), expected));
    }
}

#[test]
fn fill() {
    let (templates, order) = (example("rows.templates"), example("rows.order"));
    let html = String::from_utf8(example("rows.html")).expect("text");
    let files = ["examples/rows.templates", "examples/rows.order"];
    assert_eq!(run(&[&["fill"], &files[..]].concat(), b""), (0, html.clone(), String::new()));
    assert_eq!(run(&["fill", "-", files[1]], &templates), (0, html.clone(), String::new()));
    let hex: String = order.iter().map(|byte| format!("{byte:02x} ")).collect();
    assert_eq!(run(&["fill", files[0], "-"], hex.as_bytes()), (0, html, String::new()));
    // HTML of one empty string.
    let words = ["fill", "-", files[1]];
    let empty = b"\x84\0\x09\0\0\0\x01\0\0\x81\0\0";
    assert_eq!(run(&["fill", "examples/rows.templates", "-"], b"\x85\0\x04\0\0\0\x07").0, 1);
    let given = "order, byte 0, 85 1: 18 (unfitting): template 1 has no gaps and is given 1 filling";
    assert_eq!(run(&words, empty), (1, String::new(), format!("jsx-precompile: examples/rows.order: {given}\n")));
    for (words, input, said) in [
        (
            ["fill", "-", files[1]],
            &templates[..40],
            "standard input: templates out, byte 38: 3 (torn): 2 bytes where a field begins",
        ),
        (
            ["fill", "-", "examples/damaged.page"],
            b"\x80\0\x05\0\x01\x81\0\0",
            "standard input: templates out, byte 0, 80 1: 4 (misplaced): 80s are not filled; `upgrade` makes 84s of them",
        ),
        (
            ["fill", files[0], "-"],
            b"\x85\0\x04\0\0\0\x04",
            "standard input: order, byte 0, 85 4: 18 (unfitting): there is no template 4",
        ),
        (
            ["fill", files[0], "examples/worked.page"],
            b"",
            "examples/worked.page: order, byte 0, 01: 4 (misplaced): 01 (page) stands where an order (85) may stand",
        ),
    ] {
        assert_eq!(run(&words, input), (1, String::new(), format!("jsx-precompile: {said}\n")), "{words:?}");
    }
    let (status, _, said) = run(&["fill", files[0], "no such file"], b"");
    assert!(status == 2 && said.starts_with("jsx-precompile: no such file: "), "{said}");
}

/// What host/README.md and examples/README.md show: a catalogue is made, pages come and leave, and it is the stored one.
#[test]
fn catalogue() {
    let file = room("hall.catalogue");
    let shares = ["--shares", "examples/festival.shares"];
    let catalogue = |words: &[&str]| run(&[&["catalogue"], words].concat(), b"");
    let outs = |page: &str| {
        let [templates, out] = ["templates", "out"].map(|end| room(&format!("catalogue-{page}.{end}")));
        let words = ["build", "--templates", &templates, "--page", &out, &format!("examples/{page}.page")];
        assert_eq!(run(&words, b""), (0, String::new(), String::new()));
        [templates, out]
    };
    let add = |name: &str, house: &str, page: &str| {
        let [templates, out] = outs(page);
        let (status, out, said) = catalogue(&["add", shares[0], shares[1], &file, name, house, &templates, &out]);
        (status, out + &said)
    };
    let readme = include_str!("../README.md");
    assert_eq!(catalogue(&["new", &file, "2048"]), (0, String::new(), String::new()));
    assert_eq!(std::fs::read(&file).expect("it is written"), [0; 2_048]);
    let (status, out, said) = catalogue(&["new", &file, "2048"]);
    assert!(status == 2 && out.is_empty() && said.starts_with(&format!("jsx-precompile: {file}: ")), "{said}");
    let shown = "       0  page 11 of house 1: 440 bytes, templates 1 to 3\n";
    assert_eq!(add("11", "1", "rows"), (0, shown.to_string()));
    assert!(readme.contains(&format!(" 11 1 rows.templates rows.out\n{shown}")), "host/README.md shows another page");
    assert_eq!(add("21", "2", "hall").0, 0);
    assert_eq!(add("12", "1", "choices").0, 0);
    assert_eq!(std::fs::read(&file).expect("it is there"), example("festival-before.catalogue"));
    let refused = |words: &str| (1, format!("jsx-precompile: {file}: {words}\n"));
    assert_eq!(
        add("13", "1", "paper"),
        refused("shares: 24 (over the most): house 1 would have 2085 bytes, and may have 1500")
    );
    assert_eq!(
        add("13", "1", "prices"),
        refused("catalogue: 25 (not covered): the page has 464 bytes; 828 are free, 522 of them kept for other houses")
    );
    assert_eq!(
        add("12", "2", "notice"),
        refused("catalogue, byte 818: 21 (name present): page 12 stands there, of house 1")
    );
    assert_eq!(add("13", "17", "notice"), refused("shares: 26 (bad shares): there is no house 17; they are 1 to 16"));
    assert_eq!(std::fs::read(&file).expect("it is there"), example("festival-before.catalogue"));
    assert_eq!(add("22", "2", "notice").0, 0);
    assert_eq!(catalogue(&["remove", &file, "11"]), (0, String::new(), String::new()));
    assert_eq!(std::fs::read(&file).expect("it is there"), example("festival.catalogue"));
    let (status, _, said) = catalogue(&["remove", &file, "11"]);
    assert_eq!((status, said), refused("catalogue: 22 (name absent): there is no page 11"));

    let list = String::from_utf8(example("festival.list")).expect("text");
    assert_eq!(catalogue(&["list", shares[0], shares[1], &file]), (0, list, String::new()));
    let plain = "       0  page 21 of house 2: 378 bytes, template 1
     378  page 12 of house 1: 402 bytes, template 2
     780  page 22 of house 2: 278 bytes, template 3
house 1: 402 bytes
house 2: 656 bytes
3 pages, 3 templates, 1058 of 2048 bytes
";
    assert_eq!(catalogue(&["list", &file]), (0, plain.to_string(), String::new()));
    assert!(!Path::new(&format!("{file}.new")).exists());
}

/// Which of the files it is, where one is not as it must be.
#[test]
fn refused_in_a_catalogue() {
    let file = "examples/festival.catalogue";
    let before = example("festival.catalogue");
    for (words, input, said) in [
        (
            &["add", file, "5", "1", "-", "examples/hall-new.out"][..],
            &b"\x84\0"[..],
            "standard input: templates out, byte 0: 3 (torn): 2 bytes where a field begins",
        ),
        (
            &["add", file, "5", "1", "examples/hall-old.templates", "examples/hall-old.out"],
            b"",
            "examples/hall-old.templates: templates out, byte 0, 80 1: 4 (misplaced): 80s do not stand in a catalogue; `upgrade` makes 84s of them",
        ),
        (
            &["add", file, "5", "1", "examples/hall-new.templates", "-"],
            b"\x12\0\x07\x90\0\x04\0\0\0\x02",
            "standard input: page out, byte 3, 12 > 90 2: 17 (disagreeing): template 2 is called, and the page's template is 1",
        ),
        (
            &["list", "examples/worked.page"],
            b"",
            "examples/worked.page: catalogue, byte 0: 4 (misplaced): 01 behind the last page, where zeros must stand",
        ),
        (&["show", file, "11"], b"", "examples/festival.catalogue: catalogue: 22 (name absent): there is no page 11"),
    ] {
        let expected = format!("jsx-precompile: {said}\n");
        assert_eq!(run(&[&["catalogue"], words].concat(), input), (1, String::new(), expected), "{words:?}");
    }
    let shares = room("bad.shares");
    for (text, words) in [
        ("1 5 4\n", "house 1 is guaranteed 5 bytes and may have 4"),
        ("\n17 5 6", "there is no house 17; they are 1 to 16"),
        ("1 2 3\n# a remark\n1 2 3", "house 1 stands on line 3 again"),
        ("1 2", "line 1 is not a house, what it is guaranteed, and the most that it may have"),
    ] {
        std::fs::write(&shares, text).expect("it is written");
        let (status, out, said) = run(&["catalogue", "list", "--shares", &shares, file], b"");
        assert_eq!((status, &*out, said), (2, "", format!("jsx-precompile: {shares}: {words}\n")));
    }
    let (status, _, said) = run(&["catalogue", "list", "no such file"], b"");
    assert!(status == 2 && said.starts_with("jsx-precompile: no such file: "), "{said}");
    assert_eq!(example("festival.catalogue"), before);
}

#[test]
fn upgrade_and_downgrade() {
    let files = |age: &str| [format!("examples/hall-{age}.templates"), format!("examples/hall-{age}.out")];
    for (command, from, to, said) in [
        ("upgrade", "old", "new", "taken: 30 bytes of templates out, 334 of page out\n"),
        ("downgrade", "new", "old", "taken: 24 bytes of templates out, 332 of page out\n"),
    ] {
        let [templates, page] = files(from);
        assert_eq!(run(&[command, &templates, &page], b""), (0, said.to_string(), String::new()));
        let bytes = example(&format!("hall-{from}.out"));
        assert_eq!(run(&[command, &templates, "-"], &bytes), (0, said.to_string(), String::new()));
        let [to_templates, to_page] = [room(&format!("{to}.templates")), room(&format!("{to}.out"))];
        let words = [command, "--templates", &to_templates, "--page", &to_page, &templates, &page];
        assert_eq!(run(&words, b""), (0, String::new(), String::new()));
        assert_eq!(std::fs::read(&to_templates).expect("it is written"), example(&format!("hall-{to}.templates")));
        assert_eq!(std::fs::read(&to_page).expect("it is written"), example(&format!("hall-{to}.out")));
        // refused, neither is written
        let [to_templates, to_page] = [room(&format!("{to}.templates")), room(&format!("{to}.out"))];
        let words = [command, "--templates", &to_templates, "--page", &to_page, &files(to)[0], &page];
        let (status, out, said) = run(&words, b"");
        assert_eq!((status, &*out), (1, ""));
        assert!(said.starts_with(&format!("jsx-precompile: {}: 4 (misplaced): ", files(to)[0])), "{said}");
        assert!(!Path::new(&to_templates).exists() && !Path::new(&to_page).exists());
    }
}

/// Which of the two is refused, and where that is known the place.
#[test]
fn refused_conversions() {
    let sound = "examples/hall-new.templates";
    let up = "; what goes up has templates of 80s and calls with numbers of two bytes";
    for (words, input, file, said) in [
        (
            ["downgrade", "-", "examples/hall-new.out"],
            &b"\x84\0\x09"[..],
            "standard input",
            "templates out, byte 0: 3 (torn): 84 (template) of 9 bytes where 0 are left".to_string(),
        ),
        (
            ["downgrade", sound, "-"],
            b"\x12\0\x04\x20\0\x01\xff",
            "standard input",
            "page out, byte 6, 12 > 20: 6 (bad letters): byte ff in 20 (source) is not UTF-8".to_string(),
        ),
        (
            ["downgrade", sound, "-"],
            b"\x12\0\x07\x90\0\x04\0\x01\0\0",
            "standard input",
            Refusal::Disagreeing.to_string(),
        ),
        (
            ["downgrade", "-", "examples/hall-new.out"],
            b"\x84\0\x09\0\x01\0\0\0\0\x81\0\0",
            "standard input",
            Refusal::Disagreeing.to_string(),
        ),
        (
            ["upgrade", "examples/hall-old.templates", "-"],
            b"\x12\0\x04\x90\0\x01\0",
            "standard input",
            format!("{}{up}", Refusal::Misplaced),
        ),
        (["upgrade", sound, "-"], b"\x12", sound, format!("{}{up}", Refusal::Misplaced)),
    ] {
        let expected = format!("jsx-precompile: {file}: {said}\n");
        assert_eq!(run(&words, input), (1, String::new(), expected), "{words:?}");
    }
}

#[test]
fn bad_calls() {
    for (words, expected) in [
        (&[][..], "no command; see `jsx-precompile --help`"),
        (&["what", "-"], "no command what; see `jsx-precompile --help`"),
        (&["help", "what"], "no command what; see `jsx-precompile --help`"),
        (&["build"], "no file (- is standard input); see `jsx-precompile build --help`"),
        (&["check"], "no file; see `jsx-precompile check --help`"),
        (&["build", "a", "b"], "build takes one file; see `jsx-precompile build --help`"),
        (&["build", "--what", "a"], "build has no option --what; see `jsx-precompile build --help`"),
        (&["show", "--page", "a"], "show has no option --page; see `jsx-precompile show --help`"),
        (
            &["show", "--as", "card", "a"],
            "--as is page, options, templates, out, order or catalogue, not card; see `jsx-precompile show --help`",
        ),
        (&["tag"], "no file (- is standard input); see `jsx-precompile tag --help`"),
        (&["tag", "--hex", "a"], "tag has no option --hex; see `jsx-precompile tag --help`"),
        (&["tag", "--import-source", "a", "b"], "tag has no option --import-source; see `jsx-precompile tag --help`"),
        (&["tag", "--as", "card", "a"], "--as is tree, hex or page, not card; see `jsx-precompile tag --help`"),
        (&["find"], "no file (- is standard input); see `jsx-precompile find --help`"),
        (&["find", "a", "b"], "b is no number from 0 to 4294967295; see `jsx-precompile find --help`"),
        (
            &["find", "a", "4294967296"],
            "4294967296 is no number from 0 to 4294967295; see `jsx-precompile find --help`",
        ),
        (&["find", "a", "-1"], "find has no option -1; see `jsx-precompile find --help`"),
        (&["upgrade", "a"], "upgrade takes templates and a page out; see `jsx-precompile upgrade --help`"),
        (
            &["downgrade", "a", "b", "c"],
            "downgrade takes templates and a page out; see `jsx-precompile downgrade --help`",
        ),
        (&["fill", "a"], "fill takes templates and an order; see `jsx-precompile fill --help`"),
        (&["fill", "a", "b", "c"], "fill takes templates and an order; see `jsx-precompile fill --help`"),
        (&["fill", "-", "-"], "- stands for one file alone; see `jsx-precompile fill --help`"),
        (&["fill", "--sums", "a", "b"], "fill has no option --sums; see `jsx-precompile fill --help`"),
        (&["catalogue"], "new, add, remove, list or show; see `jsx-precompile catalogue --help`"),
        (&["catalogue", "list"], "list takes a file with a catalogue; see `jsx-precompile catalogue --help`"),
        (
            &["catalogue", "keep", "a"],
            "new, add, remove, list or show, not keep; see `jsx-precompile catalogue --help`",
        ),
        (&["catalogue", "new", "a"], "new takes a file and its length; see `jsx-precompile catalogue --help`"),
        (
            &["catalogue", "new", "a", "16777217"],
            "16777217 is no number from 0 to 16777216; see `jsx-precompile catalogue --help`",
        ),
        (
            &["catalogue", "add", "a", "1"],
            "add takes a file, a name, a house, templates and a page out; see `jsx-precompile catalogue --help`",
        ),
        (
            &["catalogue", "add", "a", "1", "2", "b"],
            "add takes templates and a page out; see `jsx-precompile catalogue --help`",
        ),
        (
            &["catalogue", "add", "a", "b", "2", "c", "d"],
            "b is no number from 0 to 4294967295; see `jsx-precompile catalogue --help`",
        ),
        (&["catalogue", "remove", "a"], "remove takes a file and a name; see `jsx-precompile catalogue --help`"),
        (&["catalogue", "list", "a", "b"], "list takes one file; see `jsx-precompile catalogue --help`"),
        (
            &["catalogue", "show", "a", "1", "2"],
            "show takes a file, or a file and a name; see `jsx-precompile catalogue --help`",
        ),
        (
            &["catalogue", "remove", "--shares", "b", "a", "1"],
            "--shares is for add and list alone; see `jsx-precompile catalogue --help`",
        ),
        (&["catalogue", "list", "--whole", "a"], "--whole is for show alone; see `jsx-precompile catalogue --help`"),
        (
            &["catalogue", "list", "--sums", "a"],
            "catalogue has no option --sums; see `jsx-precompile catalogue --help`",
        ),
        (&["upgrade", "-", "-"], "- stands for one file alone; see `jsx-precompile upgrade --help`"),
        (
            &["upgrade", "--page", "c", "a", "b"],
            "--templates and --page belong together; see `jsx-precompile upgrade --help`",
        ),
        (&["downgrade", "--sums", "a", "b"], "downgrade has no option --sums; see `jsx-precompile downgrade --help`"),
        (
            &["build", "a", "--import-source"],
            "--import-source needs a word behind it; see `jsx-precompile build --help`",
        ),
        (
            &["build", "--templates", "a", "b"],
            "--templates and --page belong together; see `jsx-precompile build --help`",
        ),
    ] {
        assert_eq!(run(words, b""), (2, String::new(), format!("jsx-precompile: {expected}\n")), "{words:?}");
    }
    let (status, out, said) = run(&["build", "no such file"], b"");
    assert!(status == 2 && out.is_empty() && said.starts_with("jsx-precompile: no such file: "), "{said}");
    let (status, _, said) = run(&["show", "--hex", "-"], b"xy");
    assert_eq!((status, &*said), (2, "jsx-precompile: standard input: not pairs of hex digits\n"));
    // behind -- even a word with a minus is a file
    assert!(run(&["build", "--", "--help"], b"").2.starts_with("jsx-precompile: --help: "));
}

#[test]
fn version() {
    let expected = format!("jsx-precompile {}\n", env!("CARGO_PKG_VERSION"));
    assert_eq!(run(&["--version"], b""), (0, expected.clone(), String::new()));
    assert_eq!(expected, format!("jsx-precompile {}\n", jsx_precompile::VERSION));
}

/// Every command is told of, and the examples in the help are what one sees.
#[test]
fn help() {
    let (status, all, said) = run(&["--help"], b"");
    assert_eq!((status, &*said), (0, ""));
    assert_eq!(run(&["help"], b"").1, all);
    for command in ["build", "check", "show", "preview", "tag", "find", "fill", "catalogue", "upgrade", "downgrade"] {
        assert!(all.contains(&format!("\n  {command} ")), "{command}");
        let (status, text, said) = run(&[command, "--help"], b"");
        assert_eq!((status, &*said), (0, ""));
        assert_eq!(run(&["help", command], b"").1, text);
        assert!(text.starts_with(&format!("jsx-precompile {command} ")), "{text}");
        let (_, example) = text.split_once("\n  $ jsx-precompile ").expect("an example");
        let (words, shown) = example.split_once('\n').expect("a line");
        let words: Vec<&str> = words.split(" > ").next().expect("words").split(' ').collect();
        let (_, out, said) = run(&words, b"");
        let expected: String =
            shown.lines().take_while(|line| !line.is_empty()).map(|line| format!("{}\n", &line[2..])).collect();
        match command {
            "preview" => assert!(out.starts_with("<!doctype html>")),
            _ => assert_eq!(format!("{out}{said}"), expected),
        }
    }
}

/// Nobody may be reading any more.
#[test]
fn a_closed_pipe() {
    use std::process::{Command, Stdio};
    let mut child = Command::new(env!("CARGO_BIN_EXE_jsx-precompile"))
        .args(["build", "-"])
        .stdin(Stdio::piped())
        .stdout(Stdio::piped())
        .stderr(Stdio::piped())
        .spawn()
        .expect("it runs");
    drop(child.stdout.take());
    std::io::Write::write_all(&mut child.stdin.take().expect("piped"), &example("hall.page")).expect("it reads");
    let output = child.wait_with_output().expect("it ends");
    assert_eq!((output.status.code(), output.stderr), (Some(0), vec![]));
}
