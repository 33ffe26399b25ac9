//! The C header: a C program with it is compiled, linked with the library, run, and answers as the Rust call does.

use jsx_precompile::catalogue::{CatalogueAnswer, Shares, add_into, remove_from};
use jsx_precompile::limits::MAX_NUMBERS;
use jsx_precompile::page::{Element, Expression, Item, Page};
use jsx_precompile::{Options, Order, Tag, downgrade, fill, find, transform};
use std::path::Path;
use std::process::Command;

/// Whether the compiler is there.
fn has(compiler: &str) -> bool {
    let there = Command::new(compiler).arg("--version").output().is_ok_and(|output| output.status.success());
    if !there {
        println!("skipped: no {compiler} here");
    }
    there
}

fn hex(bytes: &[u8]) -> String {
    bytes.iter().map(|byte| format!("{byte:02x}")).collect()
}

/// Compiles tests/header.c; without a word of warning.
fn compile(compiler: &str, words: &[&str], program: &Path) {
    let here = Path::new(env!("CARGO_MANIFEST_DIR"));
    let output = Command::new(compiler)
        .args(words)
        .args(["-Wall", "-Wextra", "-Wpedantic", "-Werror", "-I"])
        .arg(here.join("include"))
        .arg(here.join("tests/header.c"))
        .args(["-x", "none"])
        .arg(Path::new(env!("JSX_PRECOMPILE_LIB")).join("libjsx_precompile.a"))
        .arg("-o")
        .arg(program)
        .output()
        .expect("the compiler runs");
    assert!(output.status.success(), "{}", String::from_utf8_lossy(&output.stderr));
}

fn answers_alike(program: &Path) {
    let tag = Element::new("p").attribute("class", "t").text("Hi ").child(Expression::source("n"));
    let page = Page::new([Item::statement(["const a = ".into(), tag.into(), ";".into()])]).to_bytes().expect("a page");
    let run = |page: &[u8]| Command::new(program).arg(hex(page)).output().expect("the program runs");
    let forms = transform(&page, &Options::new()).expect("it is taken");
    let expected = format!("0 1 {} {}\n", hex(forms.templates_bytes()), hex(forms.page_bytes()));
    assert_eq!(String::from_utf8_lossy(&run(&page).stdout), expected);
    assert_eq!(String::from_utf8_lossy(&run(&[0x02, 0, 0]).stdout), "4 0  \n");
    assert_eq!(String::from_utf8_lossy(&run(&[]).stdout), "3 0  \n");

    let read = |text: &str| {
        let output = Command::new(program).args(["tag", &hex(text.as_bytes())]).output().expect("the program runs");
        String::from_utf8(output.stdout).expect("text")
    };
    let text = "<p class=\"t\">Hi {n}</p>";
    let field = Tag::read(text).expect("it is read");
    assert_eq!(read(text), format!("0 {} {}\n", field.bytes().len(), hex(field.bytes())));
    assert_eq!(read("<a></b>"), "15 0 \n");
    assert_eq!(read(""), "14 0 \n");

    let looked_up = |templates: &[u8], numbers: &[u32]| {
        let mut command = Command::new(program);
        command.args(["find", &hex(templates)]).args(numbers.iter().map(u32::to_string));
        String::from_utf8(command.output().expect("the program runs").stdout).expect("text")
    };
    let templates = [forms.templates_bytes(), b"\x84\0\x09\xff\xff\xff\xff\0\0\x81\0\0"].concat();
    let found = find(&templates, &[1, 7, u32::MAX]).expect("they rise");
    let behind = forms.templates_bytes().len();
    assert_eq!((found.places(), found.records()), (&[Some(0), None, Some(behind)][..], 2));
    assert_eq!(looked_up(&templates, &[1, 7, u32::MAX]), format!("0 2 0 absent {behind}\n"));
    assert_eq!(looked_up(&templates, &[1]), "0 1 0\n");
    assert_eq!(looked_up(&templates, &[2, 1]), "20 0 absent absent\n");
    assert_eq!(looked_up(&templates[1..], &[]), "3 0\n");
    let all: Vec<u32> = (0..=MAX_NUMBERS as u32).collect();
    assert_eq!(looked_up(&[], &all[1..]), format!("0 0{}\n", " absent".repeat(MAX_NUMBERS)));
    assert_eq!(looked_up(&[], &all), format!("20 0{}\n", " absent".repeat(MAX_NUMBERS)));

    let two = |word: &str, one: &[u8], other: &[u8]| {
        let output = Command::new(program).args([word, &hex(one), &hex(other)]).output().expect("the program runs");
        String::from_utf8(output.stdout).expect("text")
    };
    let order = |order: Order| order.to_bytes().expect("an order");
    let hall = order(Order::new(1).text("stalls & balcony"));
    let html = fill(&templates, &hall).expect("it is filled");
    assert_eq!(html, "<p class=\"t\">Hi stalls &amp; balcony</p>");
    assert_eq!(two("fill", &templates, &hall), format!("0 {} {}\n", html.len(), hex(html.as_bytes())));
    assert_eq!(two("fill", &templates, &order(Order::new(u32::MAX))), "0 0 \n");
    assert_eq!(two("fill", &templates, &order(Order::new(1))), "18 0 \n");
    assert_eq!(two("fill", &templates, &[]), "3 0 \n");
    assert_eq!(two("fill", &templates, &order(Order::new(1).text("s".repeat(1_000)))), "13 0 \n");

    catalogues_alike(program);

    let new = (forms.templates_bytes(), forms.page_bytes());
    let old = downgrade(new.0, new.1).expect("it goes down");
    let old = (old.templates_bytes(), old.page_bytes());
    assert_eq!(two("down", new.0, new.1), format!("0 {} {}\n", hex(old.0), hex(old.1)));
    assert_eq!(two("up", old.0, old.1), format!("0 {} {}\n", hex(new.0), hex(new.1)));
    assert_eq!(two("up", &[], &[]), "0  \n");
    assert_eq!(two("up", new.0, old.1), "4  \n");
    assert_eq!(two("down", &[], &[0x83]), "3  \n");
    assert_eq!(two("down", b"\x84\0\x09\0\x01\0\0\0\0\x81\0\0", &[]), "17  \n");
}

/// Two pages of one template arrive, others are refused, and the last one that was asked for leaves.
fn catalogues_alike(program: &Path) {
    let (templates, page) = (&b"\x84\0\x09\0\0\0\x01\0\0\x81\0\0"[..], &b"\x12\0\x07\x90\0\x04\0\0\0\x01"[..]);
    let shares =
        (1..=16).try_fold(Shares::new(), |shares, house| shares.house(house, 1, 60)).expect("shares").numbers();
    for (page, houses, due) in [
        (page, &[2, 16, 16, 17, 3][..], [0, 0, 21, 26, 25, 22]),
        (page, &[1, 2, 0, 17, 2], [0, 0, 26, 26, 21, 0]),
        (&b"\x12\0\x16\x90\0\x04\0\0\0\x01\x79\0\x0c\x20\0\x09a + b + c"[..], &[1, 2, 1], [0, 25, 21, 0, 0, 0]),
        (&page[1..], &[1], [3, 22, 0, 0, 0, 0]),
    ] {
        let mut catalogue = [0; 100];
        let mut numbers = vec![];
        let mut said = String::new();
        let mut answered = |CatalogueAnswer { number, used, pages }| {
            numbers.push(number);
            format!("{number} {used} {pages} ")
        };
        for house in houses {
            said += &answered(add_into(&mut catalogue, *house, *house, &shares, templates, page));
        }
        said += &format!(" {} ", hex(&catalogue));
        said += &answered(remove_from(&mut catalogue, *houses.last().expect("a house")));
        said += &format!(" {}\n", hex(&catalogue));
        assert_eq!(numbers, due[..houses.len() + 1]);
        let mut command = Command::new(program);
        command.args(["add", &hex(templates), &hex(page)]).args(houses.iter().map(u32::to_string));
        let output = command.output().expect("the program runs");
        assert_eq!(String::from_utf8_lossy(&output.stdout), said);
    }
}

#[test]
fn a_program_in_c() {
    if !has("cc") {
        return;
    }
    let program = Path::new(env!("CARGO_TARGET_TMPDIR")).join("header_c");
    compile("cc", &["-std=c99", "-x", "c"], &program);
    answers_alike(&program);
    println!("header: compiled by cc, 27 answers alike");
}

#[test]
fn a_program_in_cpp() {
    if !has("c++") {
        return;
    }
    let program = Path::new(env!("CARGO_TARGET_TMPDIR")).join("header_cpp");
    compile("c++", &["-x", "c++"], &program);
    answers_alike(&program);
    println!("header: compiled by c++, 27 answers alike");
}

/// The header's limits and numbers are the crate's.
#[test]
fn constants() {
    use jsx_precompile::{Refusal, TagRefusal, limits::*};
    let header = include_str!("../include/jsx_precompile.h");
    for (name, limit) in
        [("PAGE", MAX_PAGE), ("OPTIONS", MAX_OPTIONS), ("DEPTH", MAX_DEPTH)].map(|(n, l)| (format!("MAX_{n}"), l))
    {
        assert!(header.contains(&format!("#define JSX_PRECOMPILE_{name} {limit}\n")), "{name}");
    }
    assert!(header.contains(&format!("#define JSX_PRECOMPILE_MIN_SCRATCH {MIN_SCRATCH}\n")));
    assert!(header.contains(&format!("#define JSX_PRECOMPILE_MAX_TAG_TEXT {MAX_TAG_TEXT}\n")));
    assert!(header.contains(&format!("#define JSX_PRECOMPILE_MAX_TAG {MAX_TAG} ")));
    assert!(header.contains(&format!("#define JSX_PRECOMPILE_MAX_NUMBERS {MAX_NUMBERS} ")));
    assert!(header.contains(&format!("#define JSX_PRECOMPILE_MAX_OLD_NUMBER {MAX_OLD_NUMBER} ")));
    assert!(header.contains(&format!("#define JSX_PRECOMPILE_MAX_CATALOGUE {MAX_CATALOGUE}\n")));
    assert!(header.contains(&format!("#define JSX_PRECOMPILE_HOUSES {HOUSES} ")));
    assert!(header.contains(&format!("#define JSX_PRECOMPILE_VERSION \"{}\"\n", jsx_precompile::VERSION)));
    let (major, minor, patch) = jsx_precompile::library_version();
    assert_eq!(format!("{major}.{minor}.{patch}"), jsx_precompile::VERSION, "the library's own answer");
    let number = major * 10_000 + minor * 100 + patch;
    assert!(header.contains(&format!("#define JSX_PRECOMPILE_VERSION_NUMBER {number}\n")));
    let of_tags = [TagRefusal::NoReading, TagRefusal::NamesDiffer].map(|one| (format!("{one:?}"), one.number()));
    let refusals = (1..=100).filter_map(Refusal::from_number).map(|one| (format!("{one:?}"), one.number()));
    for (refusal, number) in refusals.chain(of_tags) {
        // ScratchTooSmall: SCRATCH_TOO_SMALL
        let name = refusal.chars().fold(String::new(), |name, letter| {
            let gap = if letter.is_uppercase() && !name.is_empty() { "_" } else { "" };
            format!("{name}{gap}{}", letter.to_ascii_uppercase())
        });
        let line = format!("JSX_PRECOMPILE_{name} = {number}");
        assert!(header.contains(&line), "{line}");
    }
    assert!(!header.contains("= 9"), "9 is reserved");
}

/// tools/install.sh into a folder of its own, and the same program compiled with what pkg-config says of it.
#[test]
fn installed() {
    let here = Path::new(env!("CARGO_MANIFEST_DIR"));
    let [stage, program] = ["stage", "header_installed"].map(|name| Path::new(env!("CARGO_TARGET_TMPDIR")).join(name));
    let _ = std::fs::remove_dir_all(&stage);
    let install = |words: &[&str]| {
        let mut script = Command::new("sh");
        script.arg(here.with_file_name("tools/install.sh")).args(words).env("DESTDIR", &stage);
        script.env("JSX_PRECOMPILE_LIB", env!("JSX_PRECOMPILE_LIB")).output().expect("a shell runs")
    };
    let output = install(&["/usr"]);
    assert!(output.status.success(), "{}", String::from_utf8_lossy(&output.stderr));
    let said = String::from_utf8(output.stdout).expect("text");
    for name in ["include/jsx_precompile.h", "lib/libjsx_precompile.a", "share/doc/jsx_precompile/LICENSE"] {
        let file = format!("{}/usr/{name}", stage.display());
        assert!(said.contains(&format!("{file}\n")) && Path::new(&file).is_file(), "{file} is not among\n{said}");
    }
    assert_eq!(install(&[]).status.code(), Some(2));
    if !has("cc") || !has("pkg-config") {
        return;
    }
    let asked = |words: &[&str]| {
        let mut command = Command::new("pkg-config");
        command.args(words).arg("jsx_precompile").env("PKG_CONFIG_PATH", stage.join("usr/lib/pkgconfig"));
        let output = command.output().expect("pkg-config runs");
        assert!(output.status.success(), "{}", String::from_utf8_lossy(&output.stderr));
        String::from_utf8(output.stdout).expect("text").trim().to_string()
    };
    assert_eq!(asked(&["--modversion"]), jsx_precompile::VERSION);
    let words = asked(&["--cflags", "--libs"]);
    let mut cc = Command::new("cc");
    cc.arg("-o").arg(&program).arg(here.join("tests/header.c")).args(words.split_whitespace());
    let output = cc.output().expect("the compiler runs");
    assert!(output.status.success(), "{}", String::from_utf8_lossy(&output.stderr));
    answers_alike(&program);
    println!("header: installed, compiled with {words}, 27 answers alike");
}
