//! The checks of demand 3 find what is wrong: outputs of accepted pages, damaged one way at a time.

use oracle::answer::LEAST_SCRATCH;
use oracle::decimal::{Decimal, bodies};
use oracle::demand3::{violation, well_nested};
use oracle::field::{Node, read, write};
use oracle::generate::rng::Rng;
use oracle::generate::{self, Case, Room};
use oracle::judge::outcome_and_copy;
use oracle::make::*;
use oracle::shrink::shrink;
use oracle::transform::Copy;
use oracle::{Output, Refusal, outcome};

fn sample() -> Output {
    let parts = [
        attribute_with("open", braces(code("o"))),
        attribute("hidden"),
        text("t"),
        braces(code("x")),
        element("Foo", &[element("i", &[])]),
    ];
    outcome(&page_of(element("p", &parts)), &[]).unwrap()
}

fn found(output: &Output) -> Option<String> {
    (0..20).find_map(|seed| violation(&output.templates, &output.page, output.count, &mut Rng::new(seed)))
}

fn with_shelf(change: impl Fn(&mut Vec<Node>)) -> Output {
    let mut output = sample();
    let mut shelf = read(&output.templates).unwrap();
    change(&mut shelf);
    output.templates = write(&shelf);
    output
}

fn with_page(change: impl Fn(&mut Vec<Node>)) -> Output {
    let mut output = sample();
    let mut page = read(&output.page).unwrap();
    change(&mut page);
    output.page = write(&page);
    output
}

#[test]
#[cfg_attr(not(jsx_source), ignore = "jsx_precompile.rs is not there")]
fn each_damage_is_found() {
    assert_eq!(found(&sample()), None);
    assert_eq!(read(&sample().templates).unwrap()[1].bytes, [0, 0, 0, 1, 0, 4, 1, 1, 2, 2]);
    // In the shelf: template 2 (`<i></i>`) is recorded before template 1. In the page: 82, 83, the statement.
    let outer = 1;
    let damaged = [
        with_shelf(|s| s.truncate(1)),
        with_shelf(|s| s[0].tag = 0x80),
        with_shelf(|s| s[0].bytes = vec![0, 0, 0, 1, 0, 0]),
        with_shelf(|s| s[0].bytes = vec![0, 0, 0, 3, 0, 0]),
        with_shelf(|s| s[0].bytes = vec![0, 1, 0, 2, 0, 0]),
        with_shelf(|s| s[0].bytes = vec![1, 0, 0, 2, 0, 0]),
        with_shelf(|s| s[0].bytes = vec![0, 0, 0, 2, 0, 1, 2]),
        with_shelf(|s| s[0].bytes = vec![0, 2]),
        with_shelf(|s| s[outer].bytes = vec![0, 0, 0, 1, 0, 3, 1, 1, 2]),
        with_shelf(|s| s[outer].bytes = vec![0, 0, 0, 1, 0, 4, 2, 1, 2, 2]),
        with_shelf(|s| s[outer].bytes = vec![0, 0, 0, 1, 0, 4, 1, 2, 2, 2]),
        with_shelf(|s| s[outer].bytes = vec![0, 0, 0, 1, 0, 4, 1, 1, 1, 2]),
        with_shelf(|s| s[outer].bytes = vec![0, 0, 0, 1, 0, 4, 1, 1, 2, 1]),
        with_shelf(|s| s[outer].bytes = vec![0, 0, 0, 1, 0, 4, 1, 1, 2, 0]),
        with_shelf(|s| s[outer].bytes = vec![0, 0, 0, 1, 0, 4, 1, 1, 2, 3]),
        with_shelf(|s| s[outer].bytes = vec![0, 0, 0, 1, 0, 5, 1, 1, 2, 2, 2]),
        with_shelf(|s| s.push(s[0].clone())),
        with_shelf(|s| drop(s[outer].inner.pop())),
        with_shelf(|s| s[outer].inner.push(Node::leaf(0x81, b""))),
        with_shelf(|s| s[0].inner[0].bytes = b"<i></b>".to_vec()),
        with_shelf(|s| s[0].inner[0].bytes = b"<i>".to_vec()),
        with_shelf(|s| s[0].inner[0].bytes = b"<i></i>>".to_vec()),
        with_shelf(|s| s[outer].inner[0].bytes = b"<p>".to_vec()),
        with_page(|p| p[0].bytes[0] ^= 1),
        with_page(|p| p[0].bytes[0] ^= 2),
        with_page(|p| p[0].bytes[0] ^= 4),
        with_page(|p| p[0].bytes[0] ^= 8),
        with_page(|p| drop(p.remove(0))),
        with_page(|p| drop(p.remove(1))),
        with_page(|p| p.swap(1, 2)),
        with_page(|p| p.push(p[2].clone())),
        with_page(|p| p[2].inner.clear()),
        with_page(|p| p[2].inner[0].bytes = vec![1, 0, 0, 1]),
        with_page(|p| p[2].inner[0].bytes = vec![0, 1]),
        with_page(|p| p[2].inner[0].inner.swap(0, 2)),
        with_page(|p| p[2].inner[0].inner[2].tag = 0x91),
        with_page(|p| p[2].inner[0].inner[0].tag = 0x76),
        with_page(|p| p[2].inner.push(Node::row(0x31, vec![]))),
    ];
    for (i, output) in damaged.iter().enumerate() {
        assert!(found(output).is_some(), "damage {i} is not found");
    }
    println!("{} damages", damaged.len());
}

#[test]
fn well_nested_texts() {
    for text in ["", "a", "<br>", "<p></p>", "<p a=\"b\">x<i></i></p>", "<a><br></a>", "<p >x</p>", "<p /></p>"] {
        assert!(well_nested(text.as_bytes()), "{text}");
    }
    // In small letters (02, A10).
    for text in ["<BR>", "<bR a>", "<p></P>", "<A><bR><i></I></a>", "<dIV></Div>"] {
        assert!(well_nested(text.as_bytes()), "{text}");
    }
    for text in [
        "<",
        ">",
        "<p>",
        "</p>",
        "<p></i>",
        "<p><i></p></i>",
        "<p<></p>",
        "a>",
        "</br>",
        "</BR>",
        "<bR></bR>",
        "<P>",
        "<p></p >x<",
    ] {
        assert!(!well_nested(text.as_bytes()), "{text}");
    }
}

#[test]
#[cfg_attr(not(jsx_source), ignore = "jsx_precompile.rs is not there")]
fn the_shrinker_finds_a_small_page() {
    let refused = |case: &Case, refusal: Refusal| outcome(&case.page, &case.options) == Err(refusal);
    let patched = |case: &Case| outcome_and_copy(&case.page, &case.options).1 == Some(Copy::Patched);
    type Shows<'a> = &'a dyn Fn(&Case) -> bool;
    let small_pages: [(&str, usize, Shows); 3] = [
        ("a tag is left", 15, &|case| refused(case, Refusal::TagLeft)),
        ("a listed container", 45, &patched),
        ("a large number", 30, &|case| refused(case, Refusal::NumberTooLarge)),
    ];
    for (what, smallest, shows) in small_pages {
        // A page that is no row of fields shrinks by bytes alone, which leaves more of it.
        let large = |case: &Case| case.page.len() > 100 && read(&case.page).is_some();
        let case = (0..).map(generate::case).find(|case| shows(case) && large(case)).unwrap();
        let small = shrink(case, shows);
        assert!(small.page.len() <= smallest, "{what}: {}", oracle::show::show(&small.page));
    }
}

#[test]
#[cfg_attr(not(jsx_source), ignore = "jsx_precompile.rs is not there")]
fn the_shrinker_makes_numbers_plain() {
    let over = [decimal(123_456, 200), element("i", &[])];
    let page = page_of(element("p", &[text("t"), braces(array(&over)), braces(minus_decimal(7, 1))]));
    let (scratch, room) = (LEAST_SCRATCH, Room::Exact);
    let case = Case { page, options: vec![], scratch, templates_room: room, page_room: room };
    let small = shrink(case, |case| outcome(&case.page, &[]) == Err(Refusal::NumberTooLarge));
    assert_eq!(bodies(&small.page), [Decimal { digits: 0, places: 200 }.bytes()]);
}
