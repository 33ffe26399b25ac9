//! Sums in braces (document 02, A12): what they come to, by node too; the option as bytes, in the viewer and in refusals;
//! many texts against the judge.

mod common;

use common::{jsx_precompile, no_judge, say};
use jsx_precompile::limits::{MAX_PAGE, MIN_SCRATCH};
use jsx_precompile::out::{Call, Expression as Out, Prop};
use jsx_precompile::page::*;
use jsx_precompile::{Fault, Input, Options, Refusal, transform, transform_into};
use oracle::compare::difference;
use oracle::generate::rng::Rng;
use oracle::generate::sums::{BOUNDS, NEAR, text};
use oracle::generate::{Case, Room};
use oracle::{make, show, sums};
use std::process::Command;

fn with_sums() -> Options {
    Options::new().sums(true)
}

fn page_of(tag: Element) -> Vec<u8> {
    Page::new([Item::statement([tag.into()])]).to_bytes().expect("a page")
}

/// What becomes of a text in braces: the number, or none where it stays.
fn worked(source: &str) -> Option<i64> {
    let page = page_of(Element::new("Foo").attribute("a", Expression::source(source)));
    let forms = transform(&page, &with_sums()).unwrap_or_else(|fault| panic!("{source:?}: {fault}"));
    let Some(Call::Jsx(call)) = forms.page().calls().next() else { panic!("no call of jsx") };
    match call.props().and_then(|mut props| props.next()) {
        Some(Prop::Named(_, Out::Number(value))) => i64::try_from(value).ok(),
        Some(Prop::Named(_, Out::Minus(value))) => i64::try_from(value).ok().map(|value| -value),
        Some(Prop::Named(_, Out::Other(_))) => None,
        other => panic!("{source:?}: {other:?}"),
    }
}

#[test]
fn seats_in_a_block() {
    for (text, value) in [
        ("2 * 12 + 3", Some(27)),
        ("(14 + 16) * 8 - 4", Some(236)),
        ("3 - 12", Some(-9)),
        ("7", Some(7)),
        ("10 - 3 - 2", Some(5)),
        ("9007199254740991", Some(9_007_199_254_740_991)),
        ("0 - 9007199254740991", Some(-9_007_199_254_740_991)),
        ("9007199254740991 + 1", None),
        ("0 * (1 - 2)", None),
        ("-1", None),
        ("01", None),
        ("n + 1", None),
    ] {
        assert_eq!(worked(text), value, "{text}");
    }
}

/// Without the option nothing is worked out, and with it nothing else changes.
#[test]
fn the_option_alone_decides() {
    let page = page_of(Element::new("p").child(Expression::source("1 + 2")).child(Expression::source("n")));
    let strings = |options: &Options| {
        let forms = transform(&page, options).expect("it is taken");
        forms.templates().flat_map(|one| one.strings().map(str::to_string).collect::<Vec<_>>()).collect::<Vec<_>>()
    };
    assert_eq!(strings(&Options::new()), ["<p>", "", "</p>"]);
    assert_eq!(strings(&with_sums()), ["<p>3", "</p>"]);
    assert_eq!(strings(&with_sums().sums(false)), strings(&Options::new()));
}

/// Whatever is worked out is what JavaScript gives, by the sign of a zero too.
#[test]
fn as_node_works_them_out() {
    if Command::new("node").arg("--version").output().is_err() {
        say("skipped: no node here");
        return;
    }
    let mut rng = Rng::new(5);
    let texts = BOUNDS.iter().map(|text| text.to_string()).chain((0..4_000).map(|_| text(&mut rng)));
    let pairs: Vec<(String, i64)> = texts.filter_map(|text| worked(&text).map(|value| (text, value))).collect();
    let rows: Vec<String> = pairs.iter().map(|(text, value)| format!("[{text:?}, ({text}), {value}]")).collect();
    let script = format!(
        "const all = [{}];
         const other = all.filter(([, here, there]) => !Object.is(here, there));
         console.log(all.length, JSON.stringify(other));",
        rows.join(",\n")
    );
    let file = std::path::Path::new(env!("CARGO_TARGET_TMPDIR")).join("sums.js");
    std::fs::write(&file, script).expect("it is written");
    let output = Command::new("node").arg(&file).output().expect("node runs");
    assert_eq!(String::from_utf8_lossy(&output.stdout), format!("{} []\n", pairs.len()), "{output:?}");
    assert!(pairs.len() > 2_000);
    say(&format!("sums: {} as node works them out", pairs.len()));
}

#[test]
fn the_option_as_bytes() {
    let all = Options::new().skip_serialize(["i"]).skip_prop_serialize(["a"]).import_source("h").sums(true);
    let bytes = all.to_bytes().expect("options");
    assert!(bytes.ends_with(&[0x04, 0, 1, b'h', 0x05, 0, 0]));
    assert_eq!(Options::from_bytes(&bytes), Ok(all));
    assert_eq!(Options::from_bytes(&[0x05, 0, 0]), Ok(with_sums()));
    // A body, another option behind it, a second one: the place and the reason, as the library refuses.
    for (bytes, at, reason) in [
        (&[0x05, 0, 1, 0][..], 3, "4 (misplaced): 05 (sums worked out) has 1 bytes and may have none"),
        (
            &[0x05, 0, 0, 0x04, 0, 1, b'h'],
            3,
            "4 (misplaced): 04 (import source) stands where no more options may stand",
        ),
        (&[0x05, 0, 0, 0x05, 0, 0], 3, "4 (misplaced): 05 (sums worked out) stands where no more options may stand"),
        (&[0x06, 0, 0], 0, "4 (misplaced): 06 (no tag) stands where options (02, 03, 04, 05, each at most once"),
    ] {
        let fault: Fault = Options::from_bytes(bytes).expect_err("it is refused");
        assert_eq!((fault.input, fault.at), (Input::Options, at), "{fault}");
        assert!(fault.to_string().contains(reason), "{fault}");
        let answer = transform_into(&[1, 0, 0], bytes, &mut vec![0; MIN_SCRATCH], &mut [], &mut []);
        assert_eq!(answer.refusal(), Some(Refusal::Misplaced), "{fault}");
    }
}

#[test]
fn shown() {
    let output = jsx_precompile(&["show", "-"], &[0x04, 0, 1, b'h', 0x05, 0, 0]);
    let expected = "     0  04 import source \"h\"\n     4  05 sums worked out\noptions: 7 bytes, 2 fields, 1 deep\n";
    assert_eq!(String::from_utf8_lossy(&output.stdout), expected);
    // The first byte tells that these are options.
    let output = jsx_precompile(&["show", "-"], &[0x05, 0, 0]);
    assert_eq!(
        String::from_utf8_lossy(&output.stdout),
        "     0  05 sums worked out\noptions: 3 bytes, 1 fields, 1 deep\n"
    );
    let output = jsx_precompile(&["show", "--as", "options", "-"], &[0x05, 0, 1, 7]);
    assert!(
        String::from_utf8_lossy(&output.stdout).starts_with("     0  05 sums worked out 07\n     3  ^ 4 (misplaced)")
    );
}

/// A refusal of the worked page is placed in the page as it came.
#[test]
fn refusals_have_their_place() {
    let nested = Fragment::new().child(Fragment::new());
    let tag = Element::new("p").child(Expression::source("1 + 2")).child(Expression::from(nested));
    let fault = transform(&page_of(tag), &with_sums()).expect_err("a tag is left");
    assert_eq!((fault.refusal, &*fault.path.to_string()), (Refusal::TagLeft, "01 > 12[0] > 30 p > 52[2] > 31 > 31"));
}

fn agree(page: Vec<u8>, options: Vec<u8>) {
    let (templates_room, page_room) = (Room::More(3), Room::Exact);
    let case = Case { page, options, scratch: MIN_SCRATCH, templates_room, page_room };
    let library = |page: &[u8], options: &[u8], scratch: &mut [u8], templates: &mut [u8], out: &mut [u8]| {
        let answer = transform_into(page, options, scratch, templates, out);
        let jsx_precompile::Answer { number, templates_bytes, page_bytes, templates } = answer;
        oracle::Answer { number, templates_bytes, page_bytes, templates }
    };
    if let Some(words) = difference(&case, &library) {
        panic!("{words}\n{}{}", show::show(&case.options), show::show(&case.page));
    }
}

/// All texts of up to five letters, the lists of the judge and random texts, many in one page.
#[test]
fn as_the_judge_works_them_out() {
    if no_judge() {
        return;
    }
    let signs = b"0129 +-*()x";
    let short = (0..=5_u32).flat_map(|length| (0..signs.len().pow(length)).map(move |n| (length, n)));
    let short = short.map(|(length, n)| {
        (0..length).map(|place| char::from(signs[n / signs.len().pow(place) % signs.len()])).collect::<String>()
    });
    let mut rng = Rng::new(1);
    let listed = NEAR.iter().chain(&BOUNDS).map(|text| text.to_string());
    let texts: Vec<String> = short.chain(listed).chain((0..40_000).map(|_| text(&mut rng))).collect();
    for part in texts.chunks(60) {
        let row: Vec<Vec<u8>> = part.iter().map(|text| make::code(text)).collect();
        let tag = make::element("Foo", &[make::attribute_with("a", make::braces(make::array(&row)))]);
        agree(make::page_of(tag), make::sums());
    }
    let worked = texts.iter().filter(|text| sums::work(text.as_bytes()).is_ok()).count();
    say(&format!("sums: {} texts, {worked} worked out, no difference from the judge", texts.len()));
}

/// The most that a page has room for: brackets in one text, and sums of one digit.
#[test]
fn full_pages() {
    if no_judge() {
        return;
    }
    // 01, 12, 31, 52, 79 and 20 stand around the brackets.
    let most = (MAX_PAGE - 18 - 1) / 2;
    for (open, closed) in [(most, most), (most, most - 1), (most - 1, most), (2 * most, 0)] {
        let text = ["(".repeat(open), "1".to_string(), ")".repeat(closed)].concat();
        agree(make::page_of(make::fragment(&[make::braces(make::code(&text))])), make::sums());
    }
    for text in ["1", "x", "1-2"] {
        let row = vec![make::code(text); (MAX_PAGE - 29) / make::code(text).len()];
        let tag = make::element("F", &[make::attribute_with("a", make::braces(make::array(&row)))]);
        agree(make::page_of(tag), make::sums());
        let row = vec![make::braces(make::code(text)); (MAX_PAGE - 13) / (3 + make::code(text).len())];
        agree(make::page_of(make::element("p", &row)), make::sums());
    }
}
