//! Decimals (02, A2): their text, their bytes, what is refused of them and where, what stands in the outputs, and the
//! number that node reads of what is printed.

mod common;

use common::{jsx_precompile, no_judge, say};
use jsx_precompile::limits::{MAX_DIGITS, MAX_PLACES};
use jsx_precompile::out::{self, Call, Prop};
use jsx_precompile::page::{ArrayItem, Element, Expression, Item, Page};
use jsx_precompile::{Decimal, DecimalError, Forms, Options, Refusal, transform};
use oracle::decimal::Decimal as Judged;
use oracle::generate::{decimals, rng::Rng};
use oracle::make;
use std::process::Command;

/// Digits around each power of ten with all places, then random ones.
fn some(random: usize) -> Vec<(u64, u8)> {
    let all_places = |digits: u64| (0..=MAX_PLACES).map(move |places| (digits, places));
    let mut all: Vec<(u64, u8)> = decimals::around_powers().into_iter().flat_map(all_places).collect();
    let mut rng = Rng::new(9);
    all.extend((0..random).map(|_| {
        let Judged { digits, places } = decimals::decimal(&mut rng);
        (digits, places)
    }));
    all
}

fn page_of(tag: Element) -> Page {
    Page::new([Item::statement([tag.into()])])
}

fn taken(tag: Element) -> Forms {
    transform(&page_of(tag).to_bytes().expect("a page"), &Options::new()).unwrap_or_else(|fault| panic!("{fault}"))
}

/// As the judge writes it and holds it; its text, with all its places, is read as the same.
#[test]
fn texts_and_bytes() {
    let all = some(20_000);
    for (digits, places) in &all {
        let decimal = Decimal::new(*digits, *places).expect("within its limits");
        let judged = Judged { digits: *digits, places: *places };
        assert_eq!(decimal.to_string(), judged.written());
        assert_eq!(judged.with_all_places().parse(), Ok(decimal));
        let shorter: Decimal = decimal.to_string().parse().expect("what is written can be read");
        assert_eq!(shorter.to_string(), decimal.to_string());
        for (expression, bytes) in [
            (Expression::Decimal(decimal), make::decimal(*digits, *places)),
            (Expression::MinusDecimal(decimal), make::minus_decimal(*digits, *places)),
        ] {
            let page = page_of(Element::new("b").child(expression));
            let expected = make::page_of(make::element("b", &[make::braces(bytes)]));
            assert_eq!(page.to_bytes().as_ref(), Ok(&expected));
            assert_eq!(Page::from_bytes(&expected), Ok(page));
        }
    }
    say(&format!("decimals: {} written and read", all.len()));
}

#[test]
fn what_cannot_be_held() {
    let error = |text: &str| Expression::parse_decimal(text).expect_err(text).to_string();
    for (text, words) in [
        ("", "\"\" is no decimal: it is empty"),
        ("-", "\"-\" is no decimal: it is empty"),
        (".5", "\".5\" is no decimal: no digit stands before the point"),
        ("-.5", "\"-.5\" is no decimal: no digit stands before the point"),
        ("5.", "\"5.\" is no decimal: no digit stands behind the point"),
        (".", "\".\" is no decimal: no digit stands behind the point"),
        ("1e3", "\"1e3\" is no decimal: only digits and one point may stand in it"),
        ("+1", "\"+1\" is no decimal: only digits and one point may stand in it"),
        ("--1", "\"--1\" is no decimal: only digits and one point may stand in it"),
        ("- 1", "\"- 1\" is no decimal: only digits and one point may stand in it"),
        ("1,5", "\"1,5\" is no decimal: only digits and one point may stand in it"),
        ("1.2.3", "\"1.2.3\" is no decimal: only digits and one point may stand in it"),
        ("£5", "\"£5\" is no decimal: only digits and one point may stand in it"),
        ("٣.٥", "\"٣.٥\" is no decimal: only digits and one point may stand in it"),
        ("NaN", "\"NaN\" is no decimal: only digits and one point may stand in it"),
        ("1000000000000000", "the digits 1000000000000000 are over 999999999999999"),
        ("-10000000000000.00", "the digits 1000000000000000 are over 999999999999999"),
        ("18446744073709551616", "the digits 18446744073709551616 are over 999999999999999"),
        ("0.1234567890123456", "the digits 1234567890123456 are over 999999999999999"),
        ("0.0000000000000000", "16 places behind the point, at most 15 are taken"),
        ("1.0000000000000000", "the digits 10000000000000000 are over 999999999999999"),
    ] {
        assert_eq!(error(text), words);
    }
    let long = format!("0.{}", "0".repeat(1_000));
    assert_eq!(long.parse::<Decimal>(), Err(DecimalError::TooManyPlaces(1_000)));
    let long = format!("{}.5", "0".repeat(1_000));
    assert_eq!(long.parse::<Decimal>(), Decimal::new(5, 1));
    assert_eq!(Expression::decimal(MAX_DIGITS + 1, 0), Err(DecimalError::TooManyDigits("1000000000000000".into())));
    assert_eq!(Expression::decimal(0, MAX_PLACES + 1), Err(DecimalError::TooManyPlaces(16)));
    assert_eq!(Expression::decimal(u64::MAX, u8::MAX), Err(DecimalError::TooManyDigits(u64::MAX.to_string())));
}

/// `<p id={...}>` with a field of these bytes in the braces.
fn page_with(tag: u8, body: &[u8]) -> Vec<u8> {
    let value = make::braces(make::field(tag, body));
    make::page_of(make::element("p", &[make::attribute_with("id", value)]))
}

/// Where a body is refused: of another length than nine before it is too large; of the places their own byte.
#[test]
fn refused_with_their_place() {
    // 01, 12, 30, 40 and its name, 50, 40 and its name, 52 and 7a stand before the body.
    const BODY: usize = 3 + 3 + 3 + 4 + 3 + 5 + 3 + 3;
    for (tag, name) in [(0x7a, "7a (decimal)"), (0x7b, "7b (minus decimal)")] {
        let refused = |body: &[u8]| {
            let fault = Page::from_bytes(&page_with(tag, body)).expect_err("it is refused");
            assert_eq!(fault.path.to_string(), format!("01 > 12[0] > 30 p > 50 id > 52 > {tag:02x}"));
            (fault.refusal, fault.at, fault.reason)
        };
        for length in [0, 1, 8, 10, 18] {
            let reason = format!("{name} has {length} bytes and must have 9");
            assert_eq!(refused(&vec![0xff; length]), (Refusal::Misplaced, BODY, reason));
        }
        let body = |digits: u64, places: u8| Judged { digits, places }.bytes();
        let digits = "the digits 1000000000000000 are over 999999999999999".to_string();
        assert_eq!(refused(&body(MAX_DIGITS + 1, 0)), (Refusal::NumberTooLarge, BODY, digits.clone()));
        assert_eq!(refused(&body(MAX_DIGITS + 1, 16)), (Refusal::NumberTooLarge, BODY, digits));
        let places = "16 places behind the point, at most 15 are taken".to_string();
        assert_eq!(refused(&body(0, 16)), (Refusal::NumberTooLarge, BODY + 8, places));
        assert!(Page::from_bytes(&page_with(tag, &body(MAX_DIGITS, MAX_PLACES))).is_ok());
    }
}

/// The library refuses them alike.
#[test]
fn refused_by_the_library() {
    let body = |digits: u64, places: u8| Judged { digits, places }.bytes().to_vec();
    let bodies = [vec![0; 8], vec![0xff; 10], body(MAX_DIGITS + 1, 0), body(0, 16), body(MAX_DIGITS, MAX_PLACES)];
    for tag in [0x7a, 0x7b] {
        for body in &bodies {
            let page = page_with(tag, body);
            let ours = Page::from_bytes(&page).err();
            assert_eq!(transform(&page, &Options::new()).err(), ours, "{tag:02x} {body:02x?}");
        }
    }
}

/// Written into templates without needless zeros; in page out digits and places as they came.
#[test]
fn in_the_outputs() {
    let price = || Expression::decimal(1250, 2).expect("a price");
    let less = || Expression::parse_decimal("-0.050").expect("a decimal");
    let tag = Element::new("p").attribute("data-price", price()).attribute("data-less", less()).child(price());
    let forms = taken(tag);
    let strings: Vec<_> = forms.templates().next().expect("a template").strings().collect();
    assert_eq!(strings, ["<p data-price=\"12.5\" data-less=\"-0.05\">12.5</p>"]);

    let array = Expression::Array(vec![price().into(), ArrayItem::Spread(less())]);
    let forms = taken(Element::new("Price").attribute("of", price()).attribute("less", less()).attribute("all", array));
    let Some(Call::Jsx(call)) = forms.page().calls().next() else { panic!("a call") };
    let props: Vec<_> = call.props().expect("some").collect();
    let [Prop::Named("of", of), Prop::Named("less", less), Prop::Named("all", out::Expression::Array(all))] =
        &props[..]
    else {
        panic!("{props:?}")
    };
    let (held, small) = (Decimal::new(1250, 2).expect("a price"), Decimal::new(50, 3).expect("a decimal"));
    assert_eq!(*of, out::Expression::Decimal(held));
    assert_eq!(*less, out::Expression::MinusDecimal(small));
    let items = [out::ArrayItem::Expression(of.clone()), out::ArrayItem::Spread(less.clone())];
    assert!(all.clone().eq(items));
    assert!(forms.javascript().ends_with("_jsx(Price, { of: 12.5, less: -0.05, all: [12.5, ...-0.05] })\n"));
}

/// Wherever a whole number may stand, treated alike there, zero with its sign.
#[test]
fn printed_as_javascript() {
    let last = |tag: Element| taken(tag).javascript().lines().last().expect("a line").to_string();
    let decimal = |text: &str| Expression::parse_decimal(text).expect("a decimal");
    for (text, printed) in
        [("12.50", "12.5"), ("-12.50", "-12.5"), ("0.00", "0"), ("-0.00", "-0"), ("-0", "-0"), ("7.0", "7")]
    {
        let foo = || Element::new("Foo");
        assert_eq!(last(foo().attribute("a", decimal(text))), format!("_jsx(Foo, {{ a: {printed} }})"));
        assert_eq!(last(foo().attribute("key", decimal(text))), format!("_jsx(Foo, null, {printed})"));
        assert_eq!(last(foo().child(decimal(text))), format!("_jsx(Foo, {{ children: {printed} }})"));
        assert_eq!(last(foo().spread(decimal(text))), format!("_jsx(Foo, {{ ...{printed} }})"));
    }
    assert_eq!(last(Element::new("p").child(decimal("-0.0"))), "_jsxTemplate($$_tpl_1, _jsxEscape(-0))");
}

/// What is printed is read by node as the number that is nearest to the decimal, the one that the judge gives the Rust.
#[test]
fn read_by_node() {
    if Command::new("node").arg("--version").output().is_err() {
        say("skipped: no node here");
        return;
    }
    let all = some(5_000);
    let one = |(digits, places): &(u64, u8)| {
        let decimal = Decimal::new(*digits, *places).expect("within its limits");
        let nearest = Judged { digits: *digits, places: *places }.nearest();
        format!("[{decimal}, 0x{:x}n]", nearest.to_bits())
    };
    let script = format!(
        "const bits = (x) => new DataView(new Float64Array([x]).buffer).getBigUint64(0, true);
         const all = [{}];
         console.log(all.filter(([x, expected]) => bits(x) === expected).length, Object.is(-{}, -0));",
        all.iter().map(one).collect::<Vec<_>>().join(","),
        Decimal::new(0, 2).expect("zero")
    );
    let file = std::path::Path::new(env!("CARGO_TARGET_TMPDIR")).join("decimals.js");
    std::fs::write(&file, script).expect("it is written");
    let output = Command::new("node").arg(&file).output().expect("node runs");
    assert_eq!(String::from_utf8_lossy(&output.stdout), format!("{} true\n", all.len()), "{output:?}");
    say(&format!("decimals: {} read by node", all.len()));
}

#[test]
fn shown() {
    let show = |bytes: &[u8]| {
        let output = jsx_precompile(&["show", "-"], bytes);
        String::from_utf8(output.stdout).expect("text")
    };
    let page = page_of(
        Element::new("b")
            .child(Expression::decimal(1250, 2).expect("a price"))
            .child(Expression::parse_decimal("-0.00").expect("a decimal")),
    );
    let expected = r#"     0  01 page
     3    12 statement
     6      30 element
     9        40 identifier "b"
    13        52 container
    16          7a decimal 12.5: digits 1250, places 2
    28        52 container
    31          7b minus decimal 0: digits 0, places 2
page: 43 bytes, 8 fields, 5 deep
"#;
    assert_eq!(show(&page.to_bytes().expect("a page")), expected);
    let over = Judged { digits: 1, places: 200 }.bytes();
    let tree = show(&page_with(0x7a, &over));
    assert!(
        tree.contains("7a decimal digits 1, places 200\n    35            ^ 7 (big number): 200 places behind"),
        "{tree}"
    );
    let tree = show(&page_with(0x7b, &over[1..]));
    assert!(
        tree.contains("7b minus decimal 00000000000001c8\n    27            ^ 4 (misplaced): 7b (minus decimal)"),
        "{tree}"
    );
}

/// The library's templates against the judge's, for many decimals in one page.
#[test]
fn as_the_judge_has_them() {
    if no_judge() {
        return;
    }
    let all = some(20_000);
    for part in all.chunks(500) {
        let children =
            part.iter().map(|(digits, places)| Expression::decimal(*digits, *places).expect("within its limits"));
        let tag = children.fold(Element::new("p"), |tag, decimal| tag.child(decimal).text(" "));
        let bytes = page_of(tag).to_bytes().expect("a page");
        let forms = transform(&bytes, &Options::new()).unwrap_or_else(|fault| panic!("{fault}"));
        let judged = oracle::outcome(&bytes, &[]).expect("it is taken");
        assert_eq!((forms.templates_bytes(), forms.page_bytes()), (&judged.templates[..], &judged.page[..]));
    }
    say(&format!("decimals: {} written by the library as by the judge", all.len()));
}
