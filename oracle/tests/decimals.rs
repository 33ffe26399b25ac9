//! 02, A2: how decimals are read, bounded and written; that the Rust prints them alike; that they come out as they came.

use oracle::decimal::{Decimal, MOST_DIGITS, MOST_PLACES};
use oracle::field::{Node, read};
use oracle::generate::{decimals, rng::Rng};
use oracle::make::*;
use oracle::writing::{compare, difference};
use oracle::{Refusal, outcome};

/// Decimals that the gate compares; the program `decimals` compares as many as are asked for.
const COMPARED: u64 = 200_000;

/// Texts written down by hand from A2's words.
const WRITTEN: [(u64, u8, &str); 19] = [
    (0, 0, "0"),
    (0, 2, "0"),
    (0, 15, "0"),
    (5, 0, "5"),
    (10, 0, "10"),
    (10, 1, "1"),
    (10, 2, "0.1"),
    (10, 3, "0.01"),
    (125, 1, "12.5"),
    (1250, 2, "12.5"),
    (12500, 3, "12.5"),
    (1205, 2, "12.05"),
    (5, 2, "0.05"),
    (50, 2, "0.5"),
    (1, 15, "0.000000000000001"),
    (100, 15, "0.0000000000001"),
    (MOST_DIGITS, 0, "999999999999999"),
    (MOST_DIGITS, 1, "99999999999999.9"),
    (MOST_DIGITS, 15, "0.999999999999999"),
];

#[test]
fn written_as_by_hand() {
    for (digits, places, text) in WRITTEN {
        assert_eq!(Decimal { digits, places }.written(), text, "{digits} over {places} places");
    }
}

#[test]
fn the_rust_prints_what_is_written() {
    for (digits, places, _) in WRITTEN {
        assert_eq!(difference(Decimal { digits, places }), None);
    }
    let comparison = compare(COMPARED, 0);
    assert_eq!(comparison.first, None);
    assert_eq!(comparison.around_powers, 16 * decimals::around_powers().len() as u64);
    println!("{} decimals, {} of them around powers of ten", comparison.all(), comparison.around_powers);
}

/// Every digit within two of a power of ten is there, and nothing over the bound.
#[test]
fn digits_around_powers() {
    let digits = decimals::around_powers();
    for power in 0..=15 {
        for digit in 10_u64.pow(power).saturating_sub(2)..=10_u64.pow(power) + 2 {
            assert_eq!(digits.contains(&digit), digit <= MOST_DIGITS, "{digit}");
        }
    }
    assert!(digits.contains(&0) && digits.last() == Some(&MOST_DIGITS));
}

/// A decimal that the Rust would print with other digits is found: sixteen of them are too many for an `f64`.
#[test]
fn a_difference_is_found() {
    let over = Decimal { digits: 9_007_199_254_740_993, places: 0 };
    assert!(difference(over).expect("it is rounded").contains("9007199254740992"));
}

#[test]
fn bodies_and_bounds() {
    let most = Decimal { digits: MOST_DIGITS, places: MOST_PLACES };
    assert_eq!(Decimal::read(&most.bytes()), Ok(most));
    assert_eq!(Decimal::read(&[0, 0, 0, 0, 0, 0, 4, 0xe2, 2]), Ok(Decimal { digits: 1250, places: 2 }));
    for over in [
        Decimal { digits: MOST_DIGITS + 1, places: 0 },
        Decimal { digits: u64::MAX, places: 15 },
        Decimal { digits: 0, places: 16 },
        Decimal { digits: 0, places: 255 },
    ] {
        assert_eq!(Decimal::read(&over.bytes()), Err(Refusal::NumberTooLarge), "{over:?}");
    }
    for length in (0..=8).chain(10..=20) {
        assert_eq!(Decimal::read(&vec![0xff; length]), Err(Refusal::Misplaced), "{length} bytes");
    }
}

fn first(bytes: &[u8], tag: u8) -> Option<Node> {
    let mut found = None;
    for node in &read(bytes).unwrap() {
        node.each(&mut |node| {
            if found.is_none() && node.tag == tag {
                found = Some(node.clone());
            }
        });
    }
    found
}

/// Through the whole judge: written in a template, digits and places as they came in page out.
#[test]
#[cfg_attr(not(jsx_source), ignore = "jsx_precompile.rs is not there")]
fn whole_pages() {
    let mut rng = Rng::new(4);
    let random = (0..5_000).map(|_| decimals::decimal(&mut rng));
    let by_hand = WRITTEN.map(|(digits, places, _)| Decimal { digits, places });
    let all: Vec<Decimal> = by_hand.into_iter().chain(random).collect();
    for own @ Decimal { digits, places } in all.iter().copied() {
        let written = own.written();
        let template = |page: &[u8]| {
            let output = outcome(page, &[]).unwrap();
            String::from_utf8(first(&output.templates, 0x81).unwrap().bytes).unwrap()
        };
        for (expression, sign) in [(decimal(digits, places), ""), (minus_decimal(digits, places), "-")] {
            let attribute = element("a", &[attribute_with("b", braces(expression.clone()))]);
            assert_eq!(template(&page_of(attribute)), format!("<a b=\"{sign}{written}\"></a>"));
            let call = element("Foo", &[attribute_with("b", braces(expression.clone()))]);
            let output = outcome(&page_of(call), &[]).unwrap();
            let passed = first(&output.page, expression[0]).expect("it is a property");
            assert_eq!(passed.bytes, own.bytes());
        }
        let child = element("a", &[text("x"), braces(decimal(digits, places))]);
        assert_eq!(template(&page_of(child)), format!("<a>x{written}</a>"));
    }
    println!("{} decimals in three places each", all.len());
}
