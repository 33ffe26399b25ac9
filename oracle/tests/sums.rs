//! 02, A12: every short text against a second evaluator, which goes by the grammar and calls itself; and what a page
//! becomes.

use oracle::field::{self, Node};
use oracle::generate::rng::Rng;
use oracle::generate::sums::{BOUNDS, NEAR, text};
use oracle::make::*;
use oracle::sums::{Stays, asked, given, work, worked};
use oracle::{Refusal, outcome};

const MOST: i128 = 9_007_199_254_740_991;

/// A sum is products with `+` and `-` between them, a product operands with `*` between them, an operand a number or a
/// sum in brackets. The outer none: no sum; the inner: it stays.
struct Reader<'a> {
    rest: &'a [u8],
}

impl Reader<'_> {
    fn sum(&mut self) -> Option<Option<i128>> {
        let mut value = self.product()?;
        while let Some(sign) = self.sign(b"+-") {
            let right = self.product()?;
            value = bounded(value.zip(right).map(|(a, b)| if sign == b'+' { a + b } else { a - b }));
        }
        Some(value)
    }

    fn product(&mut self) -> Option<Option<i128>> {
        let mut value = self.operand()?;
        while self.sign(b"*").is_some() {
            let right = self.operand()?;
            let whole = value.zip(right).filter(|(a, b)| a * b != 0 || *a >= 0 && *b >= 0);
            value = bounded(whole.map(|(a, b)| a * b));
        }
        Some(value)
    }

    fn operand(&mut self) -> Option<Option<i128>> {
        if self.sign(b"(").is_some() {
            let value = self.sum()?;
            return self.sign(b")").map(|_| value);
        }
        let digits: Vec<u8> = std::iter::from_fn(|| self.digit()).collect();
        let text = std::str::from_utf8(&digits).ok().filter(|text| !text.is_empty())?;
        let needless = text.len() > 1 && text.starts_with('0');
        (!needless).then(|| bounded(text.parse().ok()))
    }

    fn digit(&mut self) -> Option<u8> {
        let (first, rest) = self.rest.split_first().filter(|(first, _)| first.is_ascii_digit())?;
        self.rest = rest;
        Some(*first)
    }

    /// The next sign, where it is one of these; spaces around it go.
    fn sign(&mut self, signs: &[u8]) -> Option<u8> {
        self.spaces();
        let (first, rest) = self.rest.split_first().filter(|(first, _)| signs.contains(first))?;
        self.rest = rest;
        self.spaces();
        Some(*first)
    }

    fn spaces(&mut self) {
        while let [b' ', rest @ ..] = self.rest {
            self.rest = rest;
        }
    }
}

fn bounded(value: Option<i128>) -> Option<i128> {
    value.filter(|value| value.abs() <= MOST)
}

/// None for a text that is no sum.
fn by_grammar(text: &[u8]) -> Option<Option<i128>> {
    let mut reader = Reader { rest: text };
    reader.spaces();
    let value = reader.sum()?;
    reader.spaces();
    reader.rest.is_empty().then_some(value)
}

fn same(text: &[u8]) -> bool {
    match (work(text), by_grammar(text)) {
        (Err(Stays::NoSum), None) => true,
        (Err(stays), Some(None)) => stays != Stays::NoSum,
        (Ok(value), Some(Some(other))) => value == other,
        _ => false,
    }
}

#[test]
fn all_short_texts() {
    let signs = b"0129 +-*()x";
    let mut counts = [0_u64; 3];
    let mut places = vec![];
    loop {
        let text: Vec<u8> = places.iter().map(|i: &usize| signs[*i]).collect();
        assert!(same(&text), "{:?}: {:?}", String::from_utf8_lossy(&text), work(&text));
        counts[match work(&text) {
            Ok(_) => 0,
            Err(Stays::NoSum) => 2,
            Err(_) => 1,
        }] += 1;
        match places.iter().rposition(|i| *i + 1 < signs.len()) {
            Some(at) => {
                places[at] += 1;
                places[at + 1..].fill(0);
            }
            None if places.len() == 6 => break,
            None => places = vec![0; places.len() + 1],
        }
    }
    println!("texts up to six letters: {} worked out, {} sums that stay, {} no sums", counts[0], counts[1], counts[2]);
    assert!(counts.iter().sum::<u64>() == (0..=6).map(|n| 11_u64.pow(n)).sum());
}

#[test]
fn random_texts() {
    let mut rng = Rng::new(12);
    let random = (0..300_000).map(|_| text(&mut rng));
    let (mut count, mut sums) = (0, 0);
    for text in NEAR.iter().chain(&BOUNDS).map(|text| text.to_string()).chain(random) {
        assert!(same(text.as_bytes()), "{text:?}: {:?}", work(text.as_bytes()));
        count += 1;
        sums += usize::from(work(text.as_bytes()).is_ok());
    }
    println!("{count} texts, {sums} worked out");
    assert!(NEAR.iter().all(|text| work(text.as_bytes()) == Err(Stays::NoSum)));
    assert!(BOUNDS.iter().all(|text| work(text.as_bytes()) != Err(Stays::NoSum)));
}

/// Far more than a page has room for, in a stack of 64 KB.
#[test]
fn brackets_need_no_stack() {
    let deep = |count: usize| ["(".repeat(count), "7".to_string(), ")".repeat(count)].concat();
    let run = move || {
        assert_eq!(work(deep(1_000_000).as_bytes()), Ok(7));
        assert_eq!(work("(".repeat(1_000_000).as_bytes()), Err(Stays::NoSum));
    };
    std::thread::Builder::new().stack_size(64 * 1024).spawn(run).unwrap().join().unwrap();
}

/// A 71 or 75 stands where the 79 stood, nothing else changes, and another 79 is looked into.
#[test]
fn a_worked_page() {
    let parts = |inner: Vec<Vec<u8>>| {
        let inside = other(&[source("f("), element("i", &[braces(inner[2].clone())]), source(")")]);
        page(&[
            statement(&[source("1 + 2"), element("p", &[braces(inner[0].clone()), braces(inner[1].clone())])]),
            export(&[element("Foo", &[spread(inside), braces(other(&[source("1"), source("2")]))])]),
        ])
    };
    let before = parts(vec![code("2 * 12 + 3"), code("3 - 12"), code("0")]);
    assert_eq!(worked(&before), parts(vec![number(27), minus(9), number(0)]));
    assert_eq!(given(&before, &sums()), worked(&before));
    assert_eq!(given(&before, &import_source("h")), before);
    let stays = parts(vec![code("-1"), code("0 * (1 - 2)"), code("n")]);
    assert_eq!(worked(&stays), stays);
    assert!(asked(&[import_source("h"), sums()].concat()) && !asked(&elements_listed(&["a"])));
}

/// The page that grows most: 4,677 sums of one digit.
#[test]
#[cfg_attr(not(jsx_source), ignore = "jsx_precompile.rs is not there")]
fn the_longest_worked_page() {
    let longest = (1..=32_768_usize).map(|bytes| bytes + 4 * (bytes.saturating_sub(18) / 7)).max().unwrap();
    let row = vec![code("1"); (32_768 - 29) / 7];
    let page = page_of(element("F", &[attribute_with("a", braces(array(&row)))]));
    let (before, behind) = (page.len(), worked(&page).len());
    println!("{before} bytes become {behind}, at most {longest}");
    assert!(before <= 32_768 && behind <= longest && longest < 65_536);
    let output = outcome(&page, &sums()).expect("it is taken");
    assert!(output.page.len() > 51_000 && !has(&output.page, 0x79) && has(&output.page, 0x71));
    assert_eq!(outcome(&[page, vec![0; 32_768]].concat(), &sums()), Err(Refusal::InputTooLong));
}

fn has(bytes: &[u8], tag: u8) -> bool {
    let mut found = false;
    field::read(bytes).unwrap().iter().for_each(|node| node.each(&mut |node: &Node| found |= node.tag == tag));
    found
}
