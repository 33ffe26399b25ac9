//! Seeds of the calls over both outs: the generators reach what they must, and the comparison sees an implementation that
//! is wrong in one thing.

use oracle::outs::compare;
use oracle::outs::convert::Converted;
use oracle::outs::generate::history::{Call, history};
use oracle::outs::generate::{convert_case, fill_case, find_case};
use oracle::outs::reached::Reached;
use oracle::outs::{catalogue, convert, fill, find, sweep};

fn reaches(reached: &Reached, due: &[String]) {
    print!("{}", reached.table());
    assert_eq!(reached.missing(due, 1), Vec::<String>::new());
    let unexplained = reached.table().lines().filter(|line| line.contains("without a cause")).count();
    assert_eq!(unexplained, 0);
}

#[test]
fn conversions() {
    reaches(&sweep::conversions(0, 20_000), &Reached::due_of_convert());
}

#[test]
fn finds() {
    reaches(&sweep::finds(0, 10_000), &Reached::due_of_find());
}

#[test]
fn fills() {
    reaches(&sweep::fills(0, 20_000), &Reached::due_of_fill());
}

#[test]
fn histories_of_a_catalogue() {
    reaches(&sweep::histories(false, 0, 3_000), &Reached::due_of_catalogue(false));
}

#[test]
fn histories_with_shares() {
    reaches(&sweep::histories(true, 0, 2_000), &Reached::due_of_catalogue(true));
}

#[test]
fn a_seed_gives_the_same_case_again() {
    for seed in 0..300 {
        let all = || {
            let histories = [false, true].map(|housed| history(seed, housed));
            format!("{:?} {:?} {:?} {histories:?}", convert_case(seed), find_case(seed), fill_case(seed))
        };
        assert_eq!(all(), all());
    }
}

#[test]
fn the_judge_agrees_with_itself() {
    assert_eq!(compare::first_convert(0, 1_000, &convert::upgrade, &convert::downgrade), None);
    assert_eq!(compare::first_find(0, 1_000, &find::find), None);
    assert_eq!(compare::first_fill(0, 1_000, &fill::fill), None);
    for housed in [false, true] {
        let judge = |call: &Call, bytes: &mut [u8]| call.judge(housed, bytes);
        assert_eq!(compare::first_catalogue(housed, 0, 100, &judge), None);
    }
}

fn shown(name: &str, words: Option<String>) {
    let words = words.unwrap_or_else(|| panic!("{name}: no difference is seen"));
    println!("{name}: {}", words.lines().next().unwrap_or_default());
}

type Conversion = fn(&[u8], &[u8], &mut [u8], &mut [u8]) -> Converted;

/// A conversion that is the judge's but for one thing.
fn but(
    judge: Conversion,
    change: impl Fn(&mut Converted, &mut [u8], &mut [u8]),
) -> impl Fn(&[u8], &[u8], &mut [u8], &mut [u8]) -> Converted {
    move |templates, page, templates_out, page_out| {
        let mut answer = judge(templates, page, templates_out, page_out);
        change(&mut answer, templates_out, page_out);
        answer
    }
}

#[test]
fn a_wrong_conversion_is_seen() {
    use convert::{downgrade, upgrade};
    // One number for another: of these pairs each is told apart.
    for (wrong, right) in [(4, 3), (3, 4), (6, 5), (5, 6), (4, 7), (11, 17), (17, 11), (13, 12), (12, 13)] {
        let other = |answer: &mut Converted, _: &mut [u8], _: &mut [u8]| {
            answer.number = if answer.number == right { wrong } else { answer.number };
        };
        let (up, down) = (but(upgrade, other), but(downgrade, other));
        let words = (0..5_000).find_map(|seed| compare::convert(&convert_case(seed), &up, &down));
        shown(&format!("{wrong} for {right}"), words);
    }
    let cleared = |answer: &mut Converted, templates: &mut [u8], _: &mut [u8]| {
        let end = answer.templates_bytes;
        templates[end..].fill(0);
    };
    shown("bytes behind the templates", compare::first_convert(0, 1_000, &but(upgrade, cleared), &downgrade));
    let left = |answer: &mut Converted, _: &mut [u8], page: &mut [u8]| {
        if let Some(last) = page.last_mut().filter(|_| answer.number != 0) {
            *last = 1;
        }
    };
    shown("a byte not cleared", compare::first_convert(0, 1_000, &upgrade, &but(downgrade, left)));
    // The shortest call that is told apart is a short one.
    let taken = |answer: &mut Converted, _: &mut [u8], page: &mut [u8]| {
        if answer.number == 0 && page.first() == Some(&0x12) {
            page[0] = 0x10;
        }
    };
    let words = compare::first_convert(0, 1_000, &but(upgrade, taken), &downgrade).expect("a difference");
    assert!(words.contains("page out differs at byte 0: judge 12, other 10\ntemplates \npage 120000"), "{words}");
}

#[test]
fn a_wrong_find_or_fill_is_seen() {
    let last = |templates: &[u8], numbers: &[u32]| {
        let mut answer = find::find(templates, numbers);
        answer.records += usize::from(answer.number == 0 && answer.places[0] == find::ABSENT);
        answer
    };
    shown("a record too many", compare::first_find(0, 1_000, &last));
    let most = |templates: &[u8], numbers: &[u32]| find::find(templates, &numbers[..numbers.len().min(256)]);
    shown("257 numbers", compare::first_find(0, 5_000, &most));
    let unescaped = |templates: &[u8], order: &[u8], html: &mut [u8]| {
        let answer = fill::fill(templates, order, html);
        if let Some(at) = html[..answer.html_bytes].windows(5).position(|letters| letters == b"&#39;") {
            html[at..at + 5].copy_from_slice(b"&#40;");
        }
        answer
    };
    shown("an escape", compare::first_fill(0, 5_000, &unescaped));
    let behind = |templates: &[u8], order: &[u8], html: &mut [u8]| {
        let alone = order.get(..7).filter(|front| front[1..3] == [0, 4]).unwrap_or(order);
        fill::fill(templates, alone, html)
    };
    shown("bytes behind the order", compare::first_fill(0, 5_000, &behind));
}

#[test]
fn a_wrong_catalogue_is_seen() {
    // A name that is present comes before shares that are wrong.
    let early = |call: &Call, bytes: &mut [u8]| {
        let mut answer = call.judge(true, bytes);
        let Call::Add { name, .. } = call else { return answer };
        let present = catalogue::read(bytes, true).is_some_and(|pages| pages.iter().any(|page| page.name == *name));
        if answer.number == 26 && present {
            answer.number = 21;
        }
        answer
    };
    shown("21 before 26", compare::first_catalogue(true, 0, 1_000, &early));
    // What is behind the pages is not looked at.
    let trusting = |call: &Call, bytes: &mut [u8]| {
        let (_, rest) = catalogue::row_of(bytes, false);
        let (used, free) = (bytes.len() - rest.len(), rest.to_vec());
        bytes[used..].fill(0);
        let answer = call.judge(false, bytes);
        if answer.number != 0 {
            bytes[used..].copy_from_slice(&free);
        }
        answer
    };
    shown("bytes behind the pages", compare::first_catalogue(false, 0, 1_000, &trusting));
    let not_closed_up = |call: &Call, bytes: &mut [u8]| {
        let before = bytes.to_vec();
        let answer = call.judge(false, bytes);
        if let (Call::Remove { .. }, 0, Some(last)) = (call, answer.number, before.iter().rposition(|byte| *byte != 0))
        {
            bytes[last] = before[last];
        }
        answer
    };
    shown("a byte of a page that left", compare::first_catalogue(false, 0, 1_000, &not_closed_up));
}
