//! The library's catalogue against the judge's: the number, both counts and every lent byte, call by call; what A14 promises
//! of guarantees and of houses apart, asked of the library's own answers; and the safe calls over it.

mod common;

use common::say;
use jsx_precompile::catalogue::{Catalogue, CatalogueAnswer, CatalogueError, Pages, Shares, add_into, remove_from};
use jsx_precompile::limits::{HOUSES, MAX_CATALOGUE};
use jsx_precompile::page::{Element, Expression, Item, Page};
use jsx_precompile::{Input, Options, Refusal, transform};
use oracle::generate::rng::Rng;
use oracle::make::field;
use oracle::outs::catalogue::{self as judge, Catalogued};
use oracle::outs::compare::{catalogue as parting, first_history};
use oracle::outs::generate::history::{Call, History, Step, history, history_of, run};
use oracle::outs::marks::{self, Out};
use oracle::outs::promises::{Guarantees, apart};
use oracle::outs::reached::Reached;
use oracle::outs::vectors::{Found, shares_call_by};
use oracle::outs::{Layout, exhaustive};
use std::collections::{BTreeMap, BTreeSet};
use std::path::Path;
use std::time::Instant;

const STACK: usize = 512 * 1024;

/// What stands before a page's templates.
const FRONT: usize = 14;

/// The library as the judge's own call.
fn library(call: &Call, bytes: &mut [u8]) -> Catalogued {
    let CatalogueAnswer { number, used, pages } = match call {
        Call::Add { name, house, shares, templates, page } => add_into(bytes, *name, *house, shares, templates, page),
        Call::Remove { name } => remove_from(bytes, *name),
    };
    Catalogued { number, used, pages }
}

/// On these bytes; the number that it is answered with.
fn agree(catalogue: &[u8], call: Call) -> u32 {
    let history =
        History { housed: true, catalogue: catalogue.to_vec(), steps: vec![Step { damage: None, call: call.clone() }] };
    if let Some(words) = parting(&history, &library) {
        panic!("{words}");
    }
    call.judge(true, &mut catalogue.to_vec()).number
}

fn word(name: &str, other: u64) -> u64 {
    std::env::var(name).map_or(other, |word| word.parse().unwrap_or_else(|_| panic!("{name} is no number: {word}")))
}

fn free() -> Vec<u32> {
    Shares::new().numbers().to_vec()
}

fn arrival(name: u32, house: u32, shares: &[u32], (templates, page): &(Vec<u8>, Vec<u8>)) -> Call {
    Call::Add { name, house, shares: shares.to_vec(), templates: templates.clone(), page: page.clone() }
}

/// A statement with templates in a template, as many as are asked for.
fn outs(templates: usize) -> (Vec<u8>, Vec<u8>) {
    let inner =
        |tag: Element| Element::new("p").attribute("title", Expression::source("t")).child(Expression::from(tag));
    let component = |tag: Element| Element::new("Seat").child(tag);
    let tag = (1..templates).fold(Element::new("b").child(Expression::source("n")), |tag, _| inner(component(tag)));
    let piece = if templates == 0 { "plain".into() } else { tag.into() };
    let forms = transform(&Page::new([Item::statement([piece])]).to_bytes().expect("a page"), &Options::new());
    let forms = forms.expect("it is taken");
    assert_eq!(forms.count(), templates);
    (forms.templates_bytes().to_vec(), forms.page_bytes().to_vec())
}

/// A page out without templates that has so many bytes, at least 6.
fn plain(bytes: usize) -> (Vec<u8>, Vec<u8>) {
    (vec![], field(0x12, &field(0x20, &vec![b's'; bytes - 6])))
}

/// Pages of one, no and two templates, and a short plain one, of three houses, with some bytes free.
fn some_pages() -> Vec<u8> {
    let mut bytes = vec![0; 700];
    for (name, house, page) in [(5, 1, outs(1)), (0x9797_9797, 16, outs(0)), (0, 2, outs(2)), (6, 1, (vec![], vec![]))]
    {
        assert_eq!(arrival(name, house, &free(), &page).judge(true, &mut bytes).number, 0);
    }
    let used = judge::row_of(&bytes, true).0.iter().map(judge::Page::bytes).sum::<usize>();
    bytes.truncate(used + 40);
    bytes
}

#[test]
fn seeds() {
    const CALLS: usize = 30;
    let (from, count) = (word("HOST_CATALOGUE_SEEDS_FROM", 0), word("HOST_CATALOGUE_SEEDS", 3_000));
    let start = Instant::now();
    let step = (count / 10).clamp(1, 10_000);
    for first in (0..count).step_by(step as usize) {
        let some = step.min(count - first);
        if let Some(words) = first_history(CALLS, from + first, some, &library) {
            panic!("{words}");
        }
        let (done, seconds) = (first + some, start.elapsed().as_secs());
        say(&format!("catalogue: {done} of {count} histories of {CALLS} calls, no difference, {seconds} s"));
    }
}

/// What the seeds reach, and that both are asked: as many answers of each number.
#[test]
fn each_number_is_answered() {
    let mut numbers = BTreeMap::new();
    for seed in 0..400 {
        run(&history_of(seed, 30), |_, _, _, answer| *numbers.entry(answer.number).or_insert(0) += 1);
    }
    say(&format!("catalogue: 400 histories answered by number {numbers:?}"));
    assert!(numbers.keys().eq(&[0, 3, 4, 5, 6, 7, 17, 21, 22, 24, 25, 26]), "{numbers:?}");
}

/// A14: with shares that stay the same, a sound page of a new name within its house's guarantee is taken; and in catalogues
/// that differ in one house's pages alone, a call of another house has the same number and leaves the others' pages alike.
/// Both asked of the library's own answers.
#[test]
fn promises_of_shares() {
    let mut reached = Reached::default();
    for seed in 0..1_500 {
        let history = history(seed, true);
        let mut bytes = history.catalogue.clone();
        let mut kept = bytes.iter().all(|byte| *byte == 0).then(Guarantees::default);
        for step in history.steps.iter().filter(|step| step.damage.is_none()) {
            let before = bytes.clone();
            let answer = library(&step.call, &mut bytes);
            apart(&library, &step.call, &before, &bytes, answer, &mut reached);
            kept = kept.take().and_then(|kept| kept.and(&step.call, &before, answer, &mut reached));
        }
    }
    say(&format!("catalogue: promises of 1500 histories hold\n{}", reached.table()));
    let due =
        ["shares: a guarantee is kept", "shares: another house is gone", "shares: another house in another order"];
    let missing = reached.missing(&due.map(str::to_string), 500);
    assert!(missing.is_empty(), "{missing:?}");
}

/// Every byte of a sound catalogue changed to every other, so every field of every page: an arrival, and the leaving of
/// each page and of one that is not there.
#[test]
fn damaged_in_every_field() {
    let sound = some_pages();
    let calls = [
        arrival(7, 3, &free(), &outs(1)),
        Call::Remove { name: 5 },
        Call::Remove { name: 6 },
        Call::Remove { name: 9 },
    ];
    for call in &calls {
        assert!(matches!(agree(&sound, call.clone()), 0 | 22 | 25), "{call:02x?}");
    }
    let (mut compared, mut numbers) = (0, BTreeSet::new());
    for (at, byte) in (0..sound.len()).flat_map(|at| (0..=u8::MAX).map(move |byte| (at, byte))) {
        let mut bytes = sound.clone();
        bytes[at] = byte;
        // One that is there too: now and then its name is what changed.
        let calls = if byte % 64 == 3 { &calls[..] } else { &calls[2..3] };
        for call in calls {
            numbers.insert(agree(&bytes, call.clone()));
            compared += 1;
        }
    }
    for end in 0..=sound.len() {
        for call in &calls {
            numbers.insert(agree(&sound[..end], call.clone()));
            compared += 1;
        }
    }
    assert_eq!(Vec::from_iter(numbers), [0, 4, 22, 25]);
    say(&format!("catalogue: {compared} calls on damaged catalogues, no difference"));
}

/// Each sentence on what templates and page outs are, as those of an arriving page and of a page that is there.
#[test]
fn every_mark() {
    let marks = marks::all();
    let (mut compared, shelf) = (0, outs(1));
    for mark in &marks {
        let (templates, page) = match mark.out {
            Out::Templates => (mark.bytes.clone(), vec![]),
            Out::Page => (shelf.0.clone(), mark.bytes.clone()),
        };
        let number = agree(&[0; 200], arrival(1, 1, &free(), &(templates.clone(), page.clone())));
        // 17 comes behind: only what has no templates and no calls is taken.
        let due = if mark.number == 0 && number != 0 { 17 } else { mark.number };
        assert!(mark.layout == Layout::Old || number == due, "{}: {number}", mark.name);
        let lengths = [templates.len(), page.len()].map(|length| (length as u32).to_be_bytes()).concat();
        let standing = [&b"\x97\0\0\0\x01\x01"[..], &lengths, &templates, &page, &[0; 50]].concat();
        let number = agree(&standing, Call::Remove { name: 1 });
        assert!(mark.layout == Layout::Old || number == if due == 0 { 0 } else { 4 }, "{}: {number}", mark.name);
        compared += 2;
    }
    assert!(marks.len() > 150, "{}", marks.len());
    say(&format!("catalogue: {compared} calls with {} marks, no difference", marks.len()));
}

/// All strings of up to two bytes in each place.
#[test]
fn all_bytes() {
    let (sound, one) = (some_pages(), outs(1));
    let mut compared = 0;
    let mut both = |bytes: &[u8], call: Call| {
        agree(bytes, call);
        compared += 1;
    };
    exhaustive::bytes(2, &mut |bytes| {
        both(bytes, Call::Remove { name: 1 });
        both(bytes, arrival(1, 1, &free(), &(vec![], vec![])));
        both(&[&sound[..sound.len() - 40], bytes].concat(), Call::Remove { name: 9 });
        both(&[0; 60], arrival(1, 1, &free(), &(bytes.to_vec(), vec![])));
        both(&[0; 60], arrival(1, 1, &free(), &(vec![], bytes.to_vec())));
        let mut shares = free();
        shares[4..4 + bytes.len()].copy_from_slice(&bytes.iter().map(|byte| u32::from(*byte)).collect::<Vec<_>>());
        both(&sound, arrival(1, u32::from(bytes.first().map_or(3, |byte| byte % 20)), &shares, &one));
    });
    say(&format!("catalogue: {compared} calls with all bytes in a place, no difference"));
}

/// One byte less, so many, one more.
fn about(exact: usize) -> [usize; 3] {
    [exact - 1, exact, exact + 1]
}

/// House 1 is guaranteed and may have so much, and house 2 is guaranteed so much.
fn of_two(guaranteed: usize, most: usize, other: usize) -> Vec<u32> {
    let mut shares = free();
    shares[..4].copy_from_slice(&[guaranteed as u32, most as u32, other as u32, u32::MAX]);
    shares
}

/// With one page of house 1, named 1.
fn with_one(page: &(Vec<u8>, Vec<u8>), length: usize) -> Vec<u8> {
    let mut catalogue = vec![0; length];
    assert_eq!(arrival(1, 1, &free(), page).judge(true, &mut catalogue).number, 0);
    catalogue
}

/// Lengths, mosts and guarantees a byte about what just fits.
#[test]
fn exact_fits() {
    for page in [0, 1, 2, 3].map(outs) {
        let bytes = FRONT + page.0.len() + page.1.len();
        let (one, more) = (|length| with_one(&page, length), with_one(&page, 3 * bytes));
        // What is lent.
        assert_eq!(about(bytes).map(|length| agree(&vec![0; length], arrival(1, 1, &free(), &page))), [25, 0, 0]);
        assert_eq!(about(2 * bytes).map(|length| agree(&one(length), arrival(2, 1, &free(), &page))), [25, 0, 0]);
        // The house's most, its own pages counted.
        let most = about(2 * bytes).map(|most| agree(&more, arrival(2, 1, &of_two(0, most, 0), &page)));
        assert_eq!(most, [24, 0, 0]);
        // What another house is guaranteed: it has nothing, or a page.
        let kept = about(bytes).map(|kept| agree(&more, arrival(2, 1, &of_two(0, 3 * bytes, kept), &page)));
        assert_eq!(kept, [0, 0, 25]);
        let kept = about(2 * bytes).map(|kept| agree(&more, arrival(2, 2, &of_two(kept, 4 * bytes, 0), &page)));
        assert_eq!(kept, [0, 0, 25]);
        // Its own guarantee is not kept from it, and 24 comes before 25.
        assert_eq!(agree(&one(2 * bytes), arrival(2, 1, &of_two(2 * bytes, 2 * bytes, 0), &page)), 0);
        assert_eq!(agree(&one(2 * bytes - 1), arrival(2, 1, &of_two(0, 2 * bytes - 1, 0), &page)), 24);
        // All guarantees together against the catalogue.
        let all = about(3 * bytes)
            .map(|all| agree(&vec![0; 3 * bytes], arrival(1, 1, &of_two(bytes, bytes, all - bytes), &page)));
        assert_eq!(all, [0, 0, 26]);
    }
    say("catalogue: what just fits and a byte about it, no difference");
}

/// Shares of every count, of every house, and at the limit of their numbers.
#[test]
fn shares_at_their_limits() {
    let (empty, page) = ([0; 100], plain(6));
    for count in 0..70 {
        let due = if count == 2 * HOUSES { 0 } else { 26 };
        assert_eq!(agree(&empty, arrival(1, 1, &vec![0x0fff_ffff; count][..], &page)), if due == 0 { 26 } else { due });
        assert_eq!(
            agree(&empty, arrival(1, 1, &free().into_iter().cycle().take(count).collect::<Vec<_>>(), &page)),
            due
        );
    }
    for house in (0..300).chain([u32::MAX - 255, u32::MAX - 15, u32::MAX, 1 << 8 | 1, 1 << 16 | 1, 1 << 31]) {
        let due = if (1..=16).contains(&house) { 0 } else { 26 };
        assert_eq!(agree(&empty, arrival(1, house, &free(), &page)), due, "{house}");
    }
    for house in 0..HOUSES {
        let with = |guaranteed: u32, most: u32| {
            let mut shares = free();
            shares[2 * house..2 * house + 2].copy_from_slice(&[guaranteed, most]);
            shares
        };
        for (guaranteed, most, due) in [
            (100, 100, [0, 25]),
            (80, 80, [0, 0]),
            (81, 81, [0, 25]),
            (101, 101, [26, 26]),
            (1, 0, [26, 26]),
            (20, 19, [26, 26]),
            (20, 20, [0, 0]),
            (0, 19, [24, 0]),
            (u32::MAX, u32::MAX, [26, 26]),
            (u32::MAX, 5, [26, 26]),
        ] {
            let other = if house == 3 { 5 } else { 4 };
            let numbers = [house as u32 + 1, other]
                .map(|asking| agree(&empty, arrival(1, asking, &with(guaranteed, most), &page)));
            assert_eq!(numbers, due, "house {} of {guaranteed} and {most}", house + 1);
        }
    }
    say("catalogue: shares of every count and house, no difference");
}

/// Guarantees that add up to more than four bytes hold.
#[test]
fn guarantees_together() {
    let (empty, page) = ([0; 100], plain(6));
    for (guaranteed, due) in [(1 << 28, 26), ((1 << 28) + 1, 26), (u32::MAX, 26), (100 / 16, 25)] {
        let shares = [guaranteed, u32::MAX].repeat(HOUSES);
        assert_eq!(agree(&empty, arrival(1, 1, &shares, &plain(86))), due, "{guaranteed}");
    }
    let mut shares = free();
    (shares[0], shares[2], shares[4]) = (1 << 31, 1 << 31, 99);
    assert_eq!(agree(&empty, arrival(1, 1, &shares, &page)), 26);
}

/// As many empty pages as a catalogue of so many bytes has room for, from a name on.
fn empty_pages(length: usize) -> Vec<u8> {
    let mut bytes = vec![0; length];
    for (name, page) in (0_u32..).zip(bytes.chunks_exact_mut(FRONT)) {
        page[0] = judge::PAGE;
        page[1..5].copy_from_slice(&name.wrapping_mul(0x9e37_79b1).to_be_bytes());
        page[5] = (name % 16) as u8 + 1;
    }
    bytes
}

/// A catalogue of the greatest length, empty, full of empty pages, with one name twice; one byte more; the longest page.
#[test]
fn limits() {
    let remove = |name: u32| Call::Remove { name };
    assert_eq!(agree(&vec![0; MAX_CATALOGUE], remove(1)), 22);
    assert_eq!(agree(&vec![0; MAX_CATALOGUE], arrival(1, 1, &free(), &outs(2))), 0);
    assert_eq!(agree(&vec![0; MAX_CATALOGUE + 1], remove(1)), 4);
    assert_eq!(agree(&vec![0; MAX_CATALOGUE + 1], arrival(1, 1, &free(), &outs(2))), 4);
    let mut full = empty_pages(MAX_CATALOGUE);
    let count = MAX_CATALOGUE / FRONT;
    assert_eq!(agree(&full, remove(0)), 0);
    assert_eq!(agree(&full, remove(1)), 22);
    assert_eq!(agree(&full, arrival(1, 1, &free(), &(vec![], vec![]))), 25);
    // One name twice: neighbours, the ends, far from each other.
    for (one, other) in [(0, 1), (0, count - 1), (count - 2, count - 1), (1_000, count / 2)] {
        let name: [u8; 4] = full[FRONT * one + 1..FRONT * one + 5].try_into().expect("four bytes");
        let place = FRONT * other + 1..FRONT * other + 5;
        let was = full[place.clone()].to_vec();
        full[place.clone()].copy_from_slice(&name);
        assert_eq!(agree(&full, remove(1)), 4);
        full[place].copy_from_slice(&was);
    }
    say(&format!("catalogue: {MAX_CATALOGUE} bytes, {count} pages, no difference"));
}

/// More templates than two bytes count, recorded and called in other orders.
#[test]
fn many_templates() {
    let each = |numbers: &[u32], tag: u8, behind: &[u8]| -> Vec<u8> {
        numbers.iter().flat_map(|number| field(tag, &[&number.to_be_bytes(), behind].concat())).collect()
    };
    let page = |numbers: &[u32]| -> Vec<u8> {
        // A statement has room for 9,362 calls.
        numbers.chunks(9_000).flat_map(|some| field(0x12, &each(some, 0x90, b""))).collect()
    };
    let up: Vec<u32> = (1..=70_000).collect();
    let down: Vec<u32> = up.iter().rev().copied().collect();
    let mut mixed = up.clone();
    let rng = &mut Rng::new(14);
    (1..mixed.len()).rev().for_each(|at| mixed.swap(at, rng.below(at + 1)));
    let templates = |numbers: &[u32]| each(numbers, 0x84, b"\0\0\x81\0\0");
    let mut catalogue = vec![0; 6_000_000];
    for (name, (recorded, called)) in (1..).zip([(&up, &down), (&mixed, &up), (&down, &mixed)]) {
        let call = arrival(name, name, &free(), &(templates(recorded), page(called)));
        assert_eq!(agree(&catalogue, call.clone()), 0);
        assert_eq!(call.judge(true, &mut catalogue).number, 0);
    }
    // One twice, and so one not at all; one beyond; as often called as is right.
    for (at, number) in [(0, 2), (69_999, 70_001), (35_000, 0), (1, u32::MAX)] {
        let mut other = up.clone();
        other[at] = number;
        assert_eq!(agree(&catalogue, arrival(9, 1, &free(), &(templates(&other), page(&up)))), 17);
        assert_eq!(agree(&catalogue, arrival(9, 1, &free(), &(templates(&up), page(&other)))), 17);
    }
    for name in [1, 2] {
        assert_eq!(agree(&catalogue, Call::Remove { name }), 0);
        Call::Remove { name }.judge(true, &mut catalogue);
    }
    say("catalogue: three pages of 70000 templates, no difference");
}

/// Answers of another implementation, made from the papers alone; where they are not there, that is said.
#[test]
fn stored_answers() {
    const FILE: &str = "../../shared/vectors/shares.txt";
    let Ok(text) = std::fs::read_to_string(Path::new(env!("CARGO_MANIFEST_DIR")).join(FILE)) else {
        say(&format!("skipped: {FILE} is not there"));
        return;
    };
    let found: Vec<Found> = text.lines().map(|line| shares_call_by(line, library).expect("seven words")).collect();
    let differing: Vec<&String> = found.iter().filter_map(|found| found.difference.as_ref()).collect();
    assert!(differing.is_empty(), "{differing:#?}");
    for number in [0, 3, 4, 17, 21, 22, 24, 25, 26] {
        assert!(found.iter().any(|found| found.number == number), "{number}");
    }
    say(&format!("catalogue: {} answers of another implementation, no difference", found.len()));
}

/// The safe calls answer the same, with a place and a reason; what is read of the catalogue is what the judge reads; and a
/// page of as many bytes as there is room for is taken, and of one more is not.
#[test]
fn the_safe_calls() {
    let (mut taken, mut refused, mut rooms) = (0, BTreeSet::new(), 0);
    for seed in 0..1_500 {
        let History { catalogue: bytes, steps, .. } = history_of(seed, 30);
        let Ok(mut catalogue) = Catalogue::over(bytes) else { continue };
        for step in steps {
            let mut theirs = catalogue.bytes().to_vec();
            let answer = step.call.judge(true, &mut theirs);
            let ours = match &step.call {
                Call::Remove { name } => catalogue.remove(*name),
                Call::Add { name, house, shares, templates, page } => match Shares::from_numbers(shares) {
                    // Such shares are not made.
                    Err(_) => continue,
                    Ok(shares) => {
                        rooms += usize::from(room_is_exact(&catalogue, *name, *house, &shares));
                        catalogue.add(*name, *house, &shares, templates, page)
                    }
                },
            };
            assert!(catalogue.bytes() == theirs, "seed {seed}");
            match ours {
                Ok(()) => {
                    assert_eq!((answer.number, catalogue.used(), catalogue.count()), (0, answer.used, answer.pages));
                    reads_alike(&catalogue);
                    taken += 1;
                }
                Err(error) => {
                    assert_eq!(error.refusal().number(), answer.number, "seed {seed}: {error}");
                    explained(&error, &step.call);
                    refused.insert(answer.number);
                }
            }
        }
    }
    assert!(taken > 5_000 && rooms > 500, "{taken} {rooms}");
    // 4 is that of a page: the catalogue stays sound.
    assert_eq!(Vec::from_iter(refused), [3, 4, 5, 6, 7, 17, 21, 22, 24, 25, 26]);
    say(&format!("catalogue: safe calls of 1500 histories, {taken} taken, {rooms} rooms exact"));
}

/// The pages, and their templates by number, as the judge has them.
fn reads_alike(catalogue: &Catalogue) {
    let pages = judge::read(catalogue.bytes(), true).expect("a sound catalogue");
    assert_eq!(catalogue.pages().count(), pages.len());
    for (ours, theirs) in catalogue.pages().zip(&pages) {
        assert_eq!((ours.name(), Some(ours.house() as u8), ours.bytes()), (theirs.name, theirs.house, theirs.bytes()));
        let (templates, page) = ours.as_arrived();
        let again = judge::Page::arriving(ours.name(), theirs.house, &templates, &page);
        assert_eq!(again.as_ref(), Ok(theirs));
        let numbers: BTreeSet<u32> = ours.templates().map(|template| template.number()).collect();
        assert!(ours.numbers().eq(numbers));
        if let Some(number) = ours.numbers().last() {
            let (page, template) = catalogue.template(number).expect("it is there");
            assert_eq!((page, template.number()), (ours, number));
        }
    }
    let count = catalogue.templates().count() as u32;
    assert!(catalogue.template(0).is_none() && catalogue.template(count + 1).is_none());
    for house in 0..=17 {
        let of_house = pages.iter().filter(|page| page.house == Some(house));
        assert_eq!(catalogue.used_by(u32::from(house)), of_house.map(|page| page.bytes() as u64).sum::<u64>());
    }
}

/// Whether there was something to be asked.
fn room_is_exact(catalogue: &Catalogue, name: u32, house: u32, shares: &Shares) -> bool {
    let fits = shares.fit(catalogue.bytes().len()).is_ok() && shares.share(house).is_some();
    let room = catalogue.room(house, shares) as usize;
    // A page out of this form has at least 6 bytes, and at most 65,538.
    if !fits || catalogue.page(name).is_some() || !(FRONT + 7..60_000).contains(&room) {
        return false;
    }
    for (bytes, due) in [(room, [0, 0]), (room + 1, [24, 25])] {
        let call = arrival(name, house, &shares.numbers(), &plain(bytes - FRONT));
        let number = library(&call, &mut catalogue.bytes().to_vec()).number;
        assert!(due.contains(&number), "{number} for a page of {bytes} bytes where there is room for {room}");
    }
    true
}

/// The reason says more than the number's own words, and a place lies within what it is of.
fn explained(error: &CatalogueError, call: &Call) {
    let said = error.to_string();
    assert!(!said.contains(error.refusal().explanation()), "{said}");
    if let (CatalogueError::Page(fault), Call::Add { templates, page, .. }) = (error, call) {
        let bytes = if fault.input == Input::Templates { templates } else { page };
        assert!(fault.at <= bytes.len(), "{said}");
        if fault.refusal == Refusal::Disagreeing {
            assert!(!fault.path.steps().is_empty(), "{said}");
        }
    }
}

/// The reader of the crate refuses what the judge refuses, damaged bytes too, with a place in them.
#[test]
fn sound_or_not() {
    let (mut sound, mut unsound) = (0, 0);
    let mut same = |bytes: &[u8]| match (Catalogue::over(bytes), judge::read(bytes, true)) {
        (Ok(catalogue), Some(pages)) => {
            assert_eq!(catalogue.count(), pages.len());
            sound += 1;
        }
        (Err(fault), None) => {
            assert_eq!((fault.input, fault.refusal), (Input::Catalogue, Refusal::Misplaced), "{fault}");
            assert!(fault.at < bytes.len(), "{fault}");
            unsound += 1;
        }
        (ours, theirs) => panic!("{ours:?}, judge {:?}\n{}", theirs.is_some(), oracle::show::hex(bytes)),
    };
    for seed in 0..1_500 {
        run(&history_of(seed, 30), |_, before, _, _| same(before));
    }
    let pages = some_pages();
    for (at, byte) in (0..pages.len()).flat_map(|at| (0..=u8::MAX).map(move |byte| (at, byte))) {
        let mut bytes = pages.clone();
        bytes[at] = byte;
        same(&bytes);
    }
    (0..=pages.len()).for_each(|end| same(&pages[..end]));
    assert!(sound > 10_000 && unsound > 10_000, "{sound} {unsound}");
    say(&format!("catalogue: {sound} sound and {unsound} damaged catalogues read, no difference"));
}

/// Where it shows, and the words, of each cause.
#[test]
fn places_of_damage() {
    let page = outs(1);
    let mut sound = vec![0; 200];
    assert_eq!(arrival(5, 1, &free(), &page).judge(true, &mut sound).number, 0);
    let end = FRONT + page.0.len() + page.1.len();
    let changed = |at: usize, byte: u8| {
        let mut bytes = sound.clone();
        bytes[at] = byte;
        bytes
    };
    let twice = [&sound[..end], &sound[..end]].concat();
    for (bytes, at, reason) in [
        (changed(end, 5), end, "05 behind the last page, where zeros must stand".to_string()),
        (changed(199, 0x97), 199, "97 behind the last page, where zeros must stand".to_string()),
        (changed(5, 0), 5, "page 5 is of house 0, and they are 1 to 16".to_string()),
        (changed(5, 17), 5, "page 5 is of house 17, and they are 1 to 16".to_string()),
        (sound[..8].to_vec(), 0, "97 with 7 bytes behind it, and a page has 13".to_string()),
        (
            changed(7, 1),
            0,
            format!(
                "page 5 has {} bytes of templates out and {} of page out, where 186 are left",
                page.0.len() + 65_536,
                page.1.len()
            ),
        ),
        (twice[..].to_vec(), end, "page 5 stands at byte 0 already".to_string()),
        (
            changed(FRONT + 6, 2),
            FRONT,
            "page 5: templates out, byte 0, 84 2: 17 (disagreeing): template 2 is recorded, and the page's template is 1"
                .to_string(),
        ),
        (
            changed(FRONT, 0x80),
            FRONT,
            "page 5: templates out, byte 0, 80 0: 4 (misplaced): 80s do not stand in a catalogue; `upgrade` makes 84s of them"
                .to_string(),
        ),
        (
            changed(FRONT + 9, 1),
            FRONT + 9,
            "page 5: templates out, byte 9, 84 1: 17 (disagreeing): gap 0 of template 1 is said to be of kind attribute, and is of kind child"
                .to_string(),
        ),
        (
            changed(FRONT + 13, b'>'),
            FRONT + 9,
            "page 5: templates out, byte 9, 84 1: 17 (disagreeing): gap 0 of template 1 lies neither in an opening tag behind a space nor outside of tags"
                .to_string(),
        ),
    ] {
        let fault = Catalogue::over(bytes).expect_err("it is damaged");
        assert_eq!((fault.at, fault.reason), (at, reason));
    }
    for (templates, page, said) in [
        (&page.0[..], &[][..], "templates out, byte 0, 84 1: 17 (disagreeing): template 1 is not called"),
        (
            &page.0,
            &field(0x12, &field(0x90, b"\0\0\0\x01").repeat(2)),
            "page out, byte 10, 12 > 90[1] 1: 17 (disagreeing): template 1 is called again; it was at byte 3",
        ),
        (
            &page.0.repeat(2),
            &[],
            "templates out, byte 23, 84[1] 1: 17 (disagreeing): template 1 is recorded again; it was at byte 0",
        ),
        (
            &page.0,
            &field(0x12, &field(0x90, b"\0\0\0\x07")),
            "page out, byte 3, 12 > 90 7: 17 (disagreeing): template 7 is called, and the page's template is 1",
        ),
        (
            &[],
            b"\x83\0\0\x11\0\0\x12\0\0",
            "page out, byte 6, 12: 4 (misplaced): 12 (statement) stands behind an 83 that is not right before the first export (10) or statement (12)",
        ),
        (
            &[],
            b"\x11\0\0\x83\0\0\x11\0\0",
            "page out, byte 6, 11[2]: 4 (misplaced): 11 (declaration) stands between an 83 behind items and the export (10) or statement (12) that must follow",
        ),
        (
            &[],
            b"\x11\0\0\x83\0\0",
            "page out, byte 3, 83: 4 (misplaced): 83 (templates go here) stands behind items, and no export (10) or statement (12) follows",
        ),
        (
            &[],
            b"\x12\0\0\x83\0\0\x12\0\x09",
            "page out, byte 3, 83: 4 (misplaced): 83 (templates go here) stands behind the first export (10) or statement (12)",
        ),
        (&page.0[..5], &[], "templates out, byte 0: 3 (torn): 84 (template) of 20 bytes where 2 are left"),
        (b"\x80\0", &[], "templates out, byte 0: 3 (torn): 2 bytes where a field begins"),
        (
            &[],
            b"\x30\0\0",
            "page out, byte 0, 30: 4 (misplaced): 30 (element) stands where items (82 first, 83 once, 10 to 13) may stand",
        ),
    ] {
        let error = Catalogue::new(500).add(1, 1, &Shares::new(), templates, page).expect_err("it is refused");
        assert_eq!(error.to_string(), said);
    }
}

/// By their lengths pages are read of any bytes.
#[test]
fn pages_of_any_bytes() {
    let pages = some_pages();
    for (at, byte) in (0..pages.len()).flat_map(|at| [0, 1, 0x97, 0xff].map(|byte| (at, byte))) {
        let mut bytes = pages.clone();
        bytes[at] = byte;
        let mut read = Pages::new(&bytes);
        let used: usize = read.by_ref().map(|page| page.bytes()).sum();
        assert_eq!((used, read.place(), read.rest()), (read.place(), used, &bytes[used..]));
    }
}

/// A nest as deep as a page out has room for, the longest strings, many templates, full catalogues: within half a megabyte
/// of stack.
#[test]
fn half_a_megabyte_is_enough() {
    // Arrays in arrays in a statement.
    let deep = (0..21_844).fold(vec![], |inner, _| field(0x76, &inner));
    let deep = (vec![], field(0x12, &deep));
    let template = |number: u32| field(0x84, &[&number.to_be_bytes()[..], b"\0\0\x81\0\0"].concat());
    let call = |number: u32| field(0x12, &field(0x90, &number.to_be_bytes()));
    let many: (Vec<u8>, Vec<u8>) = ((1..=300_000).flat_map(template).collect(), (1..=300_000).flat_map(call).collect());
    let calls = [
        (vec![0; 100_000], arrival(1, 1, &free(), &deep)),
        (vec![0; MAX_CATALOGUE], arrival(1, 1, &free(), &many)),
        ([empty_pages(MAX_CATALOGUE - 500), vec![0; 500]].concat(), arrival(1, 1, &free(), &outs(1))),
        (empty_pages(MAX_CATALOGUE), Call::Remove { name: 0 }),
    ];
    let judged = calls.each_ref().map(|(bytes, call)| {
        let mut bytes = bytes.clone();
        (call.judge(true, &mut bytes), bytes)
    });
    let run = move || {
        for ((bytes, call), (answer, after)) in calls.iter().zip(&judged) {
            let mut bytes = bytes.clone();
            assert_eq!(library(call, &mut bytes), *answer);
            assert!(bytes == *after && answer.number == 0, "{answer:?}");
            if let Call::Add { name, .. } = call {
                assert_eq!(library(&Call::Remove { name: *name }, &mut bytes).number, 0);
            }
        }
        calls.len()
    };
    let thread = std::thread::Builder::new().stack_size(STACK).spawn(run).expect("a thread");
    say(&format!("catalogue: {} arrivals and leavings within {STACK} bytes of stack", thread.join().expect("it ends")));
}
