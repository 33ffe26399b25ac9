//! The library's converters against the judge's: the number, both counts and every lent byte, call by call.

mod common;

use common::{no_judge, say};
use jsx_precompile::limits::{MAX_BODY, MAX_OLD_NUMBER};
use jsx_precompile::{ConvertAnswer, Options, Refusal, downgrade, downgrade_into, transform, upgrade, upgrade_into};
use oracle::field::{begin, finish};
use oracle::generate::Room;
use oracle::make::{field, null, source, statement};
use oracle::outs::Layout;
use oracle::outs::compare::{convert, first_convert};
use oracle::outs::convert::{Converted, Way, outcome};
use oracle::outs::exhaustive::{self, FAMILIES};
use oracle::outs::generate::{ConvertCase, convert_case};
use oracle::outs::marks::{self, Out};
use oracle::outs::templates::{Template, write};
use oracle::outs::vectors::{Found, convert_by};
use std::path::Path;
use std::time::Instant;

const STACK: usize = 512 * 1024;

/// The library as the judge's own calls.
fn up(templates: &[u8], page: &[u8], templates_out: &mut [u8], page_out: &mut [u8]) -> Converted {
    as_judged(upgrade_into(templates, page, templates_out, page_out))
}

fn down(templates: &[u8], page: &[u8], templates_out: &mut [u8], page_out: &mut [u8]) -> Converted {
    as_judged(downgrade_into(templates, page, templates_out, page_out))
}

fn as_judged(answer: ConvertAnswer) -> Converted {
    let ConvertAnswer { number, templates_bytes, page_bytes } = answer;
    Converted { number, templates_bytes, page_bytes }
}

/// Rooms about the exact fit: of templates out, and of page out.
const ROOMS: [(Room, Room); 5] = [
    (Room::Exact, Room::Exact),
    (Room::More(3), Room::More(2)),
    (Room::Less(1), Room::Less(1)),
    (Room::Exact, Room::Less(1)),
    (Room::None, Room::More(1)),
];

fn agree_in(way: Way, templates: &[u8], page: &[u8], (templates_room, page_room): (Room, Room)) {
    let case = ConvertCase { way, templates: templates.to_vec(), page: page.to_vec(), templates_room, page_room };
    if let Some(words) = convert(&case, &up, &down) {
        let [templates, page] = [templates, page].map(oracle::show::hex);
        panic!("{words}\n{way:?}, {templates_room:?} {page_room:?}\ntemplates {templates}\npage {page}");
    }
}

/// In all rooms; the number with which it is answered where both fit.
fn agree(way: Way, templates: &[u8], page: &[u8]) -> u32 {
    ROOMS.iter().for_each(|rooms| agree_in(way, templates, page, *rooms));
    outcome(way, templates, page).map_or_else(|refusal| refusal as u32, |_| 0)
}

fn way_from(layout: Layout) -> Way {
    match layout {
        Layout::Old => Way::Up,
        Layout::New => Way::Down,
    }
}

const LAYOUTS: [Layout; 2] = [Layout::Old, Layout::New];

fn word(name: &str, other: u64) -> u64 {
    std::env::var(name).map_or(other, |word| word.parse().unwrap_or_else(|_| panic!("{name} is no number: {word}")))
}

#[test]
fn seeds() {
    let (from, count) = (word("HOST_CONVERT_SEEDS_FROM", 0), word("HOST_CONVERT_SEEDS", 20_000));
    let start = Instant::now();
    let step = (count / 10).clamp(1, 100_000);
    for first in (0..count).step_by(step as usize) {
        let some = step.min(count - first);
        if let Some(words) = first_convert(from + first, some, &up, &down) {
            panic!("{words}");
        }
        say(&format!("convert: {} of {count} seeds, no difference, {} s", first + some, start.elapsed().as_secs()));
    }
}

/// Each sentence of A7 on what is read, each reading that was settled; what is wrong with the templates comes first.
#[test]
fn every_mark() {
    let marks = marks::all();
    for mark in &marks {
        let way = way_from(mark.layout);
        let number = match mark.out {
            Out::Templates => agree(way, &mark.bytes, &[]),
            Out::Page => agree(way, &[], &mark.bytes),
        };
        // What is read may still disagree: the grammar leaves signs and kinds alone.
        assert!(number == mark.number || (mark.number, number) == (0, 17), "{}: {number}", mark.name);
        let other = [0x12];
        let both = match mark.out {
            Out::Templates => agree(way, &mark.bytes, &other),
            Out::Page => agree(way, &other, &mark.bytes),
        };
        let first = if mark.out == Out::Templates && mark.number != 0 { mark.number } else { 3 };
        assert_eq!(both, first, "{}", mark.name);
    }
    say(&format!("convert: {} marks, no difference", marks.len()));
}

/// A template of these strings; an 84 has these kinds.
fn template(layout: Layout, number: u32, kinds: &[u8], strings: &[Vec<u8>]) -> Vec<u8> {
    let template = Template { number, kinds: kinds.to_vec(), strings: strings.to_vec() };
    write(&[template], layout).expect("it fits")
}

/// A statement with a call of this template.
fn call(layout: Layout, number: u32) -> Vec<u8> {
    let mut body = vec![];
    layout.write_number(&mut body, number);
    statement(&[field(0x90, &[body, null()].concat())])
}

/// Every row of strings of a few signs, going up, and going down with every row of kinds.
#[test]
fn kinds() {
    let (mut rows, mut taken) = (0, 0);
    exhaustive::strings(6, &mut |strings| {
        let gaps = strings.len() - 1;
        let rooms = ROOMS[rows % ROOMS.len()];
        let old = template(Layout::Old, 1, &[], strings);
        agree_in(Way::Up, &old, &[], rooms);
        for bits in 0..1_u32 << gaps {
            let kinds: Vec<u8> = (0..gaps).map(|gap| 1 + (bits >> gap & 1) as u8).collect();
            let new = template(Layout::New, 1, &kinds, strings);
            agree_in(Way::Down, &new, &[], rooms);
            taken += usize::from(downgrade(&new, &[]).is_ok());
        }
        rows += 1;
    });
    assert!(taken > 1_000, "{taken}");
    say(&format!("convert: {rows} rows of strings, all kinds of each, {taken} taken, no difference"));
}

/// All page outs of a few fields and all templates of a few signs, in both layouts.
#[test]
fn all_short_outs() {
    let (mut calls, start) = (0, Instant::now());
    for layout in LAYOUTS {
        let way = way_from(layout);
        for family in FAMILIES {
            family.pages(layout, &mut |page| {
                agree_in(way, &[], page, ROOMS[calls % ROOMS.len()]);
                calls += 1;
            });
        }
        exhaustive::templates(4, layout, &mut |templates| {
            agree_in(way, templates, &[], ROOMS[calls % ROOMS.len()]);
            calls += 1;
        });
        exhaustive::bytes(2, &mut |bytes| {
            agree_in(way, bytes, &[], ROOMS[calls % ROOMS.len()]);
            agree_in(way, &[], bytes, ROOMS[calls % ROOMS.len()]);
            calls += 2;
        });
    }
    say(&format!("convert: {calls} short outs, no difference, {} s", start.elapsed().as_secs()));
}

/// Numbers about 65,535 on the way down, of templates and of calls; bodies about 65,535 bytes on the way up.
#[test]
fn limits() {
    let numbered = |number: u32| template(Layout::New, number, &[], &[b"<br>".to_vec()]);
    for number in [0, 1, 65_534, MAX_OLD_NUMBER, MAX_OLD_NUMBER + 1, 1 << 24, u32::MAX] {
        let due = if number > MAX_OLD_NUMBER { 17 } else { 0 };
        assert_eq!(agree(Way::Down, &numbered(number), &[]), due, "template {number}");
        assert_eq!(agree(Way::Down, &[], &call(Layout::New, number)), due, "call of {number}");
    }
    assert_eq!(agree(Way::Up, &template(Layout::Old, 65_535, &[], &[vec![]]), &call(Layout::Old, 65_535)), 0);
    // An 84 has four bytes more than an 80, and one for each gap.
    for (length, due) in [(65_526, 0), (65_527, 11), (65_530, 11)] {
        assert_eq!(agree(Way::Up, &template(Layout::Old, 1, &[], &[vec![b'a'; length]]), &[]), due, "{length} bytes");
    }
    for (gaps, due) in [(16_381, 0), (16_382, 11), (21_843, 11)] {
        assert_eq!(agree(Way::Up, &template(Layout::Old, 1, &[], &vec![vec![]; gaps + 1]), &[]), due, "{gaps} gaps");
    }
    // A call in an item whose body is then full, and one byte over.
    for (length, due) in [(65_522, 0), (65_523, 11)] {
        let item = statement(&[source(&"s".repeat(length)), field(0x90, &[0, 1, 0x73, 0, 0])]);
        assert_eq!(agree(Way::Up, &[], &item), due, "{length} bytes of source");
    }
    say("convert: numbers and bodies about 65535, no difference");
}

/// Answers of another implementation, made from the papers alone; where they are not there, that is said.
#[test]
fn stored_answers() {
    const FILE: &str = "../../shared/vectors/convert.txt";
    let Ok(text) = std::fs::read_to_string(Path::new(env!("CARGO_MANIFEST_DIR")).join(FILE)) else {
        say(&format!("skipped: {FILE} is not there"));
        return;
    };
    let found: Vec<Found> = text.lines().map(|line| convert_by(line, up, down).expect("eleven words")).collect();
    let differing: Vec<&String> = found.iter().filter_map(|found| found.difference.as_ref()).collect();
    assert!(differing.is_empty(), "{differing:#?}");
    assert!(found.iter().any(|found| found.number == 17));
    say(&format!("convert: {} answers of another implementation, no difference", found.len()));
}

type SafeCall = fn(&[u8], &[u8]) -> Result<jsx_precompile::Converted, Refusal>;

/// The safe calls, whose buffers are always long enough; what goes one way and is taken on the way back comes back.
#[test]
fn there_and_back() {
    let (mut both, mut refused) = (0, 0);
    for seed in 0..10_000 {
        let ConvertCase { way, templates, page, .. } = convert_case(seed);
        let (there, back): (SafeCall, SafeCall) = match way {
            Way::Up => (upgrade, downgrade),
            Way::Down => (downgrade, upgrade),
        };
        match (there(&templates, &page), outcome(way, &templates, &page)) {
            (Ok(there), Ok(outs)) => {
                assert!((there.templates_bytes(), there.page_bytes()) == (&outs.templates, &outs.page), "seed {seed}");
                let again = back(there.templates_bytes(), there.page_bytes());
                let again = again.unwrap_or_else(|refusal| panic!("seed {seed}: {refusal}"));
                assert!((again.templates_bytes(), again.page_bytes()) == (&templates, &page), "seed {seed}");
                both += 1;
            }
            (Err(refusal), Err(other)) => {
                assert_eq!(refusal.number(), other as u32, "seed {seed}");
                refused += 1;
            }
            (ours, theirs) => panic!("seed {seed}: {ours:?}, judge {theirs:?}"),
        }
    }
    assert!(both > 1_000 && refused > 1_000);
    say(&format!("convert: safe calls of 10000 seeds, {both} there and back, {refused} refused"));
}

/// What the transform makes goes down and comes up again.
#[test]
fn outputs_of_the_transform() {
    if no_judge() {
        return;
    }
    let mut pages = 0;
    for seed in 0..5_000 {
        let oracle::generate::Case { page, options, .. } = oracle::generate::case(seed);
        let Ok(options) = Options::from_bytes(&options) else { continue };
        let Ok(forms) = transform(&page, &options) else { continue };
        let (templates, page) = (forms.templates_bytes(), forms.page_bytes());
        let old = downgrade(templates, page).unwrap_or_else(|refusal| panic!("seed {seed}: {refusal}"));
        let new = upgrade(old.templates_bytes(), old.page_bytes());
        let new = new.unwrap_or_else(|refusal| panic!("seed {seed}: {refusal}"));
        assert!((new.templates_bytes(), new.page_bytes()) == (templates, page), "seed {seed}");
        pages += 1;
    }
    assert!(pages > 1_000, "{pages}");
    say(&format!("convert: outputs of {pages} pages go down and come up unchanged"));
}

/// An item whose body is full, but for less than one level, of fields with this front within each other, and how many
/// there are.
fn nest(front: &[u8], tag: u8) -> (Vec<u8>, usize) {
    let level = 3 + front.len();
    let count = MAX_BODY / level;
    let mut bytes = vec![];
    let item = begin(&mut bytes, 0x12);
    let open: Vec<usize> = (0..count)
        .map(|_| {
            let at = begin(&mut bytes, tag);
            bytes.extend(front);
            at
        })
        .collect();
    assert!(open.into_iter().rev().chain([item]).all(|at| finish(&mut bytes, at)));
    (bytes, count)
}

/// As deep as a body has room for, both ways: 21,845 arrays, expressions, calls.
#[test]
fn half_a_megabyte_is_enough() {
    // The way, the tag, what stands before the next field, and the number of the answer.
    let nests = [
        (Way::Up, 0x76, &[][..], 0),
        (Way::Down, 0x76, &[], 0),
        (Way::Up, 0x79, &[], 0),
        (Way::Down, 0x79, &[], 0),
        // The innermost holds nothing where an expression must stand.
        (Way::Up, 0x92, &[], 4),
        (Way::Down, 0x92, &[], 4),
        (Way::Down, 0x90, &[0, 0, 0, 1], 0),
        (Way::Down, 0x90, &[0, 1, 0, 0], 17),
        // Each number grows by two bytes, and so does every body around it.
        (Way::Up, 0x90, &[0, 1], 11),
    ];
    let calls = move || {
        let mut deepest = 0;
        for (way, tag, front, number) in nests {
            let (page, count) = nest(front, tag);
            let (mut templates_out, mut page_out) = ([0; 8], vec![0; 2 * page.len()]);
            let call = if way == Way::Up { up } else { down };
            let answer = call(&[], &page, &mut templates_out, &mut page_out);
            assert_eq!(answer.number, number, "{way:?} {tag:02x}");
            if number == 0 {
                // And back.
                let (mut again, back) = (vec![0; page.len()], if way == Way::Up { down } else { up });
                let answer = back(&[], &page_out[..answer.page_bytes], &mut templates_out, &mut again);
                assert_eq!((answer.number, answer.page_bytes, &again), (0, page.len(), &page), "{way:?} {tag:02x}");
            }
            deepest = deepest.max(count);
        }
        let strings = vec![vec![]; 16_382];
        let templates = template(Layout::New, 1, &vec![2; 16_381], &strings);
        let mut out = vec![0; templates.len()];
        assert_eq!(down(&templates, &[], &mut out, &mut []).number, 0);
        deepest
    };
    let thread = std::thread::Builder::new().stack_size(STACK).spawn(calls).expect("a thread");
    let deepest = thread.join().expect("it ends");
    assert_eq!(deepest, 21_845);
    say(&format!("convert: {} nests, up to {deepest} deep, within {STACK} bytes of stack", nests.len()));
}

/// The refusals of the safe calls, whose outs are never too small; each is given for some seed.
#[test]
fn every_refusal() {
    let mut given = std::collections::BTreeSet::new();
    for seed in 0..20_000 {
        let ConvertCase { way, templates, page, .. } = convert_case(seed);
        let refusal = match way {
            Way::Up => upgrade(&templates, &page).err(),
            Way::Down => downgrade(&templates, &page).err(),
        };
        given.extend(refusal.map(Refusal::number));
    }
    assert_eq!(Vec::from_iter(given), [3, 4, 5, 6, 7, 11, 17]);
}
