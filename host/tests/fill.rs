//! The library's filler against the judge's: the number, the count and every lent byte, call by call; and its HTML of a
//! page's templates, which is well nested.

mod common;

use common::{no_judge, say};
use jsx_precompile::limits::{MAX_BODY, MAX_DEPTH};
use jsx_precompile::out::Templates;
use jsx_precompile::{Fault, FillAnswer, Filling, Input, Options, Order, Refusal, fill, fill_into, transform};
use oracle::demand3::well_nested;
use oracle::generate::Room;
use oracle::generate::rng::Rng;
use oracle::make::field;
use oracle::outs::compare::{fill as parting, first_fill};
use oracle::outs::fill::{self as judge, Filled, outcome, read_order};
use oracle::outs::generate::{FillCase, fill_case, order};
use oracle::outs::marks::{self, Mark, Out};
use oracle::outs::templates::{ATTRIBUTE, CHILD, Template, read, write};
use oracle::outs::vectors::{Found, filling_by};
use oracle::outs::{Layout, exhaustive};
use std::collections::BTreeSet;
use std::path::Path;
use std::time::Instant;

const STACK: usize = 512 * 1024;

/// As many 85s as there can be: one, and those that its body has room for behind its number.
const MOST_ORDERS: usize = 1 + (MAX_BODY - 4) / 7;

/// The library as the judge's own call.
fn library(templates: &[u8], order: &[u8], html_out: &mut [u8]) -> Filled {
    let FillAnswer { number, html_bytes } = fill_into(templates, order, html_out);
    Filled { number, html_bytes }
}

/// Exact, longer, one byte short, and none.
const ROOMS: [Room; 4] = [Room::Exact, Room::More(3), Room::Less(1), Room::None];

fn agree_in(templates: &[u8], order: &[u8], room: Room) {
    let case = FillCase { templates: templates.to_vec(), order: order.to_vec(), room };
    if let Some(words) = parting(&case, &library) {
        let [templates, order] = [templates, order].map(oracle::show::hex);
        panic!("{words}\n{room:?}\ntemplates {templates}\norder {order}");
    }
}

/// In all rooms; the number with which it is answered where the HTML fits.
fn agree(templates: &[u8], order: &[u8]) -> u32 {
    ROOMS.iter().for_each(|room| agree_in(templates, order, *room));
    outcome(templates, order).map_or_else(|refusal| refusal as u32, |_| 0)
}

fn word(name: &str, other: u64) -> u64 {
    std::env::var(name).map_or(other, |word| word.parse().unwrap_or_else(|_| panic!("{name} is no number: {word}")))
}

fn template(number: u32, kinds: &[u8], strings: &[&str]) -> Template {
    Template { number, kinds: kinds.to_vec(), strings: strings.iter().map(|text| text.as_bytes().to_vec()).collect() }
}

fn written(templates: &[Template]) -> Vec<u8> {
    write(templates, Layout::New).expect("they fit")
}

fn bytes(order: &Order) -> Vec<u8> {
    order.to_bytes().expect("an order")
}

/// An order for this template, in which others lie within each other down to this depth.
fn nested(number: u32, depth: usize) -> Order {
    (1..depth).fold(Order::new(number).text("a"), |inner, _| Order::new(number).order(inner))
}

#[test]
fn seeds() {
    let (from, count) = (word("HOST_FILL_SEEDS_FROM", 0), word("HOST_FILL_SEEDS", 20_000));
    let start = Instant::now();
    let step = (count / 10).clamp(1, 100_000);
    for first in (0..count).step_by(step as usize) {
        let some = step.min(count - first);
        if let Some(words) = first_fill(from + first, some, &library) {
            panic!("{words}");
        }
        say(&format!("fill: {} of {count} seeds, no difference, {} s", first + some, start.elapsed().as_secs()));
    }
}

/// Each sentence on what templates are, of both layouts, with orders of every kind: what is wrong with the templates
/// comes first.
#[test]
fn every_mark() {
    let marks: Vec<Mark> = marks::all().into_iter().filter(|mark| mark.out == Out::Templates).collect();
    let unknown = bytes(&Order::new(0xffff_fffe));
    // What each is answered with where the templates are no matter.
    let orders = [(vec![], 3), (vec![0x84, 0, 0], 4), (field(0x85, b"\0\0\0\x01\x87\0\x01\xff"), 6), (unknown, 18)];
    for mark in &marks {
        for (order, number) in &orders {
            let due = if mark.number == 0 { *number } else { mark.number };
            let number = agree(&mark.bytes, order);
            assert!(mark.layout == Layout::Old || number == due, "{}: {number}", mark.name);
        }
    }
    assert!(marks.len() > 40);
    say(&format!("fill: {} marks of templates with {} orders, no difference", marks.len(), orders.len()));
}

/// What a template is given, a kind of each, with every refusal.
#[test]
fn what_fits() {
    let templates = written(&[
        template(1, &[ATTRIBUTE, CHILD], &["<p ", ">", "</p>"]),
        template(2, &[], &["<br>"]),
        template(7, &[], &["one"]),
        template(7, &[], &["two"]),
    ]);
    let one = || Order::new(1);
    for (order, due) in [
        (one().attribute("").text(""), 0),
        (one().attribute("a=\"'&\"").text("<>&'\""), 0),
        (one().attribute("\u{e9}").order(Order::new(2)), 0),
        (one().attribute("").order(one().attribute("hidden").order(Order::new(2))), 0),
        (Order::new(2), 0),
        (one(), 18),
        (one().attribute(""), 18),
        (one().attribute("").text("").text(""), 18),
        (Order::new(2).text(""), 18),
        (one().text("").text(""), 18),
        (one().order(Order::new(2)).text(""), 18),
        (one().attribute("").attribute(""), 18),
        (one().attribute("<").text(""), 18),
        (one().attribute("a\" >").text(""), 18),
        (Order::new(3), 18),
        (Order::new(7), 18),
        (one().attribute("").order(Order::new(7)), 18),
        (one().attribute("").order(one().attribute("").order(Order::new(0))), 18),
    ] {
        assert_eq!(agree(&templates, &bytes(&order)), due, "{order:?}");
    }
    let html = fill(&templates, &bytes(&one().attribute("a=\"1\"").text("<b>&\"'")));
    assert_eq!(html.as_deref(), Ok("<p a=\"1\">&lt;b&gt;&amp;&quot;&#39;</p>"));
}

/// All orders of up to five fields, over a template of each kind of gap, one that stands twice, and one that is not there.
#[test]
fn short_orders() {
    let templates = written(&[
        template(0, &[], &["<i>"]),
        template(1, &[ATTRIBUTE], &["<p ", ">"]),
        template(2, &[CHILD], &["<b>", "</b>"]),
        template(3, &[ATTRIBUTE, CHILD], &["<p ", ">", ""]),
        template(4, &[CHILD, CHILD], &["", "-", ""]),
        template(5, &[], &[""]),
        template(5, &[CHILD], &["", ""]),
    ]);
    let texts: [(u8, &[u8]); 4] = [(0x86, b""), (0x86, b">"), (0x87, b""), (0x87, b"<")];
    // Rows of fillings by the count of their fields, all fields in them counted.
    let mut rows: Vec<Vec<Vec<u8>>> = vec![vec![vec![]]];
    let mut fillings: Vec<Vec<Vec<u8>>> = vec![vec![]];
    let orders = |row: &[u8]| (0..7_u32).map(|number| field(0x85, &[&number.to_be_bytes(), row].concat())).collect();
    let start = Instant::now();
    let (mut calls, mut taken) = (0, 0);
    for count in 1..=5 {
        let mut one: Vec<Vec<u8>> = rows[count - 1].iter().flat_map(|row| -> Vec<Vec<u8>> { orders(row) }).collect();
        for order in &one {
            agree_in(&templates, order, ROOMS[calls % ROOMS.len()]);
            taken += usize::from(outcome(&templates, order).is_ok());
            calls += 1;
        }
        if count == 1 {
            one.extend(texts.map(|(tag, text)| field(tag, text)));
        }
        fillings.push(one);
        let row = (1..=count)
            .flat_map(|first| fillings[first].iter().map(move |one| (first, one)))
            .flat_map(|(first, one)| rows[count - first].iter().map(move |rest| [&one[..], rest].concat()))
            .collect();
        rows.push(row);
    }
    assert!(taken > 100, "{taken}");
    say(&format!(
        "fill: {calls} orders of up to 5 fields, {taken} taken, no difference, {} s",
        start.elapsed().as_secs()
    ));
}

/// All strings of up to two bytes, as an order, behind one and within one, and as templates; every byte of both changed to
/// every other, and both cut off at every byte.
#[test]
fn all_bytes() {
    let templates =
        written(&[template(1, &[ATTRIBUTE, CHILD], &["<p ", ">", "</p>"]), template(2, &[CHILD], &["<b>", "</b>"])]);
    let order = bytes(&Order::new(1).attribute("a").order(Order::new(2).text("<\u{e9}")));
    let mut calls = 0;
    exhaustive::bytes(2, &mut |bytes| {
        let length = bytes.len() as u8;
        for (front, back) in [
            (&[][..], &[][..]),
            (&order, &[]),
            (&[0x85, 0, length], &[]),
            (&[0x85, 0, 4 + length, 0, 0, 0, 1], &[]),
            (&[0x85, 0, 11 + length, 0, 0, 0, 1, 0x86, 0, length], &[0x87, 0, 1, b'a']),
        ] {
            agree_in(&templates, &[front, bytes, back].concat(), ROOMS[calls % ROOMS.len()]);
            calls += 1;
        }
        agree_in(bytes, &order, ROOMS[calls % ROOMS.len()]);
        agree_in(&[&templates[..], bytes].concat(), &order, ROOMS[calls % ROOMS.len()]);
        calls += 2;
    });
    for (at, byte) in (0..order.len()).flat_map(|at| (0..=u8::MAX).map(move |byte| (at, byte))) {
        let mut changed = order.clone();
        changed[at] = byte;
        agree_in(&templates, &changed, ROOMS[calls % ROOMS.len()]);
        calls += 1;
    }
    for (at, byte) in (0..templates.len()).flat_map(|at| (0..=u8::MAX).map(move |byte| (at, byte))) {
        let mut changed = templates.clone();
        changed[at] = byte;
        agree_in(&changed, &order, ROOMS[calls % ROOMS.len()]);
        calls += 1;
    }
    for end in 0..order.len() {
        agree(&templates, &order[..end]);
    }
    for end in 0..templates.len() {
        agree(&templates[..end], &order);
    }
    say(&format!("fill: {calls} calls with all bytes in a place, no difference"));
}

/// Depth 48 and 49, of orders and of texts; fillings and strings as long as a body; as many gaps and as many orders.
#[test]
fn limits() {
    let templates = written(&[template(1, &[CHILD], &["<b>", "</b>"]), template(2, &[], &["<br>"])]);
    let order = |depth: usize| {
        (1..depth).fold(field(0x85, b"\0\0\0\x02"), |inner, _| field(0x85, &[b"\0\0\0\x01", &inner[..]].concat()))
    };
    assert_eq!([agree(&templates, &order(MAX_DEPTH)), agree(&templates, &order(MAX_DEPTH + 1))], [0, 8]);
    assert_eq!(agree(&templates, &bytes(&nested(1, MAX_DEPTH - 1))), 0);
    // The innermost text lies at 49; what is wrong before it, in front of it or in its header comes first.
    let deep = |inner: &[u8]| {
        (0..MAX_DEPTH).fold(inner.to_vec(), |inner, _| field(0x85, &[b"\0\0\0\x01", &inner[..]].concat()))
    };
    for (inner, due) in [
        (&b"\x87\0\0"[..], 8),
        (b"\x86\0\x01\xff", 8),
        (b"\x85\0\0", 8),
        (b"\x87\0\x01", 3),
        (b"\x87\0", 3),
        (b"\x84\0\0", 4),
        (b"", 18),
    ] {
        assert_eq!(agree(&templates, &deep(inner)), due, "{inner:02x?}");
    }

    let both = written(&[template(1, &[ATTRIBUTE, CHILD], &["", "", ""]), template(3, &[CHILD], &["", ""])]);
    for sign in ["a", "&", "\"", "\u{e9}"] {
        // An 85, its number and the header of a text lie around it.
        let longest = sign.repeat((MAX_BODY - 7) / sign.len());
        assert_eq!(agree(&both, &bytes(&Order::new(3).text(&longest))), 0);
        assert_eq!(agree(&both, &bytes(&Order::new(1).attribute(&longest[..longest.len() - 4]).text(""))), 0);
    }
    let longest = written(&[template(1, &[], &[&"s".repeat(MAX_BODY - 9)])]);
    assert_eq!(agree(&longest, &bytes(&Order::new(1))), 0);
    // Each gap takes a kind and a string.
    let most = MAX_BODY.saturating_sub(9) / 4;
    let gaps = written(&[template(1, &vec![CHILD; most], &vec![""; most + 1])]);
    let texts = |count: usize| (0..count).fold(Order::new(1), |order, _| order.text("a"));
    assert_eq!(most, 16_381);
    assert_eq!([most - 1, most, most + 1].map(|count| agree(&gaps, &bytes(&texts(count)))), [18, 0, 18]);
    say("fill: depth 48 and 49, bodies about 65535 bytes, no difference");
}

/// Templates of one string, and one with a gap for each of them.
fn many_orders() -> (Vec<u8>, Vec<u8>) {
    let templates =
        written(&[template(1, &vec![CHILD; MOST_ORDERS - 1], &vec![""; MOST_ORDERS]), template(2, &[], &["<hr>"])]);
    let order = (1..MOST_ORDERS).fold(Order::new(1), |order, _| order.order(Order::new(2)));
    (templates, bytes(&order))
}

/// 9,362 orders, the outermost among them.
#[test]
fn as_many_orders_as_there_is_room_for() {
    assert_eq!(MOST_ORDERS, 9_362);
    let (templates, order) = many_orders();
    assert_eq!(agree(&templates, &order), 0);
    let html = fill(&templates, &order).expect("it is filled");
    assert_eq!(html, "<hr>".repeat(MOST_ORDERS - 1));
    // One of them is not there; one is recorded twice.
    let last = order.len() - 1;
    for number in [3, 1] {
        let mut other = order.clone();
        other[last] = number;
        assert_eq!(agree(&templates, &other), 18);
    }
    let twice = [&templates[..], &written(&[template(2, &[], &["<hr>"])])].concat();
    assert_eq!(agree(&twice, &order), 18);
    // As many templates, each asked for once, the last first.
    let count = 9_000;
    let many: Vec<Template> = (0..count).map(|number| template(number + 2, &[], &["<hr>"])).collect();
    let first = template(1, &vec![CHILD; count as usize], &vec![""; count as usize + 1]);
    let order = (0..count).rev().fold(Order::new(1), |order, number| order.order(Order::new(number + 2)));
    assert_eq!(agree(&written(&[many, vec![first]].concat()), &bytes(&order)), 0);
    say(&format!("fill: {MOST_ORDERS} orders in one, no difference"));
}

/// Answers of another implementation, made from the papers alone; where they are not there, that is said.
#[test]
fn stored_answers() {
    const FILE: &str = "../../shared/vectors/fill.txt";
    let Ok(text) = std::fs::read_to_string(Path::new(env!("CARGO_MANIFEST_DIR")).join(FILE)) else {
        say(&format!("skipped: {FILE} is not there"));
        return;
    };
    let found: Vec<Found> = text.lines().map(|line| filling_by(line, library).expect("seven words")).collect();
    let differing: Vec<&String> = found.iter().filter_map(|found| found.difference.as_ref()).collect();
    assert!(differing.is_empty(), "{differing:#?}");
    assert!(found.iter().any(|found| found.number == 18));
    say(&format!("fill: {} answers of another implementation, no difference", found.len()));
}

/// The safe call gives the same HTML, or the same number with a place: which of the inputs, and of 18 what it is that does
/// not fit.
#[test]
fn the_safe_call() {
    let (mut filled, mut refused) = (0, BTreeSet::new());
    for seed in 0..20_000 {
        let FillCase { templates, order, .. } = fill_case(seed);
        match (fill(&templates, &order), outcome(&templates, &order)) {
            (Ok(html), Ok(other)) => {
                assert!(html.as_bytes() == other, "seed {seed}");
                filled += 1;
            }
            (Err(fault), Err(refusal)) => {
                assert_eq!(fault.refusal.number(), refusal as u32, "seed {seed}: {fault}");
                let at_templates = read(&templates, Layout::New).is_err();
                assert_eq!(fault.input == Input::Templates, at_templates, "seed {seed}: {fault}");
                assert_eq!(fault.input == Input::Order, !at_templates, "seed {seed}: {fault}");
                assert_ne!(fault.reason, fault.refusal.explanation(), "seed {seed}: {fault}");
                assert!(fault.at <= if at_templates { templates.len() } else { order.len() }, "seed {seed}: {fault}");
                if fault.refusal == Refusal::Unfitting {
                    assert!(!fits_without(&templates, &order, &fault), "seed {seed}: {fault}");
                }
                refused.insert(fault.refusal.number());
            }
            (ours, theirs) => panic!("seed {seed}: {ours:?}, judge {theirs:?}"),
        }
    }
    assert!(filled > 2_000, "{filled}");
    // 13 is none of these: what is lent is always enough.
    assert_eq!(Vec::from_iter(&refused), [&3, &4, &6, &8, &18]);
    say(&format!("fill: safe calls of 20000 seeds, {filled} filled, refused {refused:?}"));
}

/// Whether the order that a fault is about, or that holds what it is about, would be taken by itself with its fillings
/// that are orders left out. It must not, since something is said to be wrong with it.
fn fits_without(templates: &[u8], order: &[u8], fault: &Fault) -> bool {
    // A filling that its gap does not take is the last step; it may be an order itself.
    let within = &fault.path.steps()[..fault.path.steps().len() - usize::from(fault.reason.starts_with("gap "))];
    let last = within.iter().rfind(|step| step.tag == 0x85).expect("an order");
    let length = usize::from(u16::from_be_bytes([order[last.at + 1], order[last.at + 2]]));
    let mut order = Order::from_bytes(&order[last.at..last.at + 3 + length]).expect("an order within another");
    let kinds: Vec<u8> = Templates::read(templates)
        .expect("templates")
        .find(|template| template.number() == order.number)
        .and_then(|template| template.kinds())
        .map_or(vec![], |kinds| kinds.map(|kind| kind as u8).collect());
    for (filling, kind) in order.fillings.iter_mut().zip(kinds) {
        if matches!(filling, Filling::Order(_)) && kind == CHILD {
            *filling = Filling::Text(String::new());
        }
    }
    fill(templates, &bytes(&order)).is_ok()
}

/// Where it shows, and the words, of each cause.
#[test]
fn places() {
    let templates = written(&[
        template(1, &[ATTRIBUTE, CHILD], &["<p ", ">", "</p>"]),
        template(2, &[CHILD], &["<b>", "</b>"]),
        template(7, &[], &["one"]),
        template(7, &[], &["two"]),
    ]);
    let inner = |order: Order| Order::new(1).attribute("").order(order);
    for (order, words) in [
        (Order::new(3), "byte 0, 85 3: 18 (unfitting): there is no template 3"),
        (Order::new(2).order(Order::new(7)), "byte 7, 85 2 > 85[0] 7: 18 (unfitting): template 7 is recorded 2 times"),
        (
            inner(Order::new(2)),
            "byte 10, 85 1 > 85[1] 2: 18 (unfitting): template 2 has 1 gap and is given no fillings",
        ),
        (
            inner(Order::new(1).text("").text("")),
            "byte 17, 85 1 > 85[1] 1 > 87[0]: 18 (unfitting): gap 0 of template 1 takes 86 (attribute text), not 87 (plain text)",
        ),
        (
            Order::new(1).attribute("").attribute("a"),
            "byte 10, 85 1 > 86[1]: 18 (unfitting): gap 1 of template 1 takes 87 (plain text) or 85 (order), not 86 (attribute text)",
        ),
        (
            Order::new(2).order(Order::new(1).attribute("a=\"<\"").text("")),
            "byte 20, 85 2 > 85[0] 1 > 86[0]: 18 (unfitting): '<' may not stand in an attribute text",
        ),
    ] {
        let fault = fill(&templates, &bytes(&order)).expect_err("it is refused");
        assert_eq!(fault.to_string(), format!("order, {words}"));
    }
    for (order, words) in [
        (&b""[..], "order, byte 0: 3 (torn): an empty order"),
        (b"\x85\0", "order, byte 0: 3 (torn): 2 bytes where a field begins"),
        (b"\x85\0\x04\0\0\0\x03\0", "order, byte 7: 3 (torn): 1 bytes follow the order"),
        (b"\x85\0\x02\0\0", "order, byte 3, 85: 4 (misplaced): 85 (order) of 2 bytes lacks its number"),
        (b"\x87\0\0", "order, byte 0, 87: 4 (misplaced): 87 (plain text) stands where an order (85) may stand"),
        (
            b"\x85\0\x08\0\0\0\x03\x87\0\x01\xff",
            "order, byte 10, 85 3 > 87[0]: 6 (bad letters): byte ff in 87 (plain text) is not UTF-8",
        ),
    ] {
        assert_eq!(fill(&templates, order).expect_err("it is refused").to_string(), words);
    }
    let deep = bytes(&nested(2, MAX_DEPTH - 1));
    let deeper = field(0x85, &[b"\0\0\0\x02", &deep[..]].concat());
    let fault = fill(&templates, &deeper).expect_err("it is refused");
    assert_eq!((fault.at, fault.refusal, fault.path.steps().len()), (7 * MAX_DEPTH, Refusal::TooDeep, MAX_DEPTH + 1));
    assert_eq!(fault.reason, "87 (plain text) lies 49 deep");
    for (templates, words) in [
        (&templates[..4], "templates out, byte 0: 3 (torn): 84 (template) of 25 bytes where 1 are left"),
        (
            b"\x80\0\x05\0\x01\x81\0\0",
            "templates out, byte 0, 80 1: 4 (misplaced): 80s are not filled; `upgrade` makes 84s of them",
        ),
        (
            b"\x80\0\x05\0\x01\x81\0\x01",
            "templates out, byte 0, 80 1: 4 (misplaced): 80s are not filled; `upgrade` makes 84s of them",
        ),
    ] {
        assert_eq!(fill(templates, &[]).expect_err("it is refused").to_string(), words);
    }
}

/// The tree and its bytes: what the judge reads of them, refusals too.
#[test]
fn trees_and_bytes() {
    fn same(ours: &Order, theirs: &judge::Order) -> bool {
        let filling = |(ours, theirs): (&Filling, &judge::Filling)| match (ours, theirs) {
            (Filling::Attribute(text), judge::Filling::Attribute(other)) => text.as_bytes() == other,
            (Filling::Text(text), judge::Filling::Text(other)) => text.as_bytes() == other,
            (Filling::Order(order), judge::Filling::Order(other)) => same(order, other),
            _ => false,
        };
        let count = ours.fillings.len() == theirs.fillings.len();
        ours.number == theirs.number && count && ours.fillings.iter().zip(&theirs.fillings).all(filling)
    }
    let (mut trees, mut refused) = (0, 0);
    for seed in 0..20_000 {
        let order = fill_case(seed).order;
        match (Order::from_bytes(&order), read_order(&order)) {
            (Ok(tree), Ok(other)) => {
                assert!(same(&tree, &other), "seed {seed}");
                assert_eq!(tree.to_bytes().as_deref(), Ok(&order[..]), "seed {seed}");
                trees += 1;
            }
            (Err(fault), Err(refusal)) => {
                assert_eq!(fault.refusal.number(), refusal as u32, "seed {seed}: {fault}");
                refused += 1;
            }
            (ours, theirs) => panic!("seed {seed}: {ours:?}, judge {theirs:?}"),
        }
    }
    assert!(trees > 5_000 && refused > 500, "{trees} {refused}");
    say(&format!("fill: {trees} orders as trees and {refused} that are none, no difference"));
}

#[test]
fn deep_orders_are_given_back() {
    let deep = nested(1, 300_000);
    assert_eq!(deep.to_bytes().map_err(|error| error.place.len()), Err(MAX_DEPTH));
    drop(deep);
}

/// The HTML of an accepted page's templates is well nested, however they fill each other.
#[test]
fn well_nested_html() {
    if no_judge() {
        return;
    }
    let (mut pages, mut filled, mut within, mut refused) = (0, 0, 0, 0);
    for seed in 0..8_000 {
        let oracle::generate::Case { page, options, .. } = oracle::generate::case(seed);
        let Ok(options) = Options::from_bytes(&options) else { continue };
        let Ok(forms) = transform(&page, &options) else { continue };
        let templates = read(forms.templates_bytes(), Layout::New).expect("templates");
        let rng = &mut Rng::new(seed);
        pages += 1;
        for _ in 0..2 {
            let order = order::order(rng, &templates);
            match fill(forms.templates_bytes(), &order) {
                Ok(html) => {
                    assert!(well_nested(html.as_bytes()), "seed {seed}: {html}\n{}", oracle::show::show(&order));
                    within += usize::from(read_order(&order).is_ok_and(|order| has_order(&order)));
                    filled += 1;
                }
                Err(_) => refused += 1,
            }
        }
    }
    assert!(filled > 2_000 && within > 500, "{filled} {within}");
    say(&format!(
        "fill: {filled} orders for {pages} pages well nested, {within} with orders in them; {refused} refused"
    ));
}

fn has_order(order: &judge::Order) -> bool {
    order.fillings.iter().any(|filling| matches!(filling, judge::Filling::Order(_)))
}

/// As deep as an order may be, as many orders and gaps, and the longest texts.
#[test]
fn half_a_megabyte_is_enough() {
    let (templates, order) = many_orders();
    let deep = written(&[template(1, &[CHILD], &["<b>", "</b>"])]);
    let gaps = written(&[template(1, &vec![CHILD; 16_381], &vec![""; 16_382])]);
    let texts = (0..16_381).fold(Order::new(1), |order, _| order.text("\""));
    let long = bytes(&Order::new(1).text("\"".repeat(MAX_BODY - 7)));
    let many: Vec<Template> = (0..100_000).map(|number| template(number, &[], &["<hr>"])).collect();
    let calls = [
        (templates, order),
        (deep.clone(), bytes(&nested(1, MAX_DEPTH - 1))),
        (deep, long),
        (gaps, bytes(&texts)),
        (written(&many), bytes(&Order::new(99_999))),
    ];
    let outcomes: Vec<Vec<u8>> =
        calls.iter().map(|(templates, order)| outcome(templates, order).expect("it is filled")).collect();
    let run = move || {
        for ((templates, order), html) in calls.iter().zip(&outcomes) {
            let mut out = vec![7; html.len() + 1];
            assert_eq!(library(templates, order, &mut out), Filled { number: 0, html_bytes: html.len() });
            assert!(out[..html.len()] == html[..] && out[html.len()] == 7);
        }
        calls.len()
    };
    let thread = std::thread::Builder::new().stack_size(STACK).spawn(run).expect("a thread");
    say(&format!("fill: {} calls within {STACK} bytes of stack", thread.join().expect("it ends")));
}
