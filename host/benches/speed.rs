//! `cargo bench`: nanoseconds a page byte of the library, bytes to bytes, and of the judge's Rust, both the transform
//! alone on ready trees and bytes to bytes, on the same pages in one run.
//!
//! For callgrind.sh: `list` names the sets of pages, `run NAME` calls the library once on each page of a set; `tags` names
//! the tag texts, `tag NAME` has the library read one; `lookups` names the rows of templates, `find NAME` and `check NAME` look
//! 256 numbers and none up in one; `conversions` names both outs, each way, `convert NAME` converts one; `fillings` names
//! templates with their orders, `fill NAME` fills one; `catalogues` names catalogues with a call of each, `catalogue NAME`
//! makes one, and `pass NAME` a plain pass over its bytes.

#![allow(missing_docs)]

mod catalogues;
mod conversions;
mod fillings;
mod lookups;
mod pages;
mod tags;

use jsx_precompile::limits::{MAX_TAG, MIN_SCRATCH};
use jsx_precompile::{
    Answer, Options, Transformer, downgrade_into, fill_into, find_answer, read_tag_into, transform_into, upgrade_into,
};
use oracle::outs::convert::Way;
use oracle::stand_ins::swc_ecma_ast::Module;
use pages::Set;
use std::hint::black_box;
use std::time::{Duration, Instant};

/// More than any page gives.
const ROOM: usize = 400_000;

fn main() {
    let words: Vec<String> = std::env::args().skip(1).filter(|word| word != "--bench").collect();
    match words.iter().map(String::as_str).collect::<Vec<_>>()[..] {
        ["list"] => list(),
        ["run", name] => run(name),
        ["tags"] => tags::all().iter().for_each(|tag| println!("{}\t{}", tag.name, tag.text.len())),
        ["tag", name] => read(name),
        ["lookups"] => {
            lookups::all().iter().for_each(|one| println!("{}\t{}\t{}", one.name, one.templates.len(), one.records));
        }
        ["conversions"] => {
            conversions::all()
                .iter()
                .for_each(|one| println!("{}\t{}", one.name, one.templates.len() + one.page.len()));
        }
        ["convert", name] => convert(name),
        ["fillings"] => fillings::all().iter().for_each(|one| {
            println!("{}\t{}\t{}\t{}", one.name, one.templates.len(), one.order.len(), one.html_bytes);
        }),
        ["fill", name] => fill(name),
        ["catalogues"] => catalogues::all().iter().for_each(|one| {
            let (used, pages, templates) = catalogues::counts(&one.catalogue());
            println!("{}\t{used}\t{pages}\t{templates}", one.name);
        }),
        ["catalogue", name] => catalogue(name, false),
        ["pass", name] => catalogue(name, true),
        ["find", name] => find(name, true),
        ["check", name] => find(name, false),
        [] if oracle::AVAILABLE => times(),
        [] => eprintln!("built without jsx_precompile.rs: there is nothing to compare with"),
        _ => eprintln!("speed, or speed and what callgrind.sh calls it with"),
    }
}

fn list() {
    for set in pages::all() {
        let shape = set.shape();
        let (pages, bytes) = (set.pages.len(), set.bytes());
        println!("{}\t{pages}\t{bytes}\t{}\t{}\t{}", set.name, shape.tags, shape.attributes, shape.depth);
    }
}

fn run(name: &str) {
    let set = pages::all().into_iter().find(|set| set.name == name).expect("a set of that name");
    let mut lent = Lent::new(ROOM, ROOM);
    for page in &set.pages {
        let answer = lent.call(page, &set.options);
        if set.pages.len() == 1 {
            println!("{}", answer.number);
        }
    }
}

fn read(name: &str) {
    let tag = tags::all().into_iter().find(|tag| tag.name == name).expect("a text of that name");
    // No tag needs more for a byte of its text; what is lent beyond it is cleared where a text is refused.
    let room = MAX_TAG.min(16 * tag.text.len());
    println!("{}", read_tag_into(tag.text.as_bytes(), &mut vec![0; room]).number);
}

/// Without a number the templates are checked and no record is read.
fn find(name: &str, all: bool) {
    let one = lookups::all().into_iter().find(|one| one.name == name).expect("a row of templates of that name");
    let answer = find_answer(&one.templates, if all { &one.numbers } else { &[] });
    assert_eq!(answer.records, if all { one.records } else { 0 });
    println!("{}", answer.number);
}

fn convert(name: &str) {
    let one = conversions::all().into_iter().find(|one| one.name == name).expect("outs of that name");
    let (mut templates, mut page) = (vec![0; 2 * one.templates.len()], vec![0; 2 * one.page.len()]);
    let call = match one.way {
        Way::Up => upgrade_into,
        Way::Down => downgrade_into,
    };
    println!("{}", call(&one.templates, &one.page, &mut templates, &mut page).number);
}

fn fill(name: &str) {
    let one = fillings::all().into_iter().find(|one| one.name == name).expect("an order of that name");
    println!("{}", fill_into(&one.templates, &one.order, &mut vec![0; one.html_bytes]).number);
}

fn catalogue(name: &str, plain: bool) {
    let one = catalogues::all().into_iter().find(|one| one.name == name).expect("a catalogue of that name");
    let mut bytes = one.catalogue();
    if plain {
        println!("{}", catalogues::plain_pass(&bytes));
    } else {
        println!("{}", one.run(&mut bytes));
    }
}

/// The three lent buffers, allocated once.
struct Lent {
    scratch: Vec<u8>,
    templates: Vec<u8>,
    page: Vec<u8>,
}

impl Lent {
    fn new(templates: usize, page: usize) -> Lent {
        Lent { scratch: vec![0; MIN_SCRATCH], templates: vec![0; templates], page: vec![0; page] }
    }

    fn call(&mut self, page: &[u8], options: &[u8]) -> Answer {
        transform_into(page, options, &mut self.scratch, &mut self.templates, &mut self.page)
    }

    fn clear(&mut self) {
        for bytes in [&mut self.scratch, &mut self.templates, &mut self.page] {
            bytes.fill(0);
        }
    }
}

const ROUNDS: usize = 15;
const LEAST: Duration = Duration::from_millis(4);

fn times() {
    let sets = pages::usual(1_000);
    describe(&sets[0]);
    println!(
        "Lent buffers: allocated once for a set, scratch of 65,536 bytes (the library clears it at every call, in its \
         time), outs as long as the set's longest. They are not cleared before a call, except in the column 'cleared', \
         where all three are, in the time.\n\
         The Rust's transform alone: its tree of a page made just before ('warm'), or those of all pages of the set \
         before the first ('ready').\n\
         Nanoseconds a page byte, the least of {ROUNDS} rounds in which all take turns.\n"
    );
    println!(
        "{:16} {:>6} | {:>7} {:>7} {:>7} | {:>7} {:>7} {:>7} | library divided by",
        "", "bytes", "library", "cleared", "safe", "Rust", "Rust", "Rust"
    );
    println!(
        "{:16} {:>6} | {:>7} {:>7} {:>7} | {:>7} {:>7} {:>7} | {:>7} {:>7} {:>7}",
        "set", "a page", "", "", "call", "warm", "ready", "bytes", "warm", "ready", "bytes"
    );
    for set in &sets {
        let Times { library, cleared, safe, warm, ready, bytes } = measure(set);
        println!(
            "{:16} {:6} | {library:7.2} {cleared:7.2} {safe:7.2} | {warm:7.2} {ready:7.2} {bytes:7.2} | {:7.3} {:7.3} {:7.3}",
            set.name,
            set.bytes() / set.pages.len(),
            library / warm,
            library / ready,
            library / bytes
        );
    }
}

fn describe(set: &Set) {
    let shape = set.shape();
    let share =
        |test: &dyn Fn(&[u8]) -> bool| set.pages.iter().filter(|page| test(page)).count() * 100 / set.pages.len();
    println!(
        "Pages: '{}' has {} pages, {} bytes; {} % under 2 KB, {} % over 14 KB; {} % deeper than 9, the deepest {}; a tag \
         to {} bytes, {:.1} attributes a tag, {} % source text.",
        set.name,
        set.pages.len(),
        set.bytes(),
        share(&|page| page.len() < 2_048),
        share(&|page| page.len() > 14 * 1_024),
        share(&|page| oracle::field::depth(page) > 9),
        shape.depth,
        set.bytes() / shape.tags,
        shape.attributes as f64 / shape.tags as f64,
        shape.source * 100 / set.bytes()
    );
}

/// Nanoseconds a page byte.
struct Times {
    library: f64,
    cleared: f64,
    safe: f64,
    warm: f64,
    ready: f64,
    bytes: f64,
}

fn measure(set: &Set) -> Times {
    let mut lent = agreed(set);
    let options = Options::from_bytes(&set.options).expect("options");
    let trees: Vec<_> =
        set.pages.iter().map(|page| oracle::decode(page, &set.options).expect("a page that is taken")).collect();
    let mut transformer = Transformer::new();
    let mut least = [f64::INFINITY; 6];
    let turns = turns(set, &mut lent);
    for _ in 0..ROUNDS {
        let library = time(set, turns, |page| {
            black_box(lent.call(page, &set.options));
        });
        let cleared = time(set, turns, |page| {
            lent.clear();
            black_box(lent.call(page, &set.options));
        });
        let safe = time(set, turns, |page| drop(black_box(transformer.transform(page, &options))));
        let warm = each(turns, &trees, |tree| timed(&mut [tree.clone()]));
        let ready = each(turns, &[&trees], |trees| timed(&mut trees.to_vec()));
        let bytes = time(set, turns, |page| drop(black_box(oracle::outcome(page, &set.options))));
        for (least, taken) in least.iter_mut().zip([library, cleared, safe, warm, ready, bytes]) {
            *least = least.min(taken / set.bytes() as f64);
        }
    }
    let [library, cleared, safe, warm, ready, bytes] = least;
    Times { library, cleared, safe, warm, ready, bytes }
}

/// Buffers as long as the set needs; the library's answers are the judge's, so that the same work is timed.
fn agreed(set: &Set) -> Lent {
    let mut lent = Lent::new(ROOM, ROOM);
    let (mut templates, mut out) = (0, 0);
    for page in &set.pages {
        let answer = lent.call(page, &set.options);
        let output = oracle::outcome(page, &set.options).expect("a page that is taken");
        assert_eq!((answer.number, answer.templates), (0, output.count), "{}", set.name);
        assert_eq!(lent.templates[..answer.templates_bytes], output.templates[..], "{}", set.name);
        assert_eq!(lent.page[..answer.page_bytes], output.page[..], "{}", set.name);
        templates = templates.max(answer.templates_bytes);
        out = out.max(answer.page_bytes);
    }
    Lent::new(templates, out)
}

/// How often the set is gone through, so that the library takes long enough to be timed.
fn turns(set: &Set, lent: &mut Lent) -> usize {
    let once = time(set, 1, |page| {
        black_box(lent.call(page, &set.options));
    });
    (LEAST.as_nanos() as f64 / once) as usize + 1
}

/// Nanoseconds of one turn over the pages.
fn time(set: &Set, turns: usize, mut call: impl FnMut(&[u8])) -> f64 {
    each(turns, &set.pages, |page| {
        let start = Instant::now();
        call(black_box(page));
        start.elapsed()
    })
}

/// Nanoseconds of one turn over all, as each says.
fn each<T>(turns: usize, all: &[T], timed: impl FnMut(&T) -> Duration) -> f64 {
    let taken: Duration = (0..turns).flat_map(|_| all).map(timed).sum();
    taken.as_nanos() as f64 / turns as f64
}

/// The Rust's transform alone on these trees.
fn timed(trees: &mut [(oracle::Options, Module)]) -> Duration {
    let start = Instant::now();
    trees.iter_mut().for_each(|(options, module)| oracle::transform_ready(options, black_box(module)));
    start.elapsed()
}
