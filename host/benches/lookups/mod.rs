//! Templates to measure lookups on: those of pages shaped like real code, and many short ones, with numbers that are found
//! early, late and not at all. One of the numbers is always absent, so that all templates are read.

use super::pages::usual;
use jsx_precompile::limits::MAX_NUMBERS;
use jsx_precompile::{Options, transform};
use oracle::outs::Layout;
use oracle::outs::templates::{Template, read, write};

pub struct Lookup {
    pub name: String,
    pub templates: Vec<u8>,
    pub records: usize,
    pub numbers: Vec<u32>,
}

pub fn all() -> Vec<Lookup> {
    let real = real();
    let mut lookups = vec![
        lookup("components", real.clone(), |at| at as u32 + 1, 3),
        lookup("components, none asked for", real, |at| at as u32 + 1, u32::MAX / 256),
    ];
    for count in [256, 4_096, 65_536] {
        let step = count / 256;
        let short = || (0..count).map(|_| vec![vec![]]).collect::<Vec<_>>();
        lookups.push(lookup(&format!("short, {count}, rising"), short(), |at| at as u32, step));
        lookups.push(lookup(&format!("short, {count}, falling"), short(), |at| count - 1 - at as u32, step));
        // Between two of the numbers each time.
        lookups.push(lookup(&format!("short, {count}, between"), short(), |at| 2 * at as u32 + 1, 2 * step));
        lookups.push(lookup(&format!("short, {count}, all one"), short(), |_| 128 * step, step));
    }
    lookups
}

/// The strings of the templates of real pages, one page behind the other.
fn real() -> Vec<Vec<Vec<u8>>> {
    let mut strings = vec![];
    for page in &usual(200)[0].pages {
        let forms = transform(page, &Options::new()).expect("a page that is taken");
        let templates = read(forms.templates_bytes(), Layout::New).expect("templates");
        strings.extend(templates.into_iter().map(|template| template.strings));
    }
    strings
}

/// Templates of these strings with numbers by their places; each so many numbers from 0 on is asked for.
fn lookup(name: &str, strings: Vec<Vec<Vec<u8>>>, number: impl Fn(usize) -> u32, step: u32) -> Lookup {
    let one = |(at, strings): (usize, Vec<Vec<u8>>)| Template {
        number: number(at),
        kinds: vec![2; strings.len() - 1],
        strings,
    };
    let templates: Vec<Template> = strings.into_iter().enumerate().map(one).collect();
    let asked = (0..MAX_NUMBERS as u32 - 1).map(|at| at * step);
    Lookup {
        name: name.to_string(),
        records: templates.len(),
        templates: write(&templates, Layout::New).expect("they fit"),
        numbers: asked.chain([u32::MAX]).collect(),
    }
}
