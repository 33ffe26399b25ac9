//! All short outs: the reader takes exactly those that the slow one finds by the grammar, and writes them as they came.

use oracle::outs::exhaustive::{self, FAMILIES};
use oracle::outs::generate::convert_case;
use oracle::outs::slow::{is_page, is_templates, kind};
use oracle::outs::{Layout, page, templates};

const LAYOUTS: [Layout; 2] = [Layout::Old, Layout::New];

/// Whether it is taken; both agree, and what is taken is written as it came.
fn page_taken(bytes: &[u8], layout: Layout) -> bool {
    let parts = page::read(bytes, layout);
    assert_eq!(parts.is_ok(), is_page(bytes, layout), "{layout:?} {bytes:02x?}");
    if let Ok(parts) = &parts {
        assert_eq!(page::write(parts, layout).as_deref(), Some(bytes), "{layout:?} {bytes:02x?}");
    }
    parts.is_ok()
}

fn templates_taken(bytes: &[u8], layout: Layout) -> bool {
    let read = templates::read(bytes, layout);
    assert_eq!(read.is_ok(), is_templates(bytes, layout), "{layout:?} {bytes:02x?}");
    if let Ok(read) = &read {
        assert_eq!(templates::write(read, layout).as_deref(), Some(bytes), "{layout:?} {bytes:02x?}");
    }
    read.is_ok()
}

#[test]
fn byte_strings() {
    let (mut all, mut pages, mut rows) = (0, vec![], 0);
    exhaustive::bytes(3, &mut |bytes| {
        all += 1;
        for layout in LAYOUTS {
            if page_taken(bytes, layout) {
                pages.push((layout, bytes.to_vec()));
            }
            rows += usize::from(templates_taken(bytes, layout));
        }
    });
    println!("{all} byte strings, {} page outs in both layouts", pages.len());
    // No bytes, 10 to 13 and 83; no templates are that short.
    assert_eq!((all, pages.len(), rows), (16_843_009, 2 * 6, 2));
}

#[test]
fn pages_of_a_few_fields() {
    for family in FAMILIES {
        let (mut all, mut taken) = (0, 0);
        family.pages(Layout::New, &mut |bytes| {
            all += 1;
            taken += usize::from(page_taken(bytes, Layout::New));
        });
        println!("{}: {all} page outs, {taken} taken", family.name);
        assert!(taken > 0 && taken < all, "{}", family.name);
    }
}

#[test]
fn templates_of_a_few_signs() {
    for layout in LAYOUTS {
        let (mut all, mut taken) = (0, 0);
        exhaustive::templates(6, layout, &mut |bytes| {
            all += 1;
            taken += usize::from(templates_taken(bytes, layout));
        });
        println!("{layout:?}: {all} templates, {taken} taken");
        assert!(taken > 40, "{taken}");
    }
}

/// The kinds of all gaps, each by the strings before it joined.
#[test]
fn kinds_of_short_strings() {
    let (mut all, mut with_kinds) = (0, 0);
    exhaustive::strings(8, &mut |strings| {
        all += 1;
        let gaps = 1..strings.len();
        let kinds: Option<Vec<u8>> = gaps.map(|gap| kind(&strings[..gap].concat())).collect();
        assert_eq!(templates::kinds(strings), kinds, "{strings:02x?}");
        with_kinds += usize::from(kinds.is_some());
    });
    println!("{all} rows of strings, {with_kinds} with kinds");
    assert!(with_kinds > 10_000 && with_kinds < all);
}

#[test]
fn seeds() {
    let (mut all, mut taken) = (0, 0);
    for seed in 0..20_000 {
        let case = convert_case(seed);
        if case.page.len() + case.templates.len() < 3_000 {
            all += 1;
            let [old, new] =
                LAYOUTS.map(|layout| (page_taken(&case.page, layout), templates_taken(&case.templates, layout)));
            taken += usize::from(old == (true, true) || new == (true, true));
        }
    }
    println!("{all} seeds, {taken} taken");
    assert!(taken > all / 2 && taken < all);
}
