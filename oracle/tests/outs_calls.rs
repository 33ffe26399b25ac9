//! The calls over both outs by hand, each with the answer that the papers fix.

use oracle::make::{field, null, row, source, statement};
use oracle::outs::catalogue::{self, Catalogued, MOST_CATALOGUE};
use oracle::outs::convert::{self, Outs, Way, downgrade, upgrade};
use oracle::outs::fill::{self, fill};
use oracle::outs::find::{ABSENT, find};
use oracle::outs::{Layout, shares};

/// A template of this layout; the kinds are those of an 84.
fn template(layout: Layout, number: u32, kinds: &[u8], strings: &[&str]) -> Vec<u8> {
    let mut front = vec![];
    layout.write_number(&mut front, number);
    if layout == Layout::New {
        front.extend((kinds.len() as u16).to_be_bytes());
        front.extend(kinds);
    }
    let strings = strings.iter().map(|string| field(0x81, string.as_bytes())).collect::<Vec<_>>().concat();
    field(layout.template_tag(), &[front, strings].concat())
}

fn old(number: u32, strings: &[&str]) -> Vec<u8> {
    template(Layout::Old, number, &[], strings)
}

fn new(number: u32, kinds: &[u8], strings: &[&str]) -> Vec<u8> {
    template(Layout::New, number, kinds, strings)
}

fn call(layout: Layout, number: u32, gaps: &[Vec<u8>]) -> Vec<u8> {
    let mut body = vec![];
    layout.write_number(&mut body, number);
    field(0x90, &[body, gaps.concat()].concat())
}

/// A page out of one statement with these calls, each with a gap.
fn calls(layout: Layout, numbers: &[u32]) -> Vec<u8> {
    statement(&numbers.iter().map(|number| call(layout, *number, &[null()])).collect::<Vec<_>>())
}

fn number(way: Way, templates: &[u8], page: &[u8]) -> u32 {
    convert::outcome(way, templates, page).map_or_else(|refusal| refusal as u32, |_| 0)
}

#[test]
fn kinds_are_worked_out() {
    let rows: [(&[&str], Option<&[u8]>); 19] = [
        (&[""], Some(&[])),
        (&[">"], Some(&[])),
        (&["<p ", "></p>"], Some(&[1])),
        (&["<p>", "</p>"], Some(&[2])),
        (&["", ""], Some(&[2])),
        (&["<p ", " ", ">", "</p>"], Some(&[1, 1, 2])),
        (&["<p ", "", "></p>"], Some(&[1, 1])),
        (&["< ", ""], Some(&[1])),
        (&["a / <br> </b>", "<"], Some(&[2])),
        (&["<p a/ ", ""], Some(&[1])),
        (&["<p", ""], None),
        (&["<", " "], None),
        (&["</p ", ">"], None),
        (&["</", "p>"], None),
        (&["<p\n", ">"], None),
        (&[">", ""], None),
        (&["<<p ", ""], None),
        (&["<p>>", ""], None),
        (&["<p ", "<p ", ">"], None),
    ];
    for (strings, kinds) in rows {
        let up = convert::outcome(Way::Up, &old(1, strings), b"").map(|outs| outs.templates);
        match kinds {
            Some(kinds) => {
                assert_eq!(up, Ok(new(1, kinds, strings)), "{strings:?}");
                assert_eq!(number(Way::Down, &new(1, kinds, strings), b""), 0, "{strings:?}");
                let others: Vec<u8> = kinds.iter().map(|kind| 3 - kind).collect();
                let due = if kinds.is_empty() { 0 } else { 17 };
                assert_eq!(number(Way::Down, &new(1, &others, strings), b""), due, "{strings:?}");
            }
            None => {
                assert_eq!(number(Way::Up, &old(1, strings), b""), 17, "{strings:?}");
                for kinds in [vec![1; strings.len() - 1], vec![2; strings.len() - 1]] {
                    assert_eq!(number(Way::Down, &new(1, &kinds, strings), b""), 17, "{strings:?}");
                }
            }
        }
    }
}

#[test]
fn numbers_grow_and_shrink() {
    let templates = [old(2, &["a"]), old(65_535, &["<p ", ">"]), old(2, &["b"])].concat();
    let page = [
        field(0x82, &[field(0x81, b"r"), vec![15]].concat()),
        field(0x83, b""),
        row(0x10, &[source("x"), call(Layout::Old, 65_535, &[call(Layout::Old, 0, &[]), null()])]),
    ]
    .concat();
    let outs = Outs {
        templates: [new(2, &[], &["a"]), new(65_535, &[1], &["<p ", ">"]), new(2, &[], &["b"])].concat(),
        page: [
            field(0x82, &[field(0x81, b"r"), vec![15]].concat()),
            field(0x83, b""),
            row(0x10, &[source("x"), call(Layout::New, 65_535, &[call(Layout::New, 0, &[]), null()])]),
        ]
        .concat(),
    };
    assert_eq!(convert::outcome(Way::Up, &templates, &page), Ok(outs.clone()));
    assert_eq!(convert::outcome(Way::Down, &outs.templates, &outs.page), Ok(Outs { templates, page }));
    assert_eq!(number(Way::Down, &new(65_535, &[], &[""]), b""), 0);
    assert_eq!(number(Way::Down, &new(65_536, &[], &[""]), b""), 17);
    assert_eq!(number(Way::Down, b"", &calls(Layout::New, &[65_535])), 0);
    assert_eq!(number(Way::Down, b"", &calls(Layout::New, &[1, 65_536])), 17);
}

#[test]
fn refusals_of_a_conversion_in_their_order() {
    let long = "s".repeat(65_526);
    let longer = "s".repeat(65_527);
    assert_eq!(number(Way::Up, &old(1, &[&long]), b""), 0);
    assert_eq!(number(Way::Up, &old(1, &[&longer]), b""), 11);
    // A body of an item with one call: two bytes more.
    let item = |source_bytes: usize| statement(&[source(&"s".repeat(source_bytes)), call(Layout::Old, 1, &[])]);
    assert_eq!(number(Way::Up, b"", &item(65_525)), 0);
    assert_eq!(number(Way::Up, b"", &item(65_526)), 11);
    // 3 to 7 for the templates, then for the page, 17, 11.
    let (misfit, bad) = (old(1, &["<p", ""]), field(0x12, &field(0x70, b"\xff")));
    assert_eq!(number(Way::Up, &[misfit.clone(), vec![0x80]].concat(), &bad), 3);
    assert_eq!(number(Way::Up, &misfit, &bad), 6);
    assert_eq!(number(Way::Up, &misfit, &item(65_526)), 17);
    // 12 before 13, and what becomes of lent bytes.
    let page = calls(Layout::Old, &[1]);
    for (lent, page_lent, due) in [(11, 13, 12), (11, 12, 12), (12, 12, 13), (12, 13, 0), (14, 16, 0)] {
        let (mut templates_out, mut page_out) = (vec![7; lent], vec![8; page_lent]);
        let answer = upgrade(&old(1, &[""]), &page, &mut templates_out, &mut page_out);
        assert_eq!(answer.number, due);
        if due == 0 {
            assert_eq!((answer.templates_bytes, answer.page_bytes), (12, 13));
            assert_eq!(
                (&templates_out[12..], &page_out[13..]),
                (&vec![7; lent - 12][..], &vec![8; page_lent - 13][..])
            );
        } else {
            assert_eq!((answer.templates_bytes, answer.page_bytes), (0, 0));
            assert!(templates_out.iter().chain(&page_out).all(|byte| *byte == 0));
        }
    }
    assert_eq!(downgrade(b"", b"", &mut [], &mut []).number, 0);
}

#[test]
fn places_of_templates() {
    let templates = [new(7, &[], &["a"]), new(3, &[2], &["", ""]), new(7, &[], &[""]), new(9, &[], &[""])].concat();
    let found = |numbers: &[u32]| {
        let answer = find(&templates, numbers);
        (answer.number, answer.records, answer.places[..numbers.len().min(3)].to_vec())
    };
    assert_eq!(found(&[]), (0, 0, vec![]));
    assert_eq!(found(&[7]), (0, 1, vec![0]));
    assert_eq!(found(&[3, 7]), (0, 2, vec![13, 0]));
    assert_eq!(found(&[3, 9]), (0, 4, vec![13, 41]));
    assert_eq!(found(&[3, 8]), (0, 4, vec![13, ABSENT]));
    assert_eq!(found(&[3, 3]), (20, 0, vec![ABSENT; 2]));
    assert_eq!(found(&[7, 3]), (20, 0, vec![ABSENT; 2]));
    assert_eq!(found(&(0..256).collect::<Vec<_>>()).0, 0);
    assert_eq!(found(&(0..257).collect::<Vec<_>>()).0, 20);
    assert_eq!(find(b"\x84", &[1, 1]).number, 3);
    assert_eq!(find(b"\x80\0\0", &[1, 1]).number, 4);
    assert!(find(&templates, &[3]).places[1..].iter().all(|place| *place == ABSENT));
}

fn order(number: u32, fillings: &[Vec<u8>]) -> Vec<u8> {
    field(0x85, &[number.to_be_bytes().to_vec(), fillings.concat()].concat())
}

#[test]
fn filled_templates() {
    let templates = [
        new(1, &[1, 2], &["<p ", ">", "</p>"]),
        new(2, &[2], &["<i>", "</i>"]),
        new(3, &[], &["<br>"]),
        new(4, &[], &[""]),
        new(4, &[], &[""]),
    ]
    .concat();
    let (attribute, text) = (|text: &str| field(0x86, text.as_bytes()), |text: &str| field(0x87, text.as_bytes()));
    let html = |order: Vec<u8>| match fill::outcome(&templates, &order) {
        Ok(html) => String::from_utf8(html).expect("text"),
        Err(refusal) => (refusal as u32).to_string(),
    };
    assert_eq!(html(order(3, &[])), "<br>");
    assert_eq!(html(order(1, &[attribute("a=\"&\""), text("<&>'\"")])), "<p a=\"&\">&lt;&amp;&gt;&#39;&quot;</p>");
    assert_eq!(html(order(1, &[attribute(""), order(2, &[order(3, &[])])])), "<p ><i><br></i></p>");
    let refused = [
        (18, order(1, &[attribute("")])),
        (18, order(1, &[attribute(""), text(""), text("")])),
        (18, order(1, &[text(""), text("")])),
        (18, order(1, &[order(3, &[]), text("")])),
        (18, order(2, &[attribute("")])),
        (18, order(1, &[attribute("a<"), text("")])),
        (18, order(1, &[attribute("a>"), text("")])),
        (18, order(4, &[])),
        (18, order(5, &[])),
        (18, order(2, &[order(5, &[])])),
        (3, vec![]),
        (3, [order(3, &[]), order(3, &[])].concat()),
        (6, [order(2, &[field(0x87, b"\xff")]), vec![0]].concat()),
        (4, [order(2, &[null()]), vec![0]].concat()),
        (4, field(0x85, b"\0\0\0")),
        (4, text("")),
        (3, [order(5, &[]), vec![0]].concat()),
        (6, order(5, &[field(0x86, b"\xff")])),
    ];
    for (number, order) in refused {
        assert_eq!(html(order.clone()), number.to_string(), "{order:02x?}");
    }
    let nest = |deep: usize| (1..deep).fold(order(2, &[text("x")]), |inner, _| order(2, &[inner]));
    assert_eq!(html(nest(47)), format!("{}x{}", "<i>".repeat(47), "</i>".repeat(47)));
    assert_eq!(html(nest(48)), "8");
    assert_eq!(html((1..48).fold(order(3, &[]), |inner, _| order(2, &[inner]))).len(), 47 * 7 + 4);
    let mut lent = vec![7; 3];
    assert_eq!((fill(&templates, &order(3, &[]), &mut lent).number, lent), (13, vec![0; 3]));
    let mut lent = vec![7; 5];
    assert_eq!((fill(&templates, &order(3, &[]), &mut lent).html_bytes, lent), (4, b"<br>\x07".to_vec()));
}

/// A page of the catalogue as it stands there.
fn page(name: u32, house: &[u8], templates: &[u8], page: &[u8]) -> Vec<u8> {
    let lengths = [templates.len() as u32, page.len() as u32].map(u32::to_be_bytes).concat();
    [vec![0x97], name.to_be_bytes().to_vec(), house.to_vec(), lengths, templates.to_vec(), page.to_vec()].concat()
}

fn padded(bytes: Vec<u8>, length: usize) -> Vec<u8> {
    let mut bytes = bytes;
    bytes.resize(length, 0);
    bytes
}

#[test]
fn pages_come_and_go() {
    let one = |before: u32| [new(before + 2, &[], &["b"]), new(before + 1, &[2], &["", ""])].concat();
    let one_page = |before: u32| calls(Layout::New, &[before + 1, before + 2]);
    let two = |before: u32| (new(before + 1, &[], &["c"]), calls(Layout::New, &[before + 1]));
    let mut bytes = vec![0; 200];
    assert_eq!(catalogue::add(&mut bytes, 5, &one(0), &one_page(0)).pages, 1);
    let first = page(5, &[], &one(0), &one_page(0));
    assert_eq!(bytes, padded(first.clone(), 200));
    let answer = catalogue::add(&mut bytes, 0, &two(0).0, &two(0).1);
    let both = [first, page(0, &[], &two(2).0, &two(2).1)].concat();
    assert_eq!((answer, &bytes), (Catalogued { number: 0, used: both.len(), pages: 2 }, &padded(both.clone(), 200)));
    let numbers = [
        // The page's own refusals come before a name that is present.
        (4, catalogue::add(&mut bytes, 5, b"", &source("s"))),
        (21, catalogue::add(&mut bytes, 0, b"", &statement(&[source(&"s".repeat(300))]))),
        (23, catalogue::add(&mut bytes, 1, b"", &statement(&[source(&"s".repeat(300))]))),
        (22, catalogue::remove(&mut bytes, 1)),
        (17, catalogue::add(&mut bytes, 5, &two(1).0, &two(1).1)),
        (17, catalogue::add(&mut bytes, 5, &two(0).0, b"")),
        (17, catalogue::add(&mut bytes, 5, b"", &two(0).1)),
        (17, catalogue::add(&mut bytes, 5, &two(0).0, &calls(Layout::New, &[1, 1]))),
        (17, catalogue::add(&mut bytes, 5, &new(1, &[1], &["", ""]), &two(0).1)),
        (3, catalogue::add(&mut bytes, 5, b"\x84", b"\x12")),
    ];
    for (due, answer) in numbers {
        assert_eq!(answer, Catalogued { number: due, used: 0, pages: 0 });
    }
    assert_eq!(bytes, padded(both, 200));
    assert_eq!(catalogue::remove(&mut bytes, 5).pages, 1);
    assert_eq!(bytes, padded(page(0, &[], &two(0).0, &two(0).1), 200));
    assert_eq!(catalogue::remove(&mut bytes, 0), Catalogued { number: 0, used: 0, pages: 0 });
    assert_eq!(bytes, vec![0; 200]);
}

#[test]
fn sound_catalogues() {
    let (a, b) = (page(1, &[], b"", b""), page(2, &[], &new(1, &[], &[""]), &calls(Layout::New, &[1])));
    let again = page(3, &[], &new(2, &[], &[""]), &calls(Layout::New, &[2]));
    let not_next = page(3, &[], &new(1, &[], &[""]), &calls(Layout::New, &[1]));
    let sound = [vec![], vec![0], a.clone(), [a.clone(), b.clone(), again].concat(), [b.clone(), vec![0; 9]].concat()];
    let unsound = [
        vec![1],
        vec![0, 1],
        vec![0x97],
        a[..12].to_vec(),
        [a.clone(), a.clone()].concat(),
        [a.clone(), vec![0, 0x97]].concat(),
        [vec![0], a.clone()].concat(),
        [b.clone(), not_next].concat(),
        b[..b.len() - 1].to_vec(),
        page(1, &[], &[0x84], b""),
    ];
    for bytes in sound {
        assert_eq!(catalogue::remove(&mut bytes.clone(), 77).number, 22, "{bytes:02x?}");
    }
    for bytes in unsound {
        let mut lent = bytes.clone();
        assert_eq!(catalogue::remove(&mut lent, 1).number, 4, "{bytes:02x?}");
        // Before all else.
        assert_eq!(catalogue::add(&mut lent, 1, b"\x84", b"").number, 4, "{bytes:02x?}");
        assert_eq!(lent, bytes);
    }
    assert_eq!(catalogue::remove(&mut vec![0; MOST_CATALOGUE], 1).number, 22);
    assert_eq!(catalogue::remove(&mut vec![0; MOST_CATALOGUE + 1], 1).number, 4);
}

/// As fields in pages, and what is behind them.
#[test]
fn shown_as_pages() {
    let shown = |bytes: &[u8]| oracle::show::show(bytes);
    let two = [page(5, &[2], b"", b"\x13\0\0"), page(0x100, &[16], b"", b"")].concat();
    let text = "97 page 5 of house 2\n  13 empty statement\n97 page 256 of house 16\n";
    assert_eq!(shown(&padded(two.clone(), 60)), format!("{text}29 bytes are free\n"));
    assert_eq!(shown(&[&two[..], b"\0\x05"].concat()), format!("{text}no page: 0005\n"));
    assert_eq!(shown(&two[..10]), "no page: 97000000050200000000\n");
}

#[test]
fn shares_of_houses() {
    // House 1 is guaranteed 20 and may have 28, house 2 is guaranteed 14 and may have all.
    let mut given = vec![0; 32];
    given[..4].copy_from_slice(&[20, 28, 14, u32::MAX]);
    given[5] = u32::MAX;
    let mut bytes = vec![0; 60];
    let add = |bytes: &mut [u8], name: u32, house: u32, given: &[u32]| {
        shares::add(bytes, name, house, given, b"", b"").number
    };
    assert_eq!(add(&mut bytes, 1, 1, &given), 0);
    assert_eq!(bytes, padded(page(1, &[1], b"", b""), 60));
    assert_eq!(add(&mut bytes, 2, 1, &given), 0);
    assert_eq!(add(&mut bytes, 3, 1, &given), 24);
    // 32 free; house 3 leaves 18, which cover the 14 of house 2, and then 4, which do not.
    assert_eq!(add(&mut bytes, 3, 3, &given), 0);
    assert_eq!(add(&mut bytes, 4, 3, &given), 25);
    assert_eq!(add(&mut bytes, 4, 2, &given), 0);
    assert_eq!(add(&mut bytes, 5, 2, &given), 25);
    assert_eq!(add(&mut bytes, 1, 2, &given), 21);
    // 26 before 21.
    let bad = |change: &dyn Fn(&mut Vec<u32>)| {
        let mut other = given.clone();
        change(&mut other);
        other
    };
    let refused = [
        (0, given.clone()),
        (17, given.clone()),
        (257, given.clone()),
        (1, given[..31].to_vec()),
        (1, [given.clone(), vec![0]].concat()),
        (1, bad(&|given| given[0] = 29)),
        (1, bad(&|given| given[2] = 41)),
        (1, bad(&|given| (given[4], given[2]) = (u32::MAX, u32::MAX))),
    ];
    for (house, given) in refused {
        assert_eq!(add(&mut bytes, 1, house, &given), 26, "{house} {given:?}");
    }
    assert_eq!(add(&mut bytes, 1, 1, &bad(&|given| given[2] = 40)), 21);
    assert_eq!(shares::add(&mut bytes, 1, 0, &[], b"", &source("")).number, 4);
    // A house out of range is no catalogue's.
    for house in [0, 17] {
        assert_eq!(shares::remove(&mut page(1, &[house], b"", b""), 1).number, 4);
    }
    assert_eq!(shares::remove(&mut bytes, 9).number, 22);
    assert_eq!(shares::remove(&mut bytes, 1), Catalogued { number: 0, used: 42, pages: 3 });
    assert_eq!(add(&mut bytes, 5, 2, &given), 25);
    assert_eq!(add(&mut bytes, 5, 1, &given), 0);
}
