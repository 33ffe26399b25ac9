//! Templates and orders to measure fillings on: 64 KB of HTML from one template and from many, what the densest orders ask
//! for, and a call as small as they come.

use super::pages::usual;
use jsx_precompile::field::Fields;
use jsx_precompile::limits::MAX_BODY;
use jsx_precompile::out::{Kind, Templates};
use jsx_precompile::{Filling, Options, Order, transform};
use oracle::make::template;
use oracle::outs::fill::outcome;

pub struct Fill {
    pub name: String,
    pub templates: Vec<u8>,
    pub order: Vec<u8>,
    pub html_bytes: usize,
}

/// As many 85s as one has room for.
const ORDERS: usize = (MAX_BODY - 4) / 7;

/// What each of many short templates has. It has no sign, so that a text of an order can give a part of it.
const SHORT: &str = "Row A ";

pub fn all() -> Vec<Fill> {
    let text = |sign: &str, bytes: usize| sign.repeat(bytes / sign.len());
    let gaps = |count: usize, string: &str| template(1, &vec![2; count], &vec![string; count + 1]);
    let texts = |count: usize, each: &str| (0..count).fold(Order::new(1), |order, _| order.text(each));
    let attributes = |count: usize, each: &str| (0..count).fold(Order::new(1), |order, _| order.attribute(each));
    let orders =
        |number: fn(u32) -> u32| (0..ORDERS as u32).fold(Order::new(1), |all, at| all.order(Order::new(number(at))));
    let holder = gaps(ORDERS, "");
    let (string, left) = SHORT.split_at(2);
    let row = template(1, &vec![2; ORDERS], &[&vec![string; ORDERS][..], &[""]].concat());
    let each = |count: u32| (0..count).flat_map(|at| template(at + 2, &[], &[SHORT])).collect::<Vec<u8>>();
    vec![
        set("tiny", template(1, &[1, 2], &["<p ", ">", "</p>"]), Order::new(1).attribute("id=\"a\"").text("Hi")),
        components(65_536),
        set("strings, 1,000 gaps", gaps(1_000, &text("a", 60)), texts(1_000, "")),
        set("one string", template(1, &[], &[&text("a", 65_526)]), Order::new(1)),
        set("short texts", gaps(2_000, ""), texts(2_000, &text("a", 29))),
        set("one text", gaps(1, ""), texts(1, &text("a", 65_528))),
        set("one text beyond ASCII", gaps(1, ""), texts(1, &text("\u{e9}", 65_528))),
        set("one text of Greek words", gaps(1, ""), texts(1, &text("Το φως πάνω στη θάλασσα αλλάζει αργά. ", 65_528))),
        set("one text of Chinese", gaps(1, ""), texts(1, &text("人们默默地走上站台，城市还在沉睡。", 65_528))),
        set("one text of signs", gaps(1, ""), texts(1, &text("&", 13_107))),
        set("attributes", template(1, &[1; 2_000], &[""; 2_001]), attributes(2_000, &text("a", 29))),
        set("gaps of a byte each", gaps(16_381, ""), texts(16_381, "a")),
        set("9,361 orders, one template", [&template(2, &[], &[SHORT])[..], &holder].concat(), orders(|_| 2)),
        set("9,361 orders, a template each", [&each(ORDERS as u32)[..], &holder].concat(), orders(|at| at + 2)),
        set("9,361 orders, the last first", [&each(ORDERS as u32)[..], &holder].concat(), orders(|at| 9_362 - at)),
        // The same bytes as those three, from one template: as one string, and with a gap for each order.
        set("their bytes, one template", template(1, &[], &[&SHORT.repeat(ORDERS)]), Order::new(1)),
        set("their bytes, 9,361 gaps", row, texts(ORDERS, left)),
        set(
            "65,536 templates, one asked for",
            [&each(65_536)[..], &template(1, &[], &[SHORT])].concat(),
            Order::new(1),
        ),
    ]
}

fn set(name: &str, templates: Vec<u8>, order: Order) -> Fill {
    let order = order.to_bytes().unwrap_or_else(|error| panic!("{name}: {error}"));
    // By the judge: calls of the library are counted.
    let html = outcome(&templates, &order).unwrap_or_else(|refusal| panic!("{name}: {refusal:?}"));
    Fill { name: name.to_string(), templates, order, html_bytes: html.len() }
}

/// Templates of pages shaped like real code, behind each other in a template of gaps, as many as make so many bytes.
fn components(least: usize) -> Fill {
    let (mut templates, mut orders, mut bytes) = (vec![], vec![], 0);
    'pages: for page in &usual(1_000)[0].pages {
        let forms = transform(page, &Options::new()).expect("a page that is taken");
        for (field, read) in Fields::new(forms.templates_bytes()).zip(forms.templates()) {
            let number = orders.len() as u32 + 2;
            let kinds = read.kinds().expect("an 84");
            let fillings = kinds.map(|kind| match kind {
                Kind::Attribute => Filling::Attribute("data-seat=\"A1\"".to_string()),
                Kind::Child => Filling::Text("Stalls & balcony".to_string()),
            });
            templates.extend(
                [&[0x84][..], &(field.body.len() as u16).to_be_bytes(), &number.to_be_bytes(), &field.body[4..]]
                    .concat(),
            );
            orders.push(Order { number, fillings: fillings.collect() });
            bytes += read.strings().map(str::len).sum::<usize>();
            if bytes >= least {
                break 'pages;
            }
        }
    }
    let count = orders.len();
    templates.extend(template(1, &vec![2; count], &vec![""; count + 1]));
    assert_eq!(Templates::read(&templates).expect("templates").count(), count + 1);
    set("components, 64 KB", templates, orders.into_iter().fold(Order::new(1), Order::order))
}
