//! Pages as a theatre has them, each with the rule that it shows.

use super::{Example, code, const_a, marks, string};
use jsx_precompile::limits::MAX_NUMBER;
use jsx_precompile::page::*;

pub fn all() -> Vec<Example> {
    vec![
        Example::new("choices", choices()),
        Example::new("rows", rows()),
        Example::new("hall", hall()),
        Example::new("spread", spread()),
        Example::new("fragments", fragments()),
        Example::new("notice", notice()),
        Example::new("booleans", booleans()),
        Example::new("controls", controls()),
        Example::new("plan", plan()),
        Example::new("values", values()),
        Example::new("prices", prices()),
        Example::new("blocks", blocks()),
        Example::new("paper", paper()),
        Example::new("module", module()),
        Example::new("no-tags", no_tags()),
        Example::new("twice", twice()),
        Example::new("mixed-case", mixed_case()),
        damaged(),
    ]
}

fn yes() -> Expression {
    Expression::Boolean(true)
}

fn no() -> Expression {
    Expression::Boolean(false)
}

fn decimal(text: &str) -> Expression {
    Expression::parse_decimal(text).expect("a decimal")
}

fn other(pieces: impl IntoIterator<Item = Piece>) -> Expression {
    Expression::Other(pieces.into_iter().collect())
}

/// A list in which some choices are disabled: always, never, or as an expression says.
fn choices() -> Page {
    let option = |value: &str| Element::new("option").attribute("value", value);
    let list = Element::new("select")
        .attribute("name", "seat")
        .valueless("required")
        .text("\n  ")
        .child(option("A1").text("A1, stalls"))
        .text("\n  ")
        .child(option("A2").attribute("disabled", yes()).text("A2, stalls (sold)"))
        .text("\n  ")
        .child(option("B1").attribute("disabled", code("sold.has(\"B1\")")).text("B1, balcony"))
        .text("\n  ")
        .child(
            option("B2")
                .attribute("disabled", no())
                .attribute("selected", code("chosen === \"B2\""))
                .text("B2, balcony"),
        )
        .text("\n");
    Page::new([Item::export(["export const Choices = ({ sold, chosen }) => ".into(), list.into(), ";".into()])])
}

/// Tags within an expression within a tag, two deep.
fn rows() -> Page {
    let seat = Element::new("button")
        .attribute("type", "button")
        .attribute("data-seat", code("seat.id"))
        .attribute("disabled", code("seat.sold"))
        .child(code("seat.label"));
    let row = Element::new("li")
        .attribute("key", code("row.name"))
        .text("\n      ")
        .child(Element::new("b").text("Row ").child(code("row.name")))
        .text("\n      ")
        .child(other(["row.seats.map((seat) => ".into(), seat.into(), ")".into()]))
        .text("\n    ");
    let list = Element::new("ol")
        .attribute("class", "rows")
        .text("\n    ")
        .child(other(["rows.map((row) => ".into(), row.into(), ")".into()]))
        .text("\n  ");
    Page::new([Item::export(["export function Rows({ rows }) {\n  return ".into(), list.into(), ";\n}".into()])])
}

/// Components, one of them a member, with children of both kinds.
fn hall() -> Page {
    let plan = Element::new("Hall.Plan")
        .attribute("floor", Expression::Minus(1))
        .valueless("aisle")
        .text("\n      Please choose a seat.\n    ");
    let hall = Element::new("Hall")
        .attribute("title", "Main hall")
        .attribute("seats", Expression::Number(412))
        .attribute("data-open", code("isOpen"))
        .text("\n    ")
        .child(Element::new("h1").attribute("id", code("props.id")).child(code("props.play")))
        .text("\n    ")
        .child(plan)
        .text("\n  ");
    Page::new([Item::export(["export default function Page(props) {\n  return ".into(), hall.into(), ";\n}".into()])])
}

/// A spread on an element, which is no template then, and on a component with a key.
fn spread() -> Page {
    let button = Element::new("button")
        .attribute("class", "seat")
        .spread(code("props"))
        .attribute("type", "button")
        .text("Take ")
        .child(code("props.label"));
    let seat = Element::new("Seat").spread(code("seat")).attribute("key", code("seat.id")).child(button);
    const_a(seat)
}

fn fragments() -> Page {
    let row_b = Fragment::new().text("Row B, ").child(code("left")).text(" left");
    let inner =
        Fragment::new().text("\n    ").child(Element::new("p").text("Row A")).text("\n    ").child(row_b).text("\n  ");
    const_a(Fragment::new().text("\n  ").child(Element::new("h2").text("Stalls")).text("\n  ").child(inner).text("\n"))
}

/// Several lines, signs that HTML escapes, letters beyond ASCII, a string and empty braces among the text.
fn notice() -> Page {
    const_a(
        Element::new("p")
            .attribute("class", "notice")
            .attribute("title", "\"Bar\" & doors")
            .text("\n  Doors open at 7 & close at 7:30.\n  Rows < F have \"no\" view; don't sit there.\n\n  Café")
            .child(string(" & bar "))
            .text("{20\u{a0}€}")
            .child(Child::Container(None))
            .child(Element::new("br"))
            .text("\n  Enjoy the play!\n"),
    )
}

/// Boolean attributes in each way, a name that is none, and booleans as children.
fn booleans() -> Page {
    let input = || Element::new("input").attribute("type", "checkbox");
    let cell = |inside: Element| Element::new("td").child(inside);
    const_a(
        Element::new("tr")
            .attribute("hidden", no())
            .text("\n  ")
            .child(cell(input().valueless("checked")))
            .text("\n  ")
            .child(cell(input().attribute("checked", yes()).attribute("disabled", no())))
            .text("\n  ")
            .child(cell(input().attribute("checked", code("seat.taken")).attribute("disabled", code("seat.sold"))))
            .text("\n  ")
            .child(cell(input().attribute("checked", "checked").attribute("aria-checked", yes())))
            .text("\n  ")
            .child(Element::new("td").child(yes()).child(no()).child(Expression::Null))
            .text("\n"),
    )
}

/// Bytes under hex 20, hex 7F, quotes and backslashes, in properties and in a template.
fn controls() -> Page {
    let ticket = Element::new("Ticket")
        .attribute("code", string("A1\tB2\r\n\"C3\" \\ \0\u{1b}\u{1f}\u{7f}"))
        .attribute("note", "bell: \u{7}")
        .child(string("one\u{1}two"));
    let line = Element::new("pre").attribute("title", "a\tb").child(string("\u{b}one\\two\u{7f}\r\n"));
    Page::new([
        Item::statement(["const a = ".into(), ticket.into(), ";".into()]),
        Item::statement(["const b = ".into(), line.into(), ";".into()]),
    ])
}

/// Attribute names that become others, with a namespace too; an element that is none of HTML's.
fn plan() -> Page {
    let seat = Element::new("use")
        .attribute("xlink:href", "#seat")
        .attribute("fillOpacity", decimal("0.5"))
        .attribute("onClick", code("() => take(id)"));
    const_a(
        Element::new("svg")
            .attribute("viewBox", "0 0 40 20")
            .attribute("className", "plan")
            .attribute("strokeWidth", Expression::Number(2))
            .text("\n  ")
            .child(seat)
            .text("\n  ")
            .child(Element::new("seat-map").attribute("tabIndex", Expression::Number(0)).valueless("data-wide"))
            .text("\n"),
    )
}

/// Every kind of expression as a property; names that stand in quotes.
fn values() -> Page {
    let row = vec![
        Expression::Number(1).into(),
        ArrayItem::Hole,
        Expression::Minus(2).into(),
        ArrayItem::Spread(code("extra")),
        Expression::Array(vec![]).into(),
    ];
    const_a(
        Element::new("Plan")
            .attribute("row", Expression::Array(row))
            .attribute("most", Expression::Number(MAX_NUMBER))
            .attribute("data-floor", Expression::Minus(0))
            .attribute("price", decimal("12.5"))
            .attribute("less", decimal("-0.05"))
            .attribute("xml:lang", "en")
            .attribute("code", Expression::Literal("/^[A-Z]\\d+$/".to_string()))
            .attribute("none", Expression::Null)
            .attribute("open", yes())
            .attribute("shut", no())
            .valueless("aisle")
            .attribute("icon", Expression::from(Element::new("i")))
            .attribute("left", other(["n > 1 && ".into(), Element::new("b").child(code("n")).into()])),
    )
}

/// Prices as text, as attributes, and handed on to a component, one with a minus.
fn prices() -> Page {
    let row = |name: &str, price: Element| Element::new("tr").child(Element::new("th").text(name)).child(price);
    let cell =
        |text: &str| Element::new("td").attribute("data-price", decimal(text)).text("\u{a3}").child(decimal(text));
    let pillar = Element::new("Price").attribute("of", decimal("12.5")).attribute("less", decimal("-1.25"));
    let list = Element::new("table")
        .attribute("class", "prices")
        .text("\n    ")
        .child(Element::new("caption").text("Prices, ").child(code("day")))
        .text("\n    ")
        .child(row("Stalls", cell("12.5")))
        .text("\n    ")
        .child(row("Balcony", cell("9.05")))
        .text("\n    ")
        .child(row("Standing", cell("0.75")))
        .text("\n    ")
        .child(row("Behind a pillar", Element::new("td").child(pillar)))
        .text("\n  ");
    Page::new([Item::export(["export function Prices({ day }) {\n  return ".into(), list.into(), ";\n}".into()])])
}

/// Seats in a block as sums, as text, as attributes and handed on to a component; one text that is no sum.
fn blocks() -> Page {
    let (stalls, balcony) = ("2 * 12 + 3", "(14 + 16) * 8 - 4");
    let row = |name: &str, sum: &str| {
        let seats = Element::new("td").child(code(sum)).text(" seats");
        Element::new("tr").attribute("data-seats", code(sum)).child(Element::new("th").text(name)).child(seats)
    };
    let left = Element::new("Left")
        .attribute("of", code(&format!("{stalls} + {balcony}")))
        .attribute("change", code("3 - 12"));
    let list = Element::new("table")
        .attribute("class", "blocks")
        .text("\n    ")
        .child(row("Stalls", stalls))
        .text("\n    ")
        .child(row("Balcony", balcony))
        .text("\n    ")
        .child(row("Gallery", "2 * gallery"))
        .text("\n    ")
        .child(Element::new("tr").child(Element::new("td").child(left)))
        .text("\n  ");
    Page::new([Item::export(["export function Blocks({ gallery }) {\n  return ".into(), list.into(), ";\n}".into()])])
}

/// What the print office fills: the sheet of a paper programme, an act, a part in it, and two things one behind the other.
fn paper() -> Page {
    let style = "@page { size: A5 } body { font: 12pt Georgia, serif; max-width: 32em; margin: 2em auto } \
                 header, footer { text-align: center } footer { margin-top: 2em } h2 { font-size: 1em; font-variant: small-caps } \
                 table { width: 100%; border-collapse: collapse } tr { border-bottom: 1px dotted } \
                 th { text-align: left; font-weight: normal } td { text-align: right } .guest { font-style: italic }";
    let head = Element::new("head")
        .text("\n    ")
        .child(Element::new("meta").attribute("charset", "utf-8"))
        .text("\n    ")
        .child(Element::new("title").child(code("play")))
        .text("\n    ")
        .child(Element::new("style").child(string(style)))
        .text("\n  ");
    let header = Element::new("header")
        .text("\n      ")
        .child(Element::new("p").child(code("hall")))
        .text("\n      ")
        .child(Element::new("h1").attribute("id", code("id")).child(code("play")))
        .text("\n      ")
        .child(Element::new("p").child(code("day")))
        .text("\n    ");
    let body = Element::new("body")
        .text("\n    ")
        .child(header)
        .text("\n    ")
        .child(Element::new("main").child(code("acts")))
        .text("\n    ")
        .child(Element::new("footer").child(code("note")))
        .text("\n  ");
    let sheet =
        Element::new("html").attribute("lang", "en").text("\n  ").child(head).text("\n  ").child(body).text("\n");
    let parts = Element::new("table").child(Element::new("tbody").child(code("parts")));
    let act = Element::new("section").child(Element::new("h2").child(code("title"))).child(parts);
    let part = Element::new("tr")
        .attribute("class", code("guest"))
        .child(Element::new("th").child(code("role")))
        .child(Element::new("td").child(code("player")));
    let both = Fragment::new().child(code("one")).child(code("other"));
    let export = |front: &str, tag: Piece| Item::export([front.into(), tag, ";".into()]);
    Page::new([
        export("export const Sheet = ({ hall, id, play, day, acts, note }) => ", sheet.into()),
        export("export const Act = ({ title, parts }) => ", act.into()),
        export("export const Part = ({ guest, role, player }) => ", part.into()),
        export("export const Both = ({ one, other }) => ", both.into()),
    ])
}

/// All kinds of items: the templates stand before the first that is no import.
fn module() -> Page {
    let title = Element::new("h1").text("Seats");
    let page = Element::new("Layout")
        .attribute("head", Expression::from(Element::new("Title")))
        .text("\n    ")
        .child(Element::new("p").text("Hall ").child(Expression::Number(2)))
        .text("\n    ")
        .child(Element::new("hr"))
        .text("\n  ");
    Page::new([
        Item::declaration(["import { Layout } from \"./layout.jsx\";".into()]),
        Item::Empty,
        Item::export(["export const Title = () => ".into(), title.into(), ";".into()]),
        Item::statement(["const rows = 12;".into()]),
        Item::export(["export default function Page() {\n  return ".into(), page.into(), ";\n}".into()]),
        Item::declaration(["export { rows };".into()]),
    ])
}

/// `class` and `className`, of which a browser keeps the first.
fn twice() -> Page {
    const_a(Element::new("p").attribute("class", "tour").attribute("className", "sold-out").text("On tour"))
}

/// `bR`, which HTML takes for `br`.
fn mixed_case() -> Page {
    const_a(Element::new("p").text("Row A").child(Element::new("bR")).text("Row B"))
}

fn no_tags() -> Page {
    Page::new([Item::statement(["const seats = 412;".into()]), Item::Empty])
}

/// The worked page with one byte changed: the attribute says that it is longer than the element around it.
fn damaged() -> Example {
    let mut example = Example::new("damaged", const_a(marks::worked()));
    let length_of_attribute = 28;
    assert_eq!(example.page[26..29], [0x50, 0, 12], "the attribute's header");
    example.page[length_of_attribute] = 0x2c;
    example
}
