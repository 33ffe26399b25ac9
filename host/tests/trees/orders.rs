//! The orders of examples/: what the templates of a page there are filled with.

use jsx_precompile::Order;

/// Each by the name of its page.
pub fn orders() -> [(&'static str, Order); 2] {
    [("rows", rows()), ("paper", paper())]
}

/// A row with one seat.
fn rows() -> Order {
    let seat = Order::new(3).attribute_value("data-seat", "A1").attribute("disabled").text("1");
    Order::new(1).order(Order::new(2).attribute("").text("A").order(seat))
}

/// The templates of `paper` by their numbers.
const SHEET: u32 = 1;
const ACT: u32 = 2;
const PART: u32 = 3;
const BOTH: u32 = 4;

/// An evening of two acts and six parts; signs that HTML escapes, letters beyond ASCII, a gap that is left empty.
fn paper() -> Order {
    let play = "Much Ado & \u{201c}Nothing\u{201d}";
    let first = [
        part("Beatrice", "Zo\u{eb} O'Hara"),
        part("Benedick", "Jos\u{e9} <the younger> Mar\u{ed}n"),
        guest("Hero", "A. \"Tony\" Lee"),
    ];
    let second = [part("Dogberry", "B. Quick"), part("Verges & a watchman", "C. Slow"), guest("A dog", "Toby")];
    let acts = both(act("Before the interval", both_of(first)), act("After the interval", both_of(second)));
    Order::new(SHEET)
        .text(play)
        .text("The Rose & Crown Hall")
        .attribute_value("id", "much-ado")
        .text(play)
        .text("Saturday, 7:30 pm")
        .order(acts)
        .text("Doors open at 7 \u{2014} no food & no drink in the stalls.")
}

fn act(title: &str, parts: Order) -> Order {
    Order::new(ACT).text(title).order(parts)
}

fn part(role: &str, player: &str) -> Order {
    Order::new(PART).attribute("").text(role).text(player)
}

fn guest(role: &str, player: &str) -> Order {
    Order::new(PART).attribute_value("class", "guest").text(role).text(player)
}

fn both(one: Order, other: Order) -> Order {
    Order::new(BOTH).order(one).order(other)
}

/// A gap takes one filling, so that several stand in pairs.
fn both_of(parts: [Order; 3]) -> Order {
    let [one, two, three] = parts;
    both(one, both(two, three))
}
