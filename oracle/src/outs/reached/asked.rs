//! A11 and A8: what look-ups and fillings met.

use super::{Reached, with};
use crate::answer::MOST_DEPTH;
use crate::outs::fill::{Filled, Filling, Order, read_order};
use crate::outs::find::{ABSENT, MOST_NUMBERS, Places};
use crate::outs::generate::{FillCase, FindCase};
use crate::outs::templates::{self, ATTRIBUTE, Template};
use crate::outs::{Layout, Refusal};

const FIND: [&str; 15] = [
    "3",
    "4",
    "6",
    "20 too many",
    "20 too many, not rising",
    "20 falling",
    "20 one number twice",
    "none named",
    "none named, some recorded",
    "256 named",
    "all found",
    "one absent",
    "the first of two records",
    "fewer records than all",
    "number 4294967295",
];

const FILL: [&str; 28] = [
    "3 in templates",
    "4 in templates",
    "6 in templates",
    "3 no order",
    "3 in the order",
    "3 behind the order",
    "4 in the order",
    "6 in the order",
    "8 in the order",
    "18 number unknown",
    "18 number twice",
    "18 too few",
    "18 too many",
    "18 attribute for a child",
    "18 text for an attribute",
    "18 order for an attribute",
    "18 sign in an attribute",
    "13",
    "taken",
    "no HTML",
    "no gap",
    "attribute text",
    "plain text",
    "an order in an order",
    "48 deep",
    "an empty filling",
    "all five escapes",
    "another record twice",
];

impl Reached {
    pub fn due_of_find() -> Vec<String> {
        with("find", &FIND)
    }

    pub fn meet_find(&mut self, case: &FindCase, answer: &Places) {
        let mut met = Reached::default();
        let numbers = &case.numbers;
        let rising = numbers.is_sorted_by(|one, next| one < next);
        let templates = templates::read(&case.templates, Layout::New).unwrap_or_default();
        let recorded = |number: u32| templates.iter().filter(|template| template.number == number).count();
        let places = &answer.places[..numbers.len().min(MOST_NUMBERS)];
        match answer.number {
            0 => {
                met.met_if(numbers.is_empty(), "none named");
                met.met_if(numbers.is_empty() && !templates.is_empty(), "none named, some recorded");
                met.met_if(numbers.len() == MOST_NUMBERS, "256 named");
                met.met_if(!numbers.is_empty() && !places.contains(&ABSENT), "all found");
                met.met_if(places.contains(&ABSENT), "one absent");
                met.met_if(numbers.iter().any(|number| recorded(*number) > 1), "the first of two records");
                met.met_if(!numbers.is_empty() && answer.records < templates.len(), "fewer records than all");
                met.met_if(numbers.last() == Some(&u32::MAX), "number 4294967295");
            }
            20 if numbers.len() > MOST_NUMBERS => {
                met.met(if rising { "20 too many" } else { "20 too many, not rising" })
            }
            20 if numbers.is_sorted() => met.met("20 one number twice"),
            20 => met.met("20 falling"),
            number => met.met(format!("{number}")),
        }
        met.counts.into_iter().for_each(|(what, _)| self.met(format!("find: {what}")));
    }

    pub fn due_of_fill() -> Vec<String> {
        with("fill", &FILL)
    }

    pub fn meet_fill(&mut self, case: &FillCase, answer: Filled) {
        let mut met = Reached::default();
        let templates = templates::read(&case.templates, Layout::New);
        let order = read_order(&case.order);
        match (answer.number, &templates, &order) {
            (13, _, _) => met.met("13"),
            (number, Err(_), _) => met.met(format!("{number} in templates")),
            (number, Ok(_), Err(refusal)) => met.met(match refusal {
                Refusal::Truncated if case.order.is_empty() => "3 no order".to_string(),
                Refusal::Truncated if alone(&case.order) => "3 behind the order".to_string(),
                _ => format!("{number} in the order"),
            }),
            (number, Ok(templates), Ok(order)) => {
                met.met_if(number == 0, "taken");
                met.met_if(number == 0 && answer.html_bytes == 0, "no HTML");
                met.order(order, templates, 1, number == 0);
            }
        }
        met.counts.into_iter().for_each(|(what, _)| self.met(format!("fill: {what}")));
    }

    /// The order and those in it: why it does not fit, or what it has.
    fn order(&mut self, order: &Order, templates: &[Template], depth: usize, taken: bool) {
        let found: Vec<&Template> = templates.iter().filter(|template| template.number == order.number).collect();
        let [template] = found[..] else {
            return self.met(if found.is_empty() { "18 number unknown" } else { "18 number twice" });
        };
        let twice = |one: &Template| templates.iter().filter(|other| other.number == one.number).count() > 1;
        self.met_if(taken && templates.iter().any(twice), "another record twice");
        self.met_if(taken && template.kinds.is_empty(), "no gap");
        self.met_if(taken && depth > 1, "an order in an order");
        self.met_if(order.fillings.len() < template.kinds.len(), "18 too few");
        self.met_if(order.fillings.len() > template.kinds.len(), "18 too many");
        for (filling, kind) in order.fillings.iter().zip(&template.kinds) {
            self.met_if(taken && depth + 1 == MOST_DEPTH, "48 deep");
            match filling {
                Filling::Attribute(_) if *kind != ATTRIBUTE => self.met("18 attribute for a child"),
                Filling::Attribute(text) => {
                    self.met_if(text.iter().any(|byte| matches!(byte, b'<' | b'>')), "18 sign in an attribute");
                    self.met_if(taken, "attribute text");
                    self.met_if(taken && text.is_empty(), "an empty filling");
                }
                Filling::Text(_) if *kind == ATTRIBUTE => self.met("18 text for an attribute"),
                Filling::Text(text) => {
                    self.met_if(taken, "plain text");
                    for escaped in b"&<>'\"" {
                        self.met_if(taken && text.contains(escaped), &format!("escape {}", char::from(*escaped)));
                    }
                }
                Filling::Order(_) if *kind == ATTRIBUTE => self.met("18 order for an attribute"),
                Filling::Order(inner) => self.order(inner, templates, depth + 1, taken),
            }
        }
        let all = b"&<>'\"".iter().all(|byte| self.count(&format!("escape {}", char::from(*byte))) > 0);
        self.met_if(all, "all five escapes");
    }
}

/// Whether an order stands in front of bytes that are too many.
fn alone(order: &[u8]) -> bool {
    let [_, high, low, behind @ ..] = order else { return false };
    let length = usize::from(u16::from_be_bytes([*high, *low]));
    length < behind.len() && read_order(&order[..3 + length]).is_ok()
}
