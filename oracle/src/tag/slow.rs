//! A3's grammar as productions, each tried at every place and to every end: all readings of a text. For short texts
//! alone. The judge's reader decides by the next sign; that it misses no reading, and that there is never a second, is
//! seen by comparing.

use super::signs::*;
use crate::answer::MOST_NAME;
use crate::make;
use std::collections::BTreeSet;

/// A reading: the field, and whether every closing name is that of its tag.
#[derive(Clone, Debug, PartialEq, Eq, PartialOrd, Ord)]
pub struct SlowReading {
    pub field: Vec<u8>,
    pub names_agree: bool,
}

/// Every reading of the text, closing names not compared.
pub fn readings(text: &[u8]) -> Vec<SlowReading> {
    let ends = Slow(text).tag(0);
    ends.into_iter().filter(|(end, _)| *end == text.len()).map(|(_, reading)| reading).collect()
}

/// Where something may end that begins at a place, each with what it is read as.
type Ends<T> = BTreeSet<(usize, T)>;

/// Rows of fields, and whether names agree in them.
type Row = SlowReading;

fn row(field: Vec<u8>) -> Row {
    SlowReading { field, names_agree: true }
}

fn joined(one: &Row, other: &Row) -> Row {
    Row { field: [&one.field[..], &other.field].concat(), names_agree: one.names_agree && other.names_agree }
}

fn within(tag: u8, inside: &Row) -> Row {
    Row { field: make::field(tag, &inside.field), names_agree: inside.names_agree }
}

struct Slow<'a>(&'a [u8]);

impl Slow<'_> {
    fn at(&self, at: usize) -> Option<u8> {
        self.0.get(at).copied()
    }

    /// Behind this sign, white space before it left out: `space* sign`.
    fn sign(&self, from: &[usize], sign: &[u8]) -> Vec<usize> {
        let mut ends = BTreeSet::new();
        for at in self.spaces(from) {
            if self.0[at..].starts_with(sign) {
                ends.insert(at + sign.len());
            }
        }
        ends.into_iter().collect()
    }

    /// White space of any length, none too.
    fn spaces(&self, from: &[usize]) -> BTreeSet<usize> {
        let mut ends = BTreeSet::new();
        for start in from {
            let mut at = *start;
            ends.insert(at);
            while self.at(at).is_some_and(is_space) {
                at += 1;
                ends.insert(at);
            }
        }
        ends
    }

    /// `<>` children `</>`, `<` name attributes `/>`, `<` name attributes `>` children `</` name `>`; a closing tag may
    /// have any name, or none.
    fn tag(&self, at: usize) -> Ends<Row> {
        let mut ends = Ends::new();
        if self.at(at) != Some(b'<') {
            return ends;
        }
        let open = [at + 1];
        for start in self.sign(&open, b">") {
            for (end, children) in self.children(start) {
                for (end, closed) in self.closing(end) {
                    let inside = within(0x31, &children);
                    ends.insert((end, Row { names_agree: inside.names_agree && closed.is_empty(), ..inside }));
                }
            }
        }
        for start in self.spaces(&open) {
            for (end, name) in self.name(start, true) {
                for (end, attributes) in self.attributes(end) {
                    let front = joined(&row(name.clone()), &attributes);
                    for end in self.sign(&self.sign(&[end], b"/"), b">") {
                        ends.insert((end, within(0x30, &front)));
                    }
                    for end in self.sign(&[end], b">") {
                        for (end, children) in self.children(end) {
                            for (end, closed) in self.closing(end) {
                                let inside = within(0x30, &joined(&front, &children));
                                ends.insert((end, Row { names_agree: inside.names_agree && closed == name, ..inside }));
                            }
                        }
                    }
                }
            }
        }
        ends
    }

    /// `<` `/` and a name or none and `>`; the name's field.
    fn closing(&self, at: usize) -> Ends<Vec<u8>> {
        let mut ends = Ends::new();
        if self.at(at) != Some(b'<') {
            return ends;
        }
        let slash = self.sign(&[at + 1], b"/");
        ends.extend(self.sign(&slash, b">").into_iter().map(|end| (end, vec![])));
        for start in self.spaces(&slash) {
            for (end, name) in self.name(start, true) {
                ends.extend(self.sign(&[end], b">").into_iter().map(|end| (end, name.clone())));
            }
        }
        ends
    }

    /// 01's 40: every length is tried, and the name is as long as it runs.
    fn identifier(&self, at: usize) -> Vec<(usize, &[u8])> {
        let mut ends = vec![];
        for end in at + 1..=self.0.len() {
            let name = &self.0[at..end];
            let is_name = begins_name(name[0]) && name.iter().all(|byte| goes_on(*byte)) && name.len() <= MOST_NAME;
            if is_name && !self.at(end).is_some_and(goes_on) {
                ends.push((end, name));
            }
        }
        ends
    }

    /// 40, 42 or, where it may, 41.
    fn name(&self, at: usize, member: bool) -> Ends<Vec<u8>> {
        let mut ends = Ends::new();
        let mut rows: BTreeSet<(usize, Vec<Vec<u8>>, u8)> = BTreeSet::new();
        for (end, part) in self.identifier(at) {
            rows.insert((end, vec![part.to_vec()], 0));
        }
        let mut all = rows.clone();
        while !rows.is_empty() {
            let mut longer = BTreeSet::new();
            for (end, parts, sign) in rows {
                for next in [b'.', b':'] {
                    if sign != 0 && sign != next {
                        continue;
                    }
                    for start in self.spaces(&self.sign(&[end], &[next])) {
                        for (end, part) in self.identifier(start) {
                            longer.insert((end, [parts.clone(), vec![part.to_vec()]].concat(), next));
                        }
                    }
                }
            }
            all.extend(longer.iter().cloned());
            rows = longer;
        }
        for (end, parts, sign) in all {
            let fields: Vec<Vec<u8>> = parts.iter().map(|part| make::field(0x40, part)).collect();
            let field = match (sign, parts.len()) {
                (0, _) => fields.concat(),
                (b':', 2) => make::row(0x42, &fields),
                (b'.', 2..=8) if member && !parts.iter().any(|part| part.contains(&b'-')) => make::row(0x41, &fields),
                _ => continue,
            };
            ends.insert((end, field));
        }
        ends
    }

    /// Attributes and spreads, any number.
    fn attributes(&self, at: usize) -> Ends<Row> {
        self.many(at, |at| {
            let mut ends = Ends::new();
            for start in self.spaces(&[at]) {
                ends.extend(self.attribute(start));
                if self.at(start) == Some(b'{') {
                    for points in self.sign(&[start + 1], b"...") {
                        ends.extend(self.in_braces(points).into_iter().map(|(end, row)| (end, within(0x53, &row))));
                    }
                }
            }
            ends
        })
    }

    fn attribute(&self, at: usize) -> Ends<Row> {
        let mut ends = Ends::new();
        for (end, name) in self.name(at, false) {
            let name = row(name);
            let equals = self.sign(&[end], b"=");
            ends.insert((end, within(0x50, &name)));
            for start in self.spaces(&equals) {
                let mut values = self.tag(start);
                values.extend(self.attribute_string(start));
                if self.at(start) == Some(b'{') {
                    values.extend(self.in_braces(start + 1).into_iter().map(|(end, row)| (end, within(0x52, &row))));
                }
                ends.extend(values.iter().map(|(end, value)| (*end, within(0x50, &joined(&name, value)))));
            }
        }
        ends
    }

    fn attribute_string(&self, at: usize) -> Ends<Row> {
        let mut ends = Ends::new();
        for end in at + 2..=self.0.len() {
            let [quote, inside @ .., last] = &self.0[at..end] else { continue };
            if is_quote(*quote)
                && last == quote
                && !inside.contains(quote)
                && let Some(inside) = decoded(inside)
            {
                ends.insert((end, row(make::field(0x51, &inside))));
            }
        }
        ends
    }

    fn children(&self, at: usize) -> Ends<Row> {
        self.many(at, |at| {
            let mut ends = self.tag(at);
            ends.extend(self.text(at));
            if self.at(at) == Some(b'{') {
                let inside = at + 1;
                ends.extend(self.in_braces(inside).into_iter().map(|(end, row)| (end, within(0x52, &row))));
                for points in self.sign(&[inside], b"...") {
                    ends.extend(self.in_braces(points).into_iter().map(|(end, row)| (end, within(0x61, &row))));
                }
                ends.extend(self.sign(&[inside], b"}").into_iter().map(|end| (end, row(make::empty_braces()))));
            }
            ends
        })
    }

    /// Every length is tried; a whole run is one 60, so no text stands behind it.
    fn text(&self, at: usize) -> Ends<Row> {
        let mut ends = Ends::new();
        for end in at + 1..=self.0.len() {
            let run = &self.0[at..end];
            if run.iter().all(|byte| is_text(*byte))
                && !self.at(end).is_some_and(is_text)
                && let Some(inside) = decoded(run)
            {
                ends.insert((end, row(make::field(0x60, &inside))));
            }
        }
        ends
    }

    /// Behind `{` or three points: one expression, white space at both ends dropped, and `}`.
    fn in_braces(&self, at: usize) -> Ends<Row> {
        let mut ends = Ends::new();
        for start in self.spaces(&[at]) {
            for (end, tag) in self.tag(start) {
                ends.extend(self.sign(&[end], b"}").into_iter().map(|end| (end, tag.clone())));
            }
            for stop in start + 1..=self.0.len() {
                let inside = &self.0[start..stop];
                let closes = self.sign(&[stop], b"}");
                if closes.is_empty() || is_space(inside[0]) || is_space(inside[inside.len() - 1]) {
                    continue;
                }
                for field in expressions(inside) {
                    ends.extend(closes.iter().map(|end| (*end, row(field.clone()))));
                }
            }
        }
        ends
    }

    /// Any number of these, one behind the other.
    fn many(&self, at: usize, one: impl Fn(usize) -> Ends<Row>) -> Ends<Row> {
        let mut ends = Ends::from([(at, row(vec![]))]);
        let mut new = ends.clone();
        while !new.is_empty() {
            let mut longer = Ends::new();
            for (end, before) in &new {
                for (end, next) in one(*end) {
                    longer.insert((end, joined(before, &next)));
                }
            }
            ends.extend(longer.iter().cloned());
            new = longer;
        }
        ends
    }
}

/// Every expression but a tag that a text is, all of it: what is known, and the rest where nothing is.
fn expressions(text: &[u8]) -> Vec<Vec<u8>> {
    let mut found = vec![];
    for (word, field) in [("true", make::boolean(true)), ("false", make::boolean(false)), ("null", make::null())] {
        found.extend((text == word.as_bytes()).then_some(field));
    }
    if let [quote, inside @ .., last] = text
        && is_quote(*quote)
        && last == quote
        && !inside.iter().any(|byte| byte == quote || *byte == b'\\' || is_line_end(*byte))
    {
        found.push(make::field(0x70, inside));
    }
    found.extend(numbers(text, 0x71, 0x7a));
    for spaces in 0..text.len() {
        if text[0] == b'-' && text[1..=spaces].iter().all(|byte| is_space(*byte)) {
            found.extend(numbers(&text[1 + spaces..], 0x75, 0x7b));
        }
    }
    if found.is_empty() && is_rest(text) {
        found.push(make::row(0x79, &[make::field(0x20, text)]));
    }
    found
}

/// A number without a needless zero in front is written as it is printed. Texts are too short for more than 128 bits.
fn canonical(text: &[u8]) -> Option<u128> {
    let value: u128 = std::str::from_utf8(text).ok()?.parse().ok()?;
    (value.to_string().as_bytes() == text).then_some(value)
}

/// Far over every limit a value stands as the greatest that eight bytes hold.
fn eight_bytes(value: u128) -> [u8; 8] {
    u64::try_from(value).unwrap_or(u64::MAX).to_be_bytes()
}

fn numbers(text: &[u8], whole: u8, decimal: u8) -> Vec<Vec<u8>> {
    let mut found: Vec<Vec<u8>> =
        canonical(text).map(|value| make::field(whole, &eight_bytes(value))).into_iter().collect();
    for point in (0..text.len()).filter(|at| text[*at] == b'.') {
        let (front, places) = (&text[..point], &text[point + 1..]);
        if canonical(front).is_some() && !places.is_empty() && places.iter().all(u8::is_ascii_digit) {
            let digits = [front, places].concat().iter().fold(0, |value, digit| 10 * value + u128::from(digit - b'0'));
            found.push(make::field(decimal, &[&eight_bytes(digits)[..], &[places.len() as u8]].concat()));
        }
    }
    found
}

fn is_rest(text: &[u8]) -> bool {
    let unsigned = text.strip_prefix(b"-").unwrap_or(text).iter();
    let mut first = unsigned.skip_while(|byte| text[0] == b'-' && is_space(**byte));
    let as_number = first.next().is_some_and(|byte| b"0123456789.".contains(byte));
    let of_number = |byte: &u8| byte.is_ascii_alphabetic() || b"._".contains(byte);
    text[0] != b'[' && !(as_number && text.iter().any(of_number)) && source_ends(text, 0).contains(&text.len())
}

/// Where source may end that begins here: signs, quoted parts, and source in braces, any number.
fn source_ends(text: &[u8], at: usize) -> BTreeSet<usize> {
    let mut ends = BTreeSet::from([at]);
    let mut new = ends.clone();
    while let Some(at) = new.pop_first() {
        let mut behind = BTreeSet::new();
        match text.get(at) {
            None | Some(b'}') => {}
            Some(b'{') => {
                let closed = source_ends(text, at + 1).into_iter().filter(|end| text.get(*end) == Some(&b'}'));
                behind.extend(closed.map(|end| end + 1));
            }
            Some(quote) if is_quote(*quote) => {
                let closes = (at + 1..text.len()).filter(|end| text[*end] == *quote);
                let inside = |end: usize| &text[at + 1..end];
                let is_plain = |byte: &u8| byte != quote && !is_line_end(*byte) && !bars_source(*byte);
                behind.extend(closes.filter(|end| inside(*end).iter().all(is_plain)).map(|end| end + 1));
            }
            Some(byte) if bars_source(*byte) => {}
            Some(_) => {
                behind.insert(at + 1);
            }
        }
        new.extend(behind.difference(&ends).copied().collect::<Vec<_>>());
        ends.extend(behind);
    }
    ends
}
