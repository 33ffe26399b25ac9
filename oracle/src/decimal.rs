//! 02, A2: a decimal (7A, and 7B with a minus over it) is digits over a power of ten. How it is read and bounded, the
//! number that the Rust is given for it, and A2's own writing, made from A2's words and not from how the Rust prints.

use crate::answer::Refusal;
use crate::field;
use crate::stand_ins::swc_common::DUMMY_SP;
use crate::stand_ins::swc_ecma_ast::Number;

pub const DECIMAL: u8 = 0x7a;
pub const MINUS_DECIMAL: u8 = 0x7b;

pub const MOST_DIGITS: u64 = 999_999_999_999_999;
pub const MOST_PLACES: u8 = 15;

/// Eight bytes of digits and one of places.
pub const BYTES: usize = 9;

pub fn is_decimal(tag: u8) -> bool {
    matches!(tag, DECIMAL | MINUS_DECIMAL)
}

/// The bodies of all 7A and 7B in a row of fields, front to back.
pub fn bodies(bytes: &[u8]) -> Vec<Vec<u8>> {
    let mut bodies = vec![];
    for node in &field::read(bytes).unwrap_or_default() {
        node.each(&mut |node| bodies.extend(is_decimal(node.tag).then(|| node.bytes.clone())));
    }
    bodies
}

/// `digits` with the point `places` before their end.
#[derive(Clone, Copy, Debug, PartialEq, Eq)]
pub struct Decimal {
    pub digits: u64,
    pub places: u8,
}

impl Decimal {
    /// The body of a 7A or 7B: another length is misplaced, and only then digits or places may be over their bound.
    pub fn read(body: &[u8]) -> Result<Decimal, Refusal> {
        let body: [u8; BYTES] = body.try_into().map_err(|_| Refusal::Misplaced)?;
        let [digits @ .., places] = body;
        let digits = u64::from_be_bytes(digits);
        if digits > MOST_DIGITS || places > MOST_PLACES {
            return Err(Refusal::NumberTooLarge);
        }
        Ok(Decimal { digits, places })
    }

    pub fn bytes(self) -> [u8; BYTES] {
        let mut bytes = [self.places; BYTES];
        bytes[..8].copy_from_slice(&self.digits.to_be_bytes());
        bytes
    }

    /// A2's writing: no trailing zeros, no bare point, a 0 before the point where needed; zero is `0`.
    pub fn written(self) -> String {
        let text = self.with_all_places();
        if !text.contains('.') {
            return text;
        }
        let text = text.trim_end_matches('0');
        text.strip_suffix('.').unwrap_or(text).to_string()
    }

    /// The places as they came, zeros at the end too: digits and places can be told from it.
    pub fn with_all_places(self) -> String {
        let places = usize::from(self.places);
        let digits = format!("{:0least$}", self.digits, least = places + 1);
        let (whole, fraction) = digits.split_at(digits.len() - places);
        if places == 0 { whole.to_string() } else { format!("{whole}.{fraction}") }
    }

    /// A third spelling, which JavaScript has too. It shares nothing with A2's writing.
    fn with_exponent(self) -> String {
        format!("{}e-{}", self.digits, self.places)
    }

    /// The `f64` nearest to the decimal.
    pub fn nearest(self) -> f64 {
        self.with_exponent().parse().expect("digits and an exponent are a number")
    }

    /// What the Rust is given: the nearest number, and a spelling that it hands on without reading it. By that the
    /// decimal is found again in what comes out; a whole number has none.
    pub fn literal(self) -> Number {
        Number { span: DUMMY_SP, value: self.nearest(), raw: Some(self.with_exponent().into()) }
    }

    /// The decimal that the literal was made of; none where it was a whole number.
    pub fn of(literal: &Number) -> Option<Decimal> {
        let (digits, places) = literal.raw.as_ref()?.split_once("e-").expect("a decimal's spelling");
        let number = "a number in a decimal's spelling";
        Some(Decimal { digits: digits.parse().expect(number), places: places.parse().expect(number) })
    }
}
