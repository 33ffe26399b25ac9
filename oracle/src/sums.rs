//! 02, A12: sums in braces. What a source text comes to, written from A12's words, and the page that the Rust is given.
//!
//! Two stacks and no recursion: a page has room for more than sixteen thousand brackets within each other.

use crate::answer::MOST_NUMBER;
use crate::field::{self, Node};

/// The option under which sums are worked out; empty.
pub const OPTION: u8 = 0x05;

const MOST: i128 = MOST_NUMBER as i128;

/// Why a 79 of one source piece stays as it is.
#[derive(Clone, Copy, Debug, PartialEq, Eq)]
pub enum Stays {
    /// Its text is none of whole numbers, spaces, `+`, `-` and `*` between two operands, and round brackets.
    NoSum,
    /// A number is over the bound.
    LargeNumber,
    /// A step passes the bound, either way.
    LargeStep,
    /// Zero and a negative are multiplied.
    MinusZero,
}

/// What the text comes to. Every number of a sum is held to the bound, and every step; of several reasons to stay the
/// first in the order of the steps is told.
pub fn work(source: &[u8]) -> Result<i128, Stays> {
    let mut steps = Steps::default();
    let mut rest = source;
    // Whether an operand must stand here, else an operator or a closing bracket.
    let mut operand = true;
    while let [first, behind @ ..] = rest {
        let mut length = 1;
        match (first, operand) {
            (b' ', _) => {}
            (b'0'..=b'9', true) => {
                length = rest.iter().take_while(|c| c.is_ascii_digit()).count();
                steps.operands.push(number(&rest[..length])?);
                operand = false;
            }
            (b'(', true) => steps.open.push(b'('),
            (b'+' | b'-' | b'*', false) => {
                steps.until(precedence(*first));
                steps.open.push(*first);
                operand = true;
            }
            (b')', false) => {
                steps.until(1);
                // No bracket is open.
                steps.open.pop().ok_or(Stays::NoSum)?;
            }
            _ => return Err(Stays::NoSum),
        }
        rest = &behind[length - 1..];
    }
    if operand {
        return Err(Stays::NoSum);
    }
    steps.until(1);
    match (&steps.open[..], &steps.operands[..]) {
        ([], [one]) => *one,
        _ => Err(Stays::NoSum),
    }
}

/// What an operand comes to, or why the whole stays. The text behind it may still show that it is no sum.
type Operand = Result<i128, Stays>;

/// A run of digits of any length; a needless zero in front makes no sum.
fn number(digits: &[u8]) -> Result<Operand, Stays> {
    match digits {
        [b'0', _, ..] => Err(Stays::NoSum),
        // The bound has sixteen digits.
        _ if digits.len() > 16 => Ok(Err(Stays::LargeNumber)),
        _ => {
            let value = digits.iter().fold(0, |value, digit| 10 * value + i128::from(digit - b'0'));
            Ok(if value > MOST { Err(Stays::LargeNumber) } else { Ok(value) })
        }
    }
}

/// 0 for a bracket, which only its own closing ends.
fn precedence(sign: u8) -> u8 {
    match sign {
        b'*' => 2,
        b'+' | b'-' => 1,
        _ => 0,
    }
}

#[derive(Default)]
struct Steps {
    operands: Vec<Operand>,
    /// Operators that wait for their second operand, and brackets.
    open: Vec<u8>,
}

impl Steps {
    /// Takes the last steps that wait, as long as they bind at least so strongly: left first among equals.
    fn until(&mut self, least: u8) {
        while let Some(sign) = self.open.pop_if(|sign| precedence(*sign) >= least) {
            let right = self.operands.pop().expect("a second operand stands behind each operator");
            let left = self.operands.pop().expect("a first operand stands before each operator");
            self.operands.push(left.and_then(|left| step(sign, left, right?)));
        }
    }
}

/// Both operands are within the bound, so nothing here passes 128 bits.
fn step(sign: u8, left: i128, right: i128) -> Operand {
    let value = match sign {
        b'+' => left + right,
        b'-' => left - right,
        _ if left == 0 && right < 0 || left < 0 && right == 0 => return Err(Stays::MinusZero),
        _ => left * right,
    };
    if (-MOST..=MOST).contains(&value) { Ok(value) } else { Err(Stays::LargeStep) }
}

/// The source of a 79 that is one piece of it.
pub fn source_of(node: &Node) -> Option<&[u8]> {
    match &node.inner[..] {
        [piece] if node.tag == 0x79 && piece.tag == 0x20 => Some(&piece.bytes),
        _ => None,
    }
}

/// Whether these options, which were read, ask for it.
pub fn asked(options: &[u8]) -> bool {
    field::read(options).is_some_and(|row| row.iter().any(|option| option.tag == OPTION))
}

/// The page, which was read, with a 71 or 75 in place of each sum, wherever it stands. It may be longer than a page may
/// be, and is at most as deep.
pub fn worked(page: &[u8]) -> Vec<u8> {
    let mut row = field::read(page).expect("a page is a row of fields");
    row.iter_mut().for_each(work_out);
    field::write(&row)
}

fn work_out(node: &mut Node) {
    match source_of(node).map(work) {
        Some(Ok(value)) => {
            let tag = if value < 0 { 0x75 } else { 0x71 };
            let digits = u64::try_from(value.unsigned_abs()).expect("within the bound");
            *node = Node::leaf(tag, digits.to_be_bytes());
        }
        _ => node.inner.iter_mut().for_each(work_out),
    }
}

/// The page that the Rust is given under these options: both were read.
pub fn given(page: &[u8], options: &[u8]) -> Vec<u8> {
    if asked(options) { worked(page) } else { page.to_vec() }
}
