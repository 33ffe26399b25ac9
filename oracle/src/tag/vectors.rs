//! Stored answers to tag text, one call on a line: a name, the text, how many bytes are lent, the number, the bytes
//! written, the field. Words are parted by one space, bytes are small hex digits, `-` where there are none.

use super::generate::{self, TagCase};
use super::{NUMBERS, TagAnswer, marks, outcome, settle};
use crate::generate::Room;
use crate::show::hex;
use crate::vectors::unhex;

pub struct TagVector {
    pub name: String,
    pub text: Vec<u8>,
    pub lent: usize,
    pub answer: TagAnswer,
    pub field: Vec<u8>,
}

/// What lies in each lent byte before a call.
pub const BEFORE: u8 = 0x6d;

impl TagVector {
    /// Asks the judge.
    pub fn of(name: &str, case: &TagCase) -> TagVector {
        let outcome = outcome(&case.text);
        let mut lent = vec![BEFORE; case.lent(&outcome)];
        let answer = settle(&outcome, &mut lent);
        let field = lent[..answer.tag_bytes].to_vec();
        TagVector { name: name.to_string(), text: case.text.clone(), lent: lent.len(), answer, field }
    }

    pub fn line(&self) -> String {
        let bytes = |bytes: &[u8]| if bytes.is_empty() { "-".to_string() } else { hex(bytes) };
        let TagVector { name, text, lent, answer, field } = self;
        format!("{name} {} {lent} {} {} {}\n", bytes(text), answer.number, answer.tag_bytes, bytes(field))
    }

    pub fn parse(line: &str) -> Option<TagVector> {
        let [name, text, lent, number, bytes, field] = line.split(' ').collect::<Vec<_>>()[..] else { return None };
        Some(TagVector {
            name: name.to_string(),
            text: unhex(text)?,
            lent: lent.parse().ok()?,
            answer: TagAnswer { number: number.parse().ok()?, tag_bytes: bytes.parse().ok()? },
            field: unhex(field)?,
        })
    }

    /// Where a call parts from the answer, every lent byte looked at; nothing where it does not.
    pub fn difference(&self, call: impl Fn(&[u8], &mut [u8]) -> TagAnswer) -> Option<String> {
        let mut lent = vec![BEFORE; self.lent];
        let answer = call(&self.text, &mut lent);
        let mut expected = vec![if self.answer.number == 0 { BEFORE } else { 0 }; self.lent];
        expected[..self.field.len()].copy_from_slice(&self.field);
        let same = answer == self.answer && self.field.len() == self.answer.tag_bytes && lent == expected;
        (!same).then(|| format!("{}: {answer:?}, stored {:?}", self.name, self.answer))
    }
}

/// How many seeds of each number are stored, in the order of `NUMBERS`, and how long their lines may be. 2 and 11 need
/// long texts, which the marks have.
const QUOTAS: [(usize, usize); NUMBERS.len()] =
    [(300, 900), (0, 0), (60, 400), (300, 400), (100, 500), (60, 600), (20, 1500), (0, 0), (60, 500)];

/// The marks, those at the limits of length too, then seeds from 0 on until each number has its share.
pub fn sample() -> Vec<TagVector> {
    let of_mark = |mark: marks::TagMark| TagVector::of(&mark.name, &TagCase { text: mark.text, room: Room::More(2) });
    let mut sample: Vec<TagVector> = marks::all().into_iter().map(of_mark).collect();
    let mut left = QUOTAS.map(|(count, _)| count);
    for seed in 0.. {
        if left.iter().all(|count| *count == 0) {
            break;
        }
        let vector = TagVector::of(&format!("seed-{seed}"), &generate::case(seed));
        let share = NUMBERS.iter().position(|number| *number == vector.answer.number).expect("a number of the list");
        if left[share] > 0 && vector.line().len() <= QUOTAS[share].1 {
            left[share] -= 1;
            sample.push(vector);
        }
    }
    sample
}
