//! 02, A7, A8, A11, A13 and A14: what is done with templates out and page out once they are made. Each call from the
//! papers' words, and cases to hold another implementation to it. Nothing here needs the ported Rust.
//!
//! `templates` and `page` read both outs with their refusals and write them again; the calls stand on these two.

pub mod catalogue;
pub mod compare;
pub mod convert;
pub mod exhaustive;
pub mod fill;
pub mod find;
pub mod generate;
pub mod grammar;
pub mod marks;
pub mod page;
pub mod promises;
pub mod reached;
pub mod row;
pub mod shares;
pub mod shrink;
pub mod slow;
pub mod sweep;
pub mod templates;
pub mod vectors;

/// Why a call is refused. The order in which that is looked for is each call's own.
#[derive(Clone, Copy, Debug, PartialEq, Eq, PartialOrd, Ord)]
#[repr(u32)]
pub enum Refusal {
    Truncated = 3,
    Misplaced = 4,
    BadName = 5,
    NotUtf8 = 6,
    NumberTooLarge = 7,
    /// An order alone has a depth.
    TooDeep = 8,
    OutputTooLong = 11,
    TemplatesTooSmall = 12,
    /// Page out, or the HTML of a filled template.
    PageTooSmall = 13,
    /// A7 and A13: gaps, kinds and numbers that do not agree.
    Disagreeing = 17,
    /// A8: fillings that do not fit the templates.
    Unfitting = 18,
    /// A11: too many numbers, or not rising.
    NotRising = 20,
    /// A13.
    NamePresent = 21,
    NameAbsent = 22,
    CatalogueTooSmall = 23,
    /// A14.
    OverMost = 24,
    NotCovered = 25,
    BadShares = 26,
}

/// What is read, or why not.
pub type Read<T> = Result<T, Refusal>;

/// The two layouts of both outs: before A6, 80s and numbers of two bytes; since, 84s and numbers of four.
#[derive(Clone, Copy, Debug, PartialEq, Eq)]
pub enum Layout {
    Old,
    New,
}

impl Layout {
    pub fn number_bytes(self) -> usize {
        match self {
            Layout::Old => 2,
            Layout::New => 4,
        }
    }

    /// The number's last bytes, high first; all of it where it fits.
    pub fn write_number(self, out: &mut Vec<u8>, number: u32) {
        out.extend(&number.to_be_bytes()[4 - self.number_bytes()..]);
    }

    /// The number at the front of a body, and what follows; a body too short is misplaced.
    pub fn read_number(self, body: &[u8]) -> Read<(u32, &[u8])> {
        let (bytes, behind) = body.split_at_checked(self.number_bytes()).ok_or(Refusal::Misplaced)?;
        Ok((bytes.iter().fold(0, |number, byte| number << 8 | u32::from(*byte)), behind))
    }
}
