//! 02, A3: tag text into one field 30 or 31, from A3's words. The judge's own reader, a slow one that tries every
//! production, and texts to hold another reader to it. Nothing here needs the ported Rust.

pub mod braces;
pub mod compare;
pub mod exhaustive;
pub mod generate;
pub mod marks;
pub mod read;
pub mod signs;
pub mod slow;
pub mod sweep;
pub mod vectors;
pub mod write;

use crate::answer::{MOST_DEPTH, MOST_PAGE};

/// Why a text is refused, in the order in which that is looked for.
#[derive(Clone, Copy, Debug, PartialEq, Eq)]
#[repr(u32)]
pub enum TagRefusal {
    InputTooLong = 2,
    NotUtf8 = 6,
    /// No reading.
    NoReading = 14,
    /// It would be read if closing names were not compared.
    NamesDiffer = 15,
    NumberTooLarge = 7,
    TooDeep = 8,
    OutputTooLong = 11,
    TagTooSmall = 13,
}

/// The numbers of an answer: taken, and the refusals in their order.
pub const NUMBERS: [u32; 9] = [0, 2, 6, 14, 15, 7, 8, 11, 13];

/// The longest text, as long as the longest page.
pub const MOST_TEXT: usize = MOST_PAGE;

/// A page and an item lie around a tag.
pub const TAG_DEPTH: usize = 3;

/// What a call answers; laid out as hosts see it over the C convention. A refusal has its number and a zero.
#[derive(Clone, Copy, Debug, PartialEq, Eq)]
#[repr(C)]
pub struct TagAnswer {
    pub number: u32,
    pub tag_bytes: usize,
}

/// What a text gives before any lent byte is looked at: a refusal but 13, or the field.
pub type Outcome = Result<Vec<u8>, TagRefusal>;

pub fn outcome(text: &[u8]) -> Outcome {
    if text.len() > MOST_TEXT {
        return Err(TagRefusal::InputTooLong);
    }
    if std::str::from_utf8(text).is_err() {
        return Err(TagRefusal::NotUtf8);
    }
    let reading = read::read(text).ok_or(TagRefusal::NoReading)?;
    if reading.names_differ {
        Err(TagRefusal::NamesDiffer)
    } else if reading.number_too_large {
        Err(TagRefusal::NumberTooLarge)
    } else if reading.depth > MOST_DEPTH {
        Err(TagRefusal::TooDeep)
    } else if reading.body_too_long {
        Err(TagRefusal::OutputTooLong)
    } else {
        Ok(reading.field)
    }
}

/// The answer to a call, and what becomes of the lent bytes.
pub fn judge(text: &[u8], tag_out: &mut [u8]) -> TagAnswer {
    settle(&outcome(text), tag_out)
}

/// Taken: bytes behind the field stay. Refused: all lent bytes are zero.
pub fn settle(outcome: &Outcome, tag_out: &mut [u8]) -> TagAnswer {
    let refusal = match outcome {
        Ok(field) if field.len() <= tag_out.len() => {
            tag_out[..field.len()].copy_from_slice(field);
            return TagAnswer { number: 0, tag_bytes: field.len() };
        }
        Ok(_) => TagRefusal::TagTooSmall,
        Err(refusal) => *refusal,
    };
    tag_out.fill(0);
    TagAnswer { number: refusal as u32, tag_bytes: 0 }
}
