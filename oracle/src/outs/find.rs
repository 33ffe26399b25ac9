//! 02, A11: the places of up to 256 templates.

use super::row::{ensure, first};
use super::{Layout, Read, Refusal, templates};

pub const MOST_NUMBERS: usize = 256;

/// All bits set.
pub const ABSENT: usize = usize::MAX;

/// What a call answers; laid out as hosts see it over the C convention. A refusal answers all absent and zero.
#[derive(Clone, Copy, Debug, PartialEq, Eq)]
#[repr(C)]
pub struct Places {
    pub number: u32,
    pub records: usize,
    pub places: [usize; MOST_NUMBERS],
}

/// `jsx_precompile_find`.
pub fn find(templates: &[u8], numbers: &[u32]) -> Places {
    match outcome(templates, numbers) {
        Ok((records, found)) => {
            let mut places = [ABSENT; MOST_NUMBERS];
            places[..found.len()].copy_from_slice(&found);
            Places { number: 0, records, places }
        }
        Err(refusal) => Places { number: refusal as u32, records: 0, places: [ABSENT; MOST_NUMBERS] },
    }
}

/// How many records are read, and the place of each number; 3, 4 and 6 for the templates, then 20.
pub fn outcome(bytes: &[u8], numbers: &[u32]) -> Read<(usize, Vec<usize>)> {
    let templates = templates::read(bytes, Layout::New)?;
    ensure(numbers.len() <= MOST_NUMBERS, Refusal::NotRising)?;
    ensure(numbers.is_sorted_by(|one, next| one < next), Refusal::NotRising)?;
    let starts = starts(bytes);
    let first_with = |number: &u32| templates.iter().position(|template| template.number == *number);
    let found: Vec<Option<usize>> = numbers.iter().map(first_with).collect();
    // Positions count from 1; where one is absent, all records were read.
    let records = found.iter().map(|at| at.map_or(templates.len(), |at| at + 1)).max().unwrap_or(0);
    Ok((records, found.iter().map(|at| at.map_or(ABSENT, |at| starts[at])).collect()))
}

/// Where the tags of a row stand.
fn starts(bytes: &[u8]) -> Vec<usize> {
    let mut starts = vec![];
    let mut rest = bytes;
    while let Ok((_, _, behind)) = first(rest) {
        starts.push(bytes.len() - rest.len());
        rest = behind;
    }
    starts
}
