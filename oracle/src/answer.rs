//! 01, Limits and the answer: the table of numbers, and what an answer holds.

/// Why a call is refused. The comment gives 01's word.
#[derive(Clone, Copy, Debug, PartialEq, Eq, PartialOrd, Ord)]
#[repr(u32)]
pub enum Refusal {
    /// short desk
    ScratchTooSmall = 1,
    /// thick
    InputTooLong = 2,
    /// torn
    Truncated = 3,
    /// misplaced
    Misplaced = 4,
    /// bad name
    BadName = 5,
    /// bad letters
    NotUtf8 = 6,
    /// big number
    NumberTooLarge = 7,
    /// too deep
    TooDeep = 8,
    /// bare tag
    TagLeft = 10,
    /// long
    OutputTooLong = 11,
    /// small shelf
    TemplatesTooSmall = 12,
    /// small page
    PageTooSmall = 13,
    /// 02, A4: a serialized element with one attribute twice; given behind 10 and before 11
    RepeatedAttribute = 16,
    /// 02, A10: a serialized element that is void only once its name is in small letters; given behind 16 and before 11
    MixedCaseVoid = 19,
}

/// 0, taken, and the refusals: how many numbers there are, those that no transform gives counted.
pub const NUMBERS: usize = 20;

/// 9, unfinished, was given where the Rust stops; since 02's A1 it never is. 14, 15, 17 and 18 are those of
/// other calls.
pub const NOT_GIVEN: [usize; 5] = [9, 14, 15, 17, 18];

pub const MOST_PAGE: usize = 32_768;
pub const MOST_OPTIONS: usize = 4_096;
pub const MOST_DEPTH: usize = 48;
pub const LEAST_SCRATCH: usize = 65_536;
pub const MOST_BODY: usize = 65_535;
pub const MOST_NAME: usize = 128;
pub const MOST_NUMBER: u64 = 9_007_199_254_740_991;

/// What a call answers; laid out as hosts see it over the C convention.
#[derive(Clone, Copy, Debug, PartialEq, Eq)]
#[repr(C)]
pub struct Answer {
    pub number: u32,
    pub templates_bytes: usize,
    pub page_bytes: usize,
    pub templates: usize,
}

impl Answer {
    /// A refusal has its number and zeros.
    pub fn refused(refusal: Refusal) -> Self {
        Answer { number: refusal as u32, templates_bytes: 0, page_bytes: 0, templates: 0 }
    }
}
