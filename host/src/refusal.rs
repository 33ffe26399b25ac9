//! Why a call is refused.

use std::fmt;

/// Why a call is refused; document 01's number and word are given by [`number`](Refusal::number) and
/// [`word`](Refusal::word). 9 is reserved: it was given where the ported Rust stops, and no page is refused there now.
/// The order is that of the numbers; a transform is refused for the first in this order: 1 to 10, 16, 19, 11, 12, 13. 17
/// is a conversion's, after 3 to 7 and before 11, and a catalogue's, 18 a filling's, after 3, 4, 6 and 8 and before 13, and
/// 20 a lookup's, after 3, 4 and 6. A catalogue's arrival is refused as 4 for the catalogue, then 3 to 7 and 17 for the page,
/// 26, 21, 24, 25, a leaving as 4 and 22. 23 is document 02's for a page that does not fit before there were shares, and is
/// not given.
///
/// ```
/// use jsx_precompile::{Options, Refusal, transform};
///
/// let refusal = transform(b"", &Options::new()).unwrap_err().refusal;
/// assert_eq!(refusal, Refusal::Truncated);
/// assert!(refusal.to_string().starts_with("3 (torn): "));
/// ```
#[derive(Clone, Copy, Debug, PartialEq, Eq, PartialOrd, Ord, Hash)]
#[repr(u32)]
pub enum Refusal {
    /// Short desk: fewer than 65,536 bytes of scratch were lent.
    ScratchTooSmall = 1,
    /// Thick: page or options are over their limit.
    InputTooLong = 2,
    /// Torn: a field is cut short, or bytes follow the page.
    Truncated = 3,
    /// Misplaced: a field stands where it may not, is missing, or has a body of a wrong form.
    Misplaced = 4,
    /// Bad name: an identifier is none.
    BadName = 5,
    /// Bad letters: a text is not UTF-8.
    NotUtf8 = 6,
    /// Big number: over 9,007,199,254,740,991; of a decimal, digits over 999,999,999,999,999 or over 15 places.
    NumberTooLarge = 7,
    /// Too deep: fields lie more than 48 deep.
    TooDeep = 8,
    /// Bare tag: an element or fragment would be left in the result.
    TagLeft = 10,
    /// Long: a merged run or an output body is over 65,535 bytes.
    OutputTooLong = 11,
    /// Small shelf: the templates do not fit the bytes lent for them.
    TemplatesTooSmall = 12,
    /// Small page: page out does not fit the bytes lent for it; of a filling, the HTML does not.
    PageTooSmall = 13,
    /// Document 02, A4: an element that becomes HTML has two attributes of one name, which a browser would take the first
    /// of.
    RepeatedAttribute = 16,
    /// Document 02, A7: a gap is neither in an opening tag behind a space nor outside of tags, or its kind is not the one
    /// that it has by its place, or, on the way down, a number is over 65,535. A13: the numbers of an arriving page are not 1
    /// up to their count, each recorded once and called once.
    Disagreeing = 17,
    /// Document 02, A8: fillings do not fit their templates: another count of them, or one of another kind than its gap;
    /// the number of a template that is not there, or is recorded twice; an attribute text with `<` or `>`.
    Unfitting = 18,
    /// Document 02, A10: an element that becomes HTML has the name of a void element, such as `br`, but with capitals in
    /// it: it would be closed, and HTML, which compares names in any case, does not close it.
    MixedCaseVoid = 19,
    /// Document 02, A11: more than 256 numbers are looked up, or they do not rise.
    NotRising = 20,
    /// Document 02, A13: a page of that name is in the catalogue.
    NamePresent = 21,
    /// Document 02, A13: no page of that name is in the catalogue.
    NameAbsent = 22,
    /// Document 02, A14: with the page its house would have more of the catalogue than its most.
    OverMost = 24,
    /// Document 02, A14: what is free does not hold the page and the unused guarantees of the other houses.
    NotCovered = 25,
    /// Document 02, A14: a house outside 1 to 16, shares of another count than 32, a guarantee above its most, or guarantees
    /// that add up to more than the catalogue.
    BadShares = 26,
}

use Refusal::*;

/// In the order of their numbers.
const ALL: [Refusal; 22] = [
    ScratchTooSmall,
    InputTooLong,
    Truncated,
    Misplaced,
    BadName,
    NotUtf8,
    NumberTooLarge,
    TooDeep,
    TagLeft,
    OutputTooLong,
    TemplatesTooSmall,
    PageTooSmall,
    RepeatedAttribute,
    Disagreeing,
    Unfitting,
    MixedCaseVoid,
    NotRising,
    NamePresent,
    NameAbsent,
    OverMost,
    NotCovered,
    BadShares,
];

impl Refusal {
    /// The refusal of that number; none for 0, for 9, which is reserved, and for what is no number of the table.
    ///
    /// ```
    /// use jsx_precompile::Refusal;
    ///
    /// assert_eq!(Refusal::from_number(5), Some(Refusal::BadName));
    /// for number in [0, 9, 14] {
    ///     assert_eq!(Refusal::from_number(number), None);
    /// }
    /// ```
    pub fn from_number(number: u32) -> Option<Refusal> {
        ALL.into_iter().find(|refusal| refusal.number() == number)
    }

    /// The number of document 01, 1 to 13 without 9, or of document 02, 16 to 26 without 23.
    ///
    /// ```
    /// assert_eq!(jsx_precompile::Refusal::TooDeep.number(), 8);
    /// ```
    pub fn number(self) -> u32 {
        self as u32
    }

    /// Document 01's word; what document 02 adds has one in the same manner.
    ///
    /// ```
    /// assert_eq!(jsx_precompile::Refusal::TagLeft.word(), "bare tag");
    /// ```
    pub fn word(self) -> &'static str {
        match self {
            ScratchTooSmall => "short desk",
            InputTooLong => "thick",
            Truncated => "torn",
            Misplaced => "misplaced",
            BadName => "bad name",
            NotUtf8 => "bad letters",
            NumberTooLarge => "big number",
            TooDeep => "too deep",
            TagLeft => "bare tag",
            OutputTooLong => "long",
            TemplatesTooSmall => "small shelf",
            PageTooSmall => "small page",
            RepeatedAttribute => "attribute twice",
            Disagreeing => "disagreeing",
            Unfitting => "unfitting",
            MixedCaseVoid => "mixed case",
            NotRising => "not rising",
            NamePresent => "name present",
            NameAbsent => "name absent",
            OverMost => "over the most",
            NotCovered => "not covered",
            BadShares => "bad shares",
        }
    }

    /// What went wrong, in plain words.
    ///
    /// ```
    /// assert_eq!(jsx_precompile::Refusal::NotUtf8.explanation(), "a text is not UTF-8");
    /// ```
    pub fn explanation(self) -> &'static str {
        match self {
            ScratchTooSmall => "fewer than 65,536 bytes of scratch were lent",
            InputTooLong => "the page is over 32,768 bytes, or the options are over 4,096",
            Truncated => {
                "the page is empty, or a field is cut short or runs past the end of what holds it, or bytes follow the page"
            }
            Misplaced => "a field stands where it may not, is missing, or has a body of a wrong form",
            BadName => {
                "an identifier is not 1 to 128 ASCII letters, digits, `_`, `$` and `-` that begin with no digit or `-`, or has a `-` in a member"
            }
            NotUtf8 => "a text is not UTF-8",
            NumberTooLarge => {
                "a number is over 9,007,199,254,740,991, or the digits of a decimal over 999,999,999,999,999 or its places over 15"
            }
            TooDeep => "fields lie more than 48 deep within each other",
            TagLeft => "an element or fragment would be left untransformed",
            OutputTooLong => "a merged run of text, or a body of the outputs, is over 65,535 bytes",
            TemplatesTooSmall => "the templates do not fit the bytes lent for them",
            PageTooSmall => "page out, or the HTML, does not fit the bytes lent for it",
            RepeatedAttribute => "an element that becomes HTML has one attribute twice, as `class` and `className` are",
            Disagreeing => {
                "a gap is neither an attribute's nor a child, or of another kind than its template says, or a number is over 65,535, or in a catalogue's page not recorded once and called once"
            }
            Unfitting => {
                "fillings do not fit their templates: in number or kind, by the number of a template that is not there once, or by a `<` or `>` in an attribute text"
            }
            MixedCaseVoid => "the name of a void element is not in small letters",
            NotRising => "over 256 numbers are looked up, or one is not greater than the one before it",
            NamePresent => "a page of that name is in the catalogue",
            NameAbsent => "no page of that name is in the catalogue",
            OverMost => "the page's house would have more than its most",
            NotCovered => "what is free does not hold the page and the unused guarantees of the other houses",
            BadShares => {
                "the house is not 1 to 16, or a guarantee is above its most, or all together are more than the catalogue"
            }
        }
    }
}

impl fmt::Display for Refusal {
    fn fmt(&self, f: &mut fmt::Formatter<'_>) -> fmt::Result {
        write!(f, "{} ({}): {}", self.number(), self.word(), self.explanation())
    }
}

impl std::error::Error for Refusal {}

#[cfg(test)]
mod tests {
    use super::*;

    #[test]
    fn each_number_that_is_given_is_a_refusal() {
        let numbers: Vec<u32> = (0..=100).filter(|number| Refusal::from_number(*number).is_some()).collect();
        assert_eq!(numbers, [1, 2, 3, 4, 5, 6, 7, 8, 10, 11, 12, 13, 16, 17, 18, 19, 20, 21, 22, 24, 25, 26]);
        assert_eq!(ALL.map(Refusal::number)[..], numbers);
    }
}
