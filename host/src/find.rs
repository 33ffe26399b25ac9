//! The places of templates by their numbers: up to 256 of them in one walk. Document 02, A11.

use crate::limits::MAX_NUMBERS;
use crate::refusal::Refusal;

unsafe extern "C" {
    // A slice is a pointer and a length, here in numbers.
    fn jsx_precompile_find(
        templates: *const u8,
        templates_length: usize,
        numbers: *const u32,
        numbers_length: usize,
    ) -> FindAnswer;
}

/// What a lookup answers, laid out as in C. A refusal has its number, a zero, and no place.
///
/// ```
/// use jsx_precompile::{FindAnswer, Refusal, find_answer};
///
/// let answer = find_answer(&[], &[7, 7]);
/// assert_eq!((answer.number, answer.records), (20, 0));
/// assert_eq!(answer.refusal(), Some(Refusal::NotRising));
/// assert!(answer.places.iter().all(|place| *place == FindAnswer::ABSENT));
/// ```
#[derive(Clone, Copy, Debug, PartialEq, Eq)]
#[repr(C)]
pub struct FindAnswer {
    /// 0 where the numbers were looked up, else that of a [`Refusal`].
    pub number: u32,
    /// How many templates were read: up to the last one found, all where a number is absent, none where none was named.
    pub records: usize,
    /// The place of each number, in the order of the numbers; behind them, and for what is not there,
    /// [`ABSENT`](FindAnswer::ABSENT).
    pub places: [usize; MAX_NUMBERS],
}

impl FindAnswer {
    /// The place of a template that is not there: all bits set.
    ///
    /// ```
    /// assert_eq!(jsx_precompile::find_answer(&[], &[1]).places[0], jsx_precompile::FindAnswer::ABSENT);
    /// ```
    pub const ABSENT: usize = usize::MAX;

    /// Why the call was refused; none where the numbers were looked up.
    ///
    /// ```
    /// assert_eq!(jsx_precompile::find_answer(&[], &[1, 2]).refusal(), None);
    /// ```
    ///
    /// # Panics
    ///
    /// Where the number is none that a lookup answers: no call of the library does that.
    pub fn refusal(&self) -> Option<Refusal> {
        match self.number {
            0 => None,
            number => Some(Refusal::from_number(number).unwrap_or_else(|| panic!("{number} is no answer"))),
        }
    }
}

/// The library's own call: the templates as bytes, and the numbers. Nothing is written.
///
/// ```
/// use jsx_precompile::{FindAnswer, find_answer};
///
/// // Two templates without a text, 2 and 1.
/// let templates = b"\x84\0\x09\0\0\0\x02\0\0\x81\0\0\x84\0\x09\0\0\0\x01\0\0\x81\0\0";
/// let answer = find_answer(templates, &[1, 2]);
/// assert_eq!((answer.number, answer.records), (0, 2));
/// assert_eq!(answer.places[..3], [12, 0, FindAnswer::ABSENT]);
/// ```
pub fn find_answer(templates: &[u8], numbers: &[u32]) -> FindAnswer {
    // Safety: the function is proved to read both within their lengths, at every input, and keeps neither of them.
    unsafe { jsx_precompile_find(templates.as_ptr(), templates.len(), numbers.as_ptr(), numbers.len()) }
}

/// Where templates stand, as [`find`] gives it.
///
/// ```
/// use jsx_precompile::{Places, find};
///
/// let places: Places = find(&[], &[1, 5])?;
/// assert_eq!((places.places(), places.records()), (&[None, None][..], 0));
/// # Ok::<(), jsx_precompile::Refusal>(())
/// ```
#[derive(Clone, Debug, PartialEq, Eq)]
pub struct Places {
    places: Vec<Option<usize>>,
    records: usize,
}

impl Places {
    /// Of each number, in the order of the numbers, where the first template with it begins, that is the byte of its tag;
    /// none where there is no such template.
    ///
    /// ```
    /// let templates = b"\x84\0\x09\0\0\0\x02\0\0\x81\0\0\x84\0\x09\0\0\0\x01\0\0\x81\0\0";
    /// assert_eq!(jsx_precompile::find(templates, &[1, 2, 9])?.places(), [Some(12), Some(0), None]);
    /// # Ok::<(), jsx_precompile::Refusal>(())
    /// ```
    pub fn places(&self) -> &[Option<usize>] {
        &self.places
    }

    /// How many templates were read: up to the last one found, all where a number is absent, none where none was named.
    ///
    /// ```
    /// use jsx_precompile::find;
    ///
    /// let templates = b"\x84\0\x09\0\0\0\x02\0\0\x81\0\0\x84\0\x09\0\0\0\x01\0\0\x81\0\0";
    /// assert_eq!([find(templates, &[])?, find(templates, &[2])?, find(templates, &[9])?].map(|p| p.records()), [0, 1, 2]);
    /// # Ok::<(), jsx_precompile::Refusal>(())
    /// ```
    pub fn records(&self) -> usize {
        self.records
    }
}

/// Looks up to 256 numbers up in one walk over templates out. The numbers rise, none stands twice.
///
/// ```
/// use jsx_precompile::{Options, Refusal, find, out::Templates, page::{Element, Item, Page}, transform};
///
/// // <div><Foo><i/></Foo></div>: the inner template is recorded first
/// let tag = Element::new("div").child(Element::new("Foo").child(Element::new("i")));
/// let forms = transform(&Page::new([Item::statement([tag.into()])]).to_bytes()?, &Options::new())?;
/// let templates = forms.templates_bytes();
///
/// let found = find(templates, &[1, 2, 3])?;
/// let [Some(outer), Some(inner), None] = found.places()[..] else { panic!() };
/// assert!(inner < outer);
/// // All templates from there on; the first is the one that was asked for.
/// let template = Templates::read(&templates[inner..])?.next().unwrap();
/// assert_eq!((template.number(), template.strings().next()), (2, Some("<i></i>")));
///
/// assert_eq!(find(templates, &[2, 1]), Err(Refusal::NotRising));
/// assert_eq!(find(&templates[1..], &[1]), Err(Refusal::Truncated));
/// # Ok::<(), Box<dyn std::error::Error>>(())
/// ```
///
/// # Errors
///
/// [`Refusal::Truncated`], [`Refusal::Misplaced`] or [`Refusal::NotUtf8`] where the bytes are no templates of 84s;
/// [`Templates::read`](crate::out::Templates::read) says where. Then [`Refusal::NotRising`].
pub fn find(templates: &[u8], numbers: &[u32]) -> Result<Places, Refusal> {
    let answer = find_answer(templates, numbers);
    match answer.refusal() {
        Some(refusal) => Err(refusal),
        None => {
            let place = |place: &usize| Some(*place).filter(|place| *place != FindAnswer::ABSENT);
            let places = answer.places.iter().take(numbers.len()).map(place).collect();
            Ok(Places { places, records: answer.records })
        }
    }
}
