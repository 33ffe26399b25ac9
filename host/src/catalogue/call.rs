//! The library's own calls of a catalogue, on lent bytes.

use crate::refusal::Refusal;

unsafe extern "C" {
    // A slice is a pointer and a length; that of the shares is in numbers.
    fn jsx_precompile_catalogue_add(
        catalogue: *mut u8,
        catalogue_length: usize,
        name: u32,
        house: u32,
        shares: *const u32,
        shares_length: usize,
        templates: *const u8,
        templates_length: usize,
        page: *const u8,
        page_length: usize,
    ) -> CatalogueAnswer;
    fn jsx_precompile_catalogue_remove(catalogue: *mut u8, catalogue_length: usize, name: u32) -> CatalogueAnswer;
}

/// What an arrival or a leaving answers, laid out as in C. A refusal has its number and zeros.
///
/// ```
/// use jsx_precompile::{Refusal, catalogue::{CatalogueAnswer, remove_from}};
///
/// let answer = remove_from(&mut [0; 100], 5);
/// assert_eq!(answer, CatalogueAnswer { number: 22, used: 0, pages: 0 });
/// assert_eq!(answer.refusal(), Some(Refusal::NameAbsent));
/// ```
#[derive(Clone, Copy, Debug, PartialEq, Eq)]
#[repr(C)]
pub struct CatalogueAnswer {
    /// 0 where the page came or left, else that of a [`Refusal`].
    pub number: u32,
    /// The bytes that pages take after the call.
    pub used: usize,
    /// How many pages there are after the call.
    pub pages: usize,
}

impl CatalogueAnswer {
    /// Why the call was refused; none where the page came or left.
    ///
    /// ```
    /// use jsx_precompile::catalogue::{Shares, add_into};
    ///
    /// let answer = add_into(&mut [0; 14], 5, 1, &Shares::new().numbers(), &[], &[]);
    /// assert_eq!(answer.refusal(), None);
    /// ```
    ///
    /// # Panics
    ///
    /// Where the number is none that a catalogue's call answers: no call of the library does that.
    pub fn refusal(&self) -> Option<Refusal> {
        match self.number {
            0 => None,
            number => Some(Refusal::from_number(number).unwrap_or_else(|| panic!("{number} is no answer"))),
        }
    }
}

/// The library's own arrival, on lent bytes: the catalogue, the page's name and house, 32 numbers of shares (guaranteed
/// and most of house 1, of house 2, and so on), its templates and its page out, as the transform writes them.
///
/// Taken: the page stands behind the others, its numbers behind theirs. Refused: the catalogue is as it was. Half a
/// megabyte of stack is enough (tests/catalogue.rs).
///
/// ```
/// use jsx_precompile::catalogue::{CatalogueAnswer, Shares, add_into};
///
/// let mut catalogue = [0; 20];
/// let shares = Shares::new().numbers();
/// let answer = add_into(&mut catalogue, 5, 2, &shares, &[], b"\x13\0\0");
/// assert_eq!(answer, CatalogueAnswer { number: 0, used: 17, pages: 1 });
/// assert_eq!(catalogue, *b"\x97\0\0\0\x05\x02\0\0\0\0\0\0\0\x03\x13\0\0\0\0\0");
/// assert_eq!(add_into(&mut catalogue, 5, 2, &shares, &[], &[]).number, 21);
/// assert_eq!(add_into(&mut catalogue, 6, 2, &shares, &[], &[]).number, 25);
/// ```
pub fn add_into(
    catalogue: &mut [u8],
    name: u32,
    house: u32,
    shares: &[u32],
    templates: &[u8],
    page: &[u8],
) -> CatalogueAnswer {
    // Safety: the four parts do not overlap, by their types. The function is proved to read them and to write the first
    // within their lengths, at every input, and keeps none of them.
    unsafe {
        jsx_precompile_catalogue_add(
            catalogue.as_mut_ptr(),
            catalogue.len(),
            name,
            house,
            shares.as_ptr(),
            shares.len(),
            templates.as_ptr(),
            templates.len(),
            page.as_ptr(),
            page.len(),
        )
    }
}

/// The library's own leaving, on lent bytes: the catalogue, and the name of the page.
///
/// Taken: later pages have closed up, and their numbers with them. Refused: the catalogue is as it was. Half a megabyte of
/// stack is enough (tests/catalogue.rs).
///
/// ```
/// use jsx_precompile::catalogue::{CatalogueAnswer, remove_from};
///
/// let mut catalogue = *b"\x97\0\0\0\x05\x02\0\0\0\0\0\0\0\x03\x13\0\0\0\0\0";
/// assert_eq!(remove_from(&mut catalogue, 5), CatalogueAnswer { number: 0, used: 0, pages: 0 });
/// assert_eq!(catalogue, [0; 20]);
/// ```
pub fn remove_from(catalogue: &mut [u8], name: u32) -> CatalogueAnswer {
    // Safety: the function is proved to read and write the catalogue within its length, at every input, and does not keep
    // it.
    unsafe { jsx_precompile_catalogue_remove(catalogue.as_mut_ptr(), catalogue.len(), name) }
}
