//! The library's reader of tag text, and a safe call of it.

use super::TagRefusal;

unsafe extern "C" {
    // A slice is a pointer and a length.
    fn jsx_precompile_read_tag(
        text: *const u8,
        text_length: usize,
        tag_out: *mut u8,
        tag_out_length: usize,
    ) -> TagAnswer;
}

/// What a call of the reader answers, laid out as in C. A refusal has its number and a zero.
///
/// ```
/// use jsx_precompile::{TagAnswer, TagRefusal, read_tag_into};
///
/// let answer = read_tag_into(b"<a></b>", &mut [0; 9]);
/// assert_eq!(answer, TagAnswer { number: 15, tag_bytes: 0 });
/// assert_eq!(answer.refusal(), Some(TagRefusal::NamesDiffer));
/// ```
#[derive(Clone, Copy, Debug, PartialEq, Eq)]
#[repr(C)]
pub struct TagAnswer {
    /// 0 where the text was read, else that of a [`TagRefusal`].
    pub number: u32,
    /// The bytes written to tag out.
    pub tag_bytes: usize,
}

impl TagAnswer {
    /// Why the call was refused; none where the text was read.
    ///
    /// ```
    /// assert_eq!(jsx_precompile::read_tag_into(b"<br/>", &mut [0; 8]).refusal(), None);
    /// ```
    ///
    /// # Panics
    ///
    /// Where the number is none that the reader answers: no call of the library does that.
    pub fn refusal(&self) -> Option<TagRefusal> {
        match self.number {
            0 => None,
            number => Some(TagRefusal::from_number(number).unwrap_or_else(|| panic!("{number} is no answer"))),
        }
    }
}

/// The library's own call, on lent bytes: the text, and room for its field, which has at most
/// [`MAX_TAG`](crate::limits::MAX_TAG) bytes.
///
/// Read: the field stands at the front of tag out, and the bytes behind it are as before. Refused: tag out is all zero.
/// Half a megabyte of stack is enough (tests/tag_stack.rs).
///
/// ```
/// use jsx_precompile::read_tag_into;
///
/// let mut out = [7; 10];
/// let answer = read_tag_into(b"<br/>", &mut out);
/// assert_eq!((answer.number, answer.tag_bytes), (0, 8));
/// assert_eq!(out, *b"\x30\0\x05\x40\0\x02br\x07\x07");
/// assert_eq!((read_tag_into(b"<br/>", &mut out[..7]).number, &out[..7]), (13, &[0; 7][..]));
/// ```
pub fn read_tag_into(text: &[u8], tag_out: &mut [u8]) -> TagAnswer {
    // Safety: the two parts do not overlap, by their types. The function is proved to read the first and to write the
    // other within their lengths, at every input, and keeps neither of them.
    unsafe { jsx_precompile_read_tag(text.as_ptr(), text.len(), tag_out.as_mut_ptr(), tag_out.len()) }
}

#[cfg(test)]
mod tests {
    use super::super::read::read;
    use super::*;
    use crate::limits::MAX_TAG;
    use oracle::tag::exhaustive::FAMILIES;
    use oracle::tag::{generate, marks};

    /// The reader that says where and why answers as the library does: on what it reads the same bytes, on what it
    /// refuses the same number.
    fn agree(text: &[u8], out: &mut [u8]) {
        let answer = read_tag_into(text, out);
        match read(text) {
            Ok(field) => {
                assert_eq!((answer.number, &out[..answer.tag_bytes]), (0, &field[..]), "{}", text.escape_ascii());
            }
            Err(error) => assert_eq!(answer.refusal(), Some(error.refusal), "{}: {error}", text.escape_ascii()),
        }
    }

    #[test]
    fn the_own_reader_answers_as_the_library() {
        let mut out = vec![0; MAX_TAG];
        marks::all().iter().for_each(|mark| agree(&mark.text, &mut out));
        (0..50_000).for_each(|seed| agree(&generate::case(seed).text, &mut out));
        // Longer families are the judge's matter: tests/tag.rs.
        for family in FAMILIES {
            family.texts(family.most_slow - 1, &mut |text| agree(text, &mut out[..200]));
        }
    }
}
