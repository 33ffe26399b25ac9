//! Templates out and page out of before made new, and new ones made old. Document 02, A7.

use crate::refusal::Refusal;

unsafe extern "C" {
    // A slice is a pointer and a length.
    fn jsx_precompile_upgrade(
        templates: *const u8,
        templates_length: usize,
        page: *const u8,
        page_length: usize,
        templates_out: *mut u8,
        templates_out_length: usize,
        page_out: *mut u8,
        page_out_length: usize,
    ) -> ConvertAnswer;
    fn jsx_precompile_downgrade(
        templates: *const u8,
        templates_length: usize,
        page: *const u8,
        page_length: usize,
        templates_out: *mut u8,
        templates_out_length: usize,
        page_out: *mut u8,
        page_out_length: usize,
    ) -> ConvertAnswer;
}

/// What a conversion answers, laid out as in C. A refusal has its number and zeros.
///
/// ```
/// use jsx_precompile::{ConvertAnswer, Refusal, upgrade_into};
///
/// let answer = upgrade_into(b"\x80\0\x06\0\x01\x81\0\x01<", &[], &mut [], &mut []);
/// assert_eq!(answer, ConvertAnswer { number: 12, templates_bytes: 0, page_bytes: 0 });
/// assert_eq!(answer.refusal(), Some(Refusal::TemplatesTooSmall));
/// ```
#[derive(Clone, Copy, Debug, PartialEq, Eq)]
#[repr(C)]
pub struct ConvertAnswer {
    /// 0 where both were converted, else that of a [`Refusal`].
    pub number: u32,
    /// The bytes written to templates out.
    pub templates_bytes: usize,
    /// The bytes written to page out.
    pub page_bytes: usize,
}

impl ConvertAnswer {
    /// Why the call was refused; none where both were converted.
    ///
    /// ```
    /// assert_eq!(jsx_precompile::upgrade_into(&[], &[], &mut [], &mut []).refusal(), None);
    /// ```
    ///
    /// # Panics
    ///
    /// Where the number is none that a conversion answers: no call of the library does that.
    pub fn refusal(&self) -> Option<Refusal> {
        match self.number {
            0 => None,
            number => Some(Refusal::from_number(number).unwrap_or_else(|| panic!("{number} is no answer"))),
        }
    }
}

/// The library's own way up, on lent bytes: templates of 80s with their page out, and room for both as they are now.
///
/// Converted: both stand at the front of theirs, and the bytes behind them are as before. Refused: both outs are all
/// zero. Half a megabyte of stack is enough (tests/convert.rs).
///
/// ```
/// use jsx_precompile::upgrade_into;
///
/// let (mut templates, mut page) = ([7; 17], [7; 11]);
/// let old = (b"\x80\0\x09\0\x01\x81\0\x04<br>", b"\x12\0\x05\x90\0\x02\0\x01");
/// let answer = upgrade_into(old.0, old.1, &mut templates, &mut page);
/// assert_eq!((answer.number, answer.templates_bytes, answer.page_bytes), (0, 16, 10));
/// assert_eq!(templates, *b"\x84\0\x0d\0\0\0\x01\0\0\x81\0\x04<br>\x07");
/// assert_eq!(page, *b"\x12\0\x07\x90\0\x04\0\0\0\x01\x07");
/// ```
pub fn upgrade_into(templates: &[u8], page: &[u8], templates_out: &mut [u8], page_out: &mut [u8]) -> ConvertAnswer {
    // Safety: the four parts do not overlap, by their types. The function is proved to read the first two and to write
    // the others within their lengths, at every input, and keeps none of them.
    unsafe {
        jsx_precompile_upgrade(
            templates.as_ptr(),
            templates.len(),
            page.as_ptr(),
            page.len(),
            templates_out.as_mut_ptr(),
            templates_out.len(),
            page_out.as_mut_ptr(),
            page_out.len(),
        )
    }
}

/// The library's own way down, on lent bytes: templates of 84s with their page out, and room for both as they were.
///
/// Converted: both stand at the front of theirs, and the bytes behind them are as before. Refused: both outs are all
/// zero. Half a megabyte of stack is enough (tests/convert.rs).
///
/// ```
/// use jsx_precompile::downgrade_into;
///
/// let (mut templates, mut page) = ([7; 12], [7; 8]);
/// let new = (b"\x84\0\x0d\0\0\0\x01\0\0\x81\0\x04<br>", b"\x12\0\x07\x90\0\x04\0\0\0\x01");
/// let answer = downgrade_into(new.0, new.1, &mut templates, &mut page);
/// assert_eq!((answer.number, answer.templates_bytes, answer.page_bytes), (0, 12, 8));
/// assert_eq!((&templates, &page), (b"\x80\0\x09\0\x01\x81\0\x04<br>", b"\x12\0\x05\x90\0\x02\0\x01"));
/// ```
pub fn downgrade_into(templates: &[u8], page: &[u8], templates_out: &mut [u8], page_out: &mut [u8]) -> ConvertAnswer {
    // Safety: as for the way up.
    unsafe {
        jsx_precompile_downgrade(
            templates.as_ptr(),
            templates.len(),
            page.as_ptr(),
            page.len(),
            templates_out.as_mut_ptr(),
            templates_out.len(),
            page_out.as_mut_ptr(),
            page_out.len(),
        )
    }
}

/// Templates out and page out, converted.
///
/// ```
/// use jsx_precompile::{Converted, upgrade};
///
/// let converted: Converted = upgrade(&[], b"\x13\0\0")?;
/// assert_eq!((converted.templates_bytes(), converted.page_bytes()), (&[][..], &[0x13, 0, 0][..]));
/// # Ok::<(), jsx_precompile::Refusal>(())
/// ```
#[derive(Clone, Debug, PartialEq, Eq)]
pub struct Converted {
    templates: Vec<u8>,
    page: Vec<u8>,
}

impl Converted {
    /// The bytes of templates out.
    ///
    /// ```
    /// let converted = jsx_precompile::upgrade(b"\x80\0\x05\0\x01\x81\0\0", &[])?;
    /// assert_eq!(converted.templates_bytes(), b"\x84\0\x09\0\0\0\x01\0\0\x81\0\0");
    /// # Ok::<(), jsx_precompile::Refusal>(())
    /// ```
    pub fn templates_bytes(&self) -> &[u8] {
        &self.templates
    }

    /// The bytes of page out.
    ///
    /// ```
    /// let converted = jsx_precompile::upgrade(&[], b"\x12\0\x05\x90\0\x02\0\x01")?;
    /// assert_eq!(converted.page_bytes(), b"\x12\0\x07\x90\0\x04\0\0\0\x01");
    /// # Ok::<(), jsx_precompile::Refusal>(())
    /// ```
    pub fn page_bytes(&self) -> &[u8] {
        &self.page
    }
}

/// The way up: templates of 80s, and a page out whose calls name them by numbers of two bytes, become what
/// [`transform`](crate::transform) writes now. The kinds of the dynamic expressions are worked out from the static
/// strings.
///
/// ```
/// use jsx_precompile::javascript::Printer;
/// use jsx_precompile::out::{Kind, PageOut, Templates};
/// use jsx_precompile::{Refusal, downgrade, upgrade};
///
/// // <p title={t}/>, as version 0.1.0 wrote it
/// let templates = b"\x80\0\x10\0\x01\x81\0\x03<p \x81\0\x05></p>";
/// let page = b"\x83\0\0\x12\0\x17\x90\0\x14\0\x01\x91\0\x0f\x81\0\x05title\x79\0\x04\x20\0\x01t";
/// let new = upgrade(templates, page)?;
/// let read = Templates::read(new.templates_bytes())?;
/// assert!(read.clone().next().unwrap().kinds().unwrap().eq([Kind::Attribute]));
/// let module = Printer::new(read, PageOut::read(new.page_bytes())?).module();
/// assert!(module.ends_with("_jsxTemplate($$_tpl_1, _jsxAttr(\"title\", t))\n"));
///
/// let old = downgrade(new.templates_bytes(), new.page_bytes())?;
/// assert_eq!((old.templates_bytes(), old.page_bytes()), (&templates[..], &page[..]));
///
/// // A gap behind `<p` and no space: neither an attribute nor a child.
/// assert_eq!(upgrade(b"\x80\0\x0b\0\x01\x81\0\x02<p\x81\0\x01>", &[]), Err(Refusal::Disagreeing));
/// # Ok::<(), Box<dyn std::error::Error>>(())
/// ```
///
/// # Errors
///
/// [`Refusal::Truncated`] to [`Refusal::NumberTooLarge`] for the templates, then for page out;
/// [`Refusal::Disagreeing`] where neither kind fits a gap; [`Refusal::OutputTooLong`].
pub fn upgrade(templates: &[u8], page: &[u8]) -> Result<Converted, Refusal> {
    // An 80 of one string has 8 bytes and grows by 4, each other string has 3 and grows by 1, a 90 has 5 and grows by 2.
    let room = |bytes: &[u8]| vec![0; bytes.len() + bytes.len() / 2];
    converted(upgrade_into, [templates, page], room(templates), room(page))
}

/// The way down: what [`transform`](crate::transform) writes becomes templates of 80s, without the kinds, and a page out
/// with numbers of two bytes.
///
/// ```
/// use jsx_precompile::{Options, Refusal, downgrade, page::{Element, Item, Page}, transform, upgrade};
///
/// let forms = transform(&Page::new([Item::statement([Element::new("br").into()])]).to_bytes()?, &Options::new())?;
/// let old = downgrade(forms.templates_bytes(), forms.page_bytes())?;
/// assert_eq!(old.templates_bytes(), b"\x80\0\x09\0\x01\x81\0\x04<br>");
/// let new = upgrade(old.templates_bytes(), old.page_bytes())?;
/// assert_eq!((new.templates_bytes(), new.page_bytes()), (forms.templates_bytes(), forms.page_bytes()));
///
/// // Number 65,536 has no room in an 80; a child's gap is none of an attribute.
/// assert_eq!(downgrade(b"\x84\0\x09\0\x01\0\0\0\0\x81\0\0", &[]), Err(Refusal::Disagreeing));
/// assert_eq!(downgrade(b"\x84\0\x0d\0\0\0\x01\0\x01\x01\x81\0\0\x81\0\0", &[]), Err(Refusal::Disagreeing));
/// # Ok::<(), Box<dyn std::error::Error>>(())
/// ```
///
/// # Errors
///
/// [`Refusal::Truncated`] to [`Refusal::NumberTooLarge`] for the templates, then for page out;
/// [`Refusal::Disagreeing`] where neither kind fits a gap, a kind is not the one that fits, or a number, of a template or
/// a call, is over 65,535.
pub fn downgrade(templates: &[u8], page: &[u8]) -> Result<Converted, Refusal> {
    let room = |bytes: &[u8]| vec![0; bytes.len()];
    converted(downgrade_into, [templates, page], room(templates), room(page))
}

/// By this call, in these outs, which are long enough.
fn converted(
    call: impl Fn(&[u8], &[u8], &mut [u8], &mut [u8]) -> ConvertAnswer,
    [from, page_from]: [&[u8]; 2],
    mut templates: Vec<u8>,
    mut page: Vec<u8>,
) -> Result<Converted, Refusal> {
    let answer = call(from, page_from, &mut templates, &mut page);
    match answer.refusal() {
        Some(refusal) => Err(refusal),
        None => {
            templates.truncate(answer.templates_bytes);
            page.truncate(answer.page_bytes);
            Ok(Converted { templates, page })
        }
    }
}
