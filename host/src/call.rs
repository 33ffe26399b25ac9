//! The transform of the library, and safe calls of it.

use crate::check::{Fault, Input, check};
use crate::javascript::Printer;
use crate::limits::{MAX_OPTIONS, MIN_SCRATCH};
use crate::locate::{locate, repeated};
use crate::options::Options;
use crate::out::{PageOut, Templates};
use crate::path::Path;
use crate::refusal::Refusal;

unsafe extern "C" {
    // A slice is a pointer and a length.
    fn jsx_precompile_transform(
        page: *const u8,
        page_length: usize,
        options: *const u8,
        options_length: usize,
        scratch: *mut u8,
        scratch_length: usize,
        templates_out: *mut u8,
        templates_out_length: usize,
        page_out: *mut u8,
        page_out_length: usize,
    ) -> Answer;
    fn jsx_precompile_version() -> u32;
}

/// What a call answers, laid out as in C. A refusal has its number and zeros.
///
/// ```
/// use jsx_precompile::{Answer, Refusal, transform_into};
///
/// let answer = transform_into(b"", &[], &mut vec![0; 65_536], &mut [], &mut []);
/// assert_eq!(answer, Answer { number: 3, templates_bytes: 0, page_bytes: 0, templates: 0 });
/// assert_eq!(answer.refusal(), Some(Refusal::Truncated));
/// ```
#[derive(Clone, Copy, Debug, PartialEq, Eq)]
#[repr(C)]
pub struct Answer {
    /// 0 where the page was taken, else that of a [`Refusal`].
    pub number: u32,
    /// The bytes written to templates out: a field 84 for each template.
    pub templates_bytes: usize,
    /// The bytes written to page out: the import, the place of the templates, and the items with their calls.
    pub page_bytes: usize,
    /// How many templates there are, numbered from 1.
    pub templates: usize,
}

impl Answer {
    /// Why the call was refused; none where the page was taken.
    ///
    /// ```
    /// use jsx_precompile::transform_into;
    ///
    /// assert_eq!(transform_into(&[1, 0, 0], &[], &mut vec![0; 65_536], &mut [], &mut []).refusal(), None);
    /// ```
    ///
    /// # Panics
    ///
    /// Where the number is none of document 01's table, or 9, which is reserved: no call of the library answers these.
    pub fn refusal(&self) -> Option<Refusal> {
        match self.number {
            0 => None,
            number => Some(Refusal::from_number(number).unwrap_or_else(|| panic!("{number} is no answer"))),
        }
    }
}

/// The library's own call, on lent bytes: the page and the options as fields, at least 65,536 bytes of scratch, and
/// room for both outputs.
///
/// Taken: the outputs stand at the front of theirs, and the bytes behind them are as before. Refused: both outs are
/// all zero. The scratch is all zero afterwards, but for [`Refusal::ScratchTooSmall`], which leaves it. Half a megabyte
/// of stack is enough (tests/stack.rs).
///
/// ```
/// use jsx_precompile::transform_into;
///
/// // <br/> as a statement
/// let page = [0x01, 0, 11, 0x12, 0, 8, 0x30, 0, 5, 0x40, 0, 2, b'b', b'r'];
/// let (mut scratch, mut templates, mut out) = (vec![0; 65_536], [0; 100], [0; 100]);
/// let answer = transform_into(&page, &[], &mut scratch, &mut templates, &mut out);
/// assert_eq!((answer.number, answer.templates), (0, 1));
/// assert_eq!(templates[..answer.templates_bytes], *b"\x84\0\x0d\0\0\0\x01\0\0\x81\0\x04<br>");
/// ```
pub fn transform_into(
    page: &[u8],
    options: &[u8],
    scratch: &mut [u8],
    templates_out: &mut [u8],
    page_out: &mut [u8],
) -> Answer {
    // Safety: the five parts do not overlap, by their types. The function is proved to read the first two and to write
    // the others within their lengths, at every input, and keeps none of them.
    unsafe {
        jsx_precompile_transform(
            page.as_ptr(),
            page.len(),
            options.as_ptr(),
            options.len(),
            scratch.as_mut_ptr(),
            scratch.len(),
            templates_out.as_mut_ptr(),
            templates_out.len(),
            page_out.as_mut_ptr(),
            page_out.len(),
        )
    }
}

/// Transforms one page. Room for the outputs grows as it is needed. A refusal says which of the inputs it is about, the
/// byte and the way there.
///
/// ```
/// use jsx_precompile::{Options, page::{Element, Item, Page}, transform};
///
/// let page = Page::new([Item::statement([Element::new("br").into()])]).to_bytes()?;
/// let forms = transform(&page, &Options::new())?;
/// let template = forms.templates().next().unwrap();
/// assert_eq!(template.number(), 1);
/// assert_eq!(template.strings().collect::<Vec<_>>(), ["<br>"]);
/// # Ok::<(), Box<dyn std::error::Error>>(())
/// ```
///
/// ```
/// use jsx_precompile::{Options, Refusal, page::{Element, Expression, Fragment, Item, Page}, transform};
///
/// // <div><Foo a={<><></></>}/></div>: a fragment alone in a fragment would be left as it is
/// let nested = Fragment::new().child(Fragment::new());
/// let tag = Element::new("div").child(Element::new("Foo").attribute("a", Expression::from(nested)));
/// let page = Page::new([Item::Empty, Item::statement([tag.into()])]).to_bytes()?;
/// let fault = transform(&page, &Options::new()).unwrap_err();
/// assert_eq!(fault.refusal, Refusal::TagLeft);
/// assert_eq!(fault.path.to_string(), "01 > 12[1] > 30 div > 30 Foo > 50 a > 52 > 31 > 31");
///
/// // <p class="a" className="b"/>: a browser would take the first alone
/// let tag = Element::new("p").attribute("class", "a").attribute("className", "b");
/// let twice = Page::new([Item::statement([tag.into()])]).to_bytes()?;
/// let fault = transform(&twice, &Options::new()).unwrap_err();
/// assert_eq!(fault.refusal, Refusal::RepeatedAttribute);
/// assert_eq!(fault.reason, "the attributes `class` and `className` are one in HTML");
///
/// let page_of = |name: &str| Page::new([Item::statement([Element::new(name).into()])]).to_bytes();
/// let fault = transform(&page_of("bR")?, &Options::new()).unwrap_err();
/// assert_eq!((fault.refusal, &*fault.path.to_string()), (Refusal::MixedCaseVoid, "01 > 12[0] > 30 bR"));
/// assert_eq!(fault.reason, "`bR` is a void element in HTML; write `br`");
/// assert!(transform(&page_of("Br")?, &Options::new()).is_ok()); // a component
///
/// let fault = transform(&page, &Options::new().import_source("")).unwrap_err();
/// assert_eq!(fault.to_string(), "options, byte 3, 04: 4 (misplaced): 04 (import source) is empty");
/// # Ok::<(), Box<dyn std::error::Error>>(())
/// ```
pub fn transform(page: &[u8], options: &Options) -> Result<Forms, Fault> {
    Transformer::new().transform(page, options)
}

/// Transforms one page after another in the same lent bytes.
///
/// ```
/// use jsx_precompile::{Options, Transformer, page::{Element, Item, Page}};
///
/// let mut transformer = Transformer::new();
/// for name in ["br", "hr"] {
///     let page = Page::new([Item::statement([Element::new(name).into()])]).to_bytes()?;
///     assert_eq!(transformer.transform(&page, &Options::new())?.count(), 1);
/// }
/// # Ok::<(), Box<dyn std::error::Error>>(())
/// ```
#[derive(Clone, Debug, Default)]
pub struct Transformer {
    scratch: Vec<u8>,
    templates: Vec<u8>,
    page: Vec<u8>,
}

impl Transformer {
    /// Nothing is lent before the first call.
    ///
    /// ```
    /// let transformer = jsx_precompile::Transformer::new();
    /// ```
    pub fn new() -> Transformer {
        Transformer::default()
    }

    /// As [`transform`](crate::transform).
    ///
    /// ```
    /// use jsx_precompile::{Options, Refusal, Transformer};
    ///
    /// let fault = Transformer::new().transform(b"no page", &Options::new()).unwrap_err();
    /// assert_eq!(fault.refusal, Refusal::Truncated);
    /// ```
    pub fn transform(&mut self, page: &[u8], options: &Options) -> Result<Forms, Fault> {
        let options = options.encode().map_err(|error| Fault {
            input: Input::Options,
            at: MAX_OPTIONS,
            path: Path::default(),
            // A length that cannot be written is over the limit as well.
            refusal: Refusal::InputTooLong,
            reason: format!("{error}, and all options together at most {MAX_OPTIONS}"),
        })?;
        // Most outputs are shorter than their page.
        let guess = page.len() + options.len() + 1_024;
        let lent = [(&mut self.scratch, MIN_SCRATCH), (&mut self.templates, guess), (&mut self.page, guess)];
        for (bytes, least) in lent {
            bytes.resize(least.max(bytes.len()), 0);
        }
        loop {
            let answer = transform_into(page, &options, &mut self.scratch, &mut self.templates, &mut self.page);
            match answer.refusal() {
                None => {
                    return Ok(Forms {
                        templates: self.templates[..answer.templates_bytes].to_vec(),
                        page: self.page[..answer.page_bytes].to_vec(),
                        count: answer.templates,
                    });
                }
                Some(Refusal::TemplatesTooSmall) => double(&mut self.templates),
                Some(Refusal::PageTooSmall) => double(&mut self.page),
                Some(refusal) => return Err(self.fault(page, &options, refusal)),
            }
        }
    }

    /// The library's refusal, with its place. The checks go over the bytes a second time, and refuse as the library
    /// does; what the transform itself refuses is looked for.
    fn fault(&mut self, page: &[u8], options: &[u8], refusal: Refusal) -> Fault {
        let alike = |input, bytes| check(input, bytes).err().filter(|fault| fault.refusal == refusal);
        if let Some(fault) = alike(Input::Options, options).or_else(|| alike(Input::Page, page)) {
            return fault;
        }
        let at = locate(page, options, &mut self.scratch, refusal);
        let path = Path::to(page, at);
        let reason = self.reason(page, options, refusal, &path);
        Fault { input: Input::Page, at, path, refusal, reason }
    }

    /// What the transform refuses at the end of the path, with the names that are meant.
    fn reason(&mut self, page: &[u8], options: &[u8], refusal: Refusal, path: &Path) -> String {
        let last = path.steps().last().filter(|step| step.tag == 0x30);
        let said = last.and_then(|step| match refusal {
            Refusal::RepeatedAttribute => match repeated(page, options, &mut self.scratch, step.at)? {
                [one, other] if one == other => Some(format!("the attribute `{one}` stands twice")),
                [one, other] => Some(format!("the attributes `{one}` and `{other}` are one in HTML")),
            },
            Refusal::MixedCaseVoid => {
                let name = step.name.as_ref()?;
                Some(format!("`{name}` is a void element in HTML; write `{}`", name.to_ascii_lowercase()))
            }
            _ => None,
        });
        said.unwrap_or_else(|| refusal.explanation().to_string())
    }
}

fn double(bytes: &mut Vec<u8>) {
    bytes.resize(2 * bytes.len(), 0);
}

/// What a page gives: its templates, and the page with calls in place of its JSX.
///
/// ```
/// use jsx_precompile::{Options, page::{Element, Item, Page}, transform};
///
/// let page = Page::new([Item::statement([Element::new("br").into()])]).to_bytes()?;
/// let forms = transform(&page, &Options::new())?;
/// assert_eq!(forms.count(), forms.templates().count());
/// # Ok::<(), Box<dyn std::error::Error>>(())
/// ```
#[derive(Clone, Debug, PartialEq, Eq)]
pub struct Forms {
    templates: Vec<u8>,
    page: Vec<u8>,
    count: usize,
}

impl Forms {
    /// How many templates there are.
    ///
    /// ```
    /// assert_eq!(jsx_precompile::transform(&[1, 0, 0], &Default::default())?.count(), 0);
    /// # Ok::<(), jsx_precompile::Fault>(())
    /// ```
    pub fn count(&self) -> usize {
        self.count
    }

    /// The templates, in the order in which they were recorded.
    ///
    /// ```
    /// assert_eq!(jsx_precompile::transform(&[1, 0, 0], &Default::default())?.templates().next(), None);
    /// # Ok::<(), jsx_precompile::Fault>(())
    /// ```
    pub fn templates(&self) -> Templates<'_> {
        Templates::of(&self.templates)
    }

    /// The page with its calls.
    ///
    /// ```
    /// assert_eq!(jsx_precompile::transform(&[1, 0, 0], &Default::default())?.page().items().count(), 0);
    /// # Ok::<(), jsx_precompile::Fault>(())
    /// ```
    pub fn page(&self) -> PageOut<'_> {
        PageOut::of(&self.page)
    }

    /// The module as JavaScript, with the templates, the import and the calls in it; see [`javascript`](crate::javascript).
    ///
    /// ```
    /// // <br/> as a statement
    /// let page = [0x01, 0, 11, 0x12, 0, 8, 0x30, 0, 5, 0x40, 0, 2, b'b', b'r'];
    /// let module = jsx_precompile::transform(&page, &Default::default())?.javascript();
    /// assert!(module.ends_with("const $$_tpl_1 = [\"<br>\"];\n_jsxTemplate($$_tpl_1)\n"));
    /// # Ok::<(), jsx_precompile::Fault>(())
    /// ```
    pub fn javascript(&self) -> String {
        Printer::new(self.templates(), self.page()).module()
    }

    /// The bytes of templates out, as far as they were written.
    ///
    /// ```
    /// assert_eq!(jsx_precompile::transform(&[1, 0, 0], &Default::default())?.templates_bytes(), []);
    /// # Ok::<(), jsx_precompile::Fault>(())
    /// ```
    pub fn templates_bytes(&self) -> &[u8] {
        &self.templates
    }

    /// The bytes of page out, as far as they were written.
    ///
    /// ```
    /// // a page of an empty statement
    /// let forms = jsx_precompile::transform(&[1, 0, 3, 0x13, 0, 0], &Default::default())?;
    /// assert_eq!(forms.page_bytes(), [0x13, 0, 0]);
    /// # Ok::<(), jsx_precompile::Fault>(())
    /// ```
    pub fn page_bytes(&self) -> &[u8] {
        &self.page
    }
}

/// The version of the library that is linked, as it answers it: major, minor and patch.
///
/// ```
/// let (major, minor, patch) = jsx_precompile::library_version();
/// assert_eq!(format!("{major}.{minor}.{patch}"), jsx_precompile::VERSION);
/// ```
pub fn library_version() -> (u32, u32, u32) {
    // SAFETY: the function takes nothing and touches no memory.
    let number = unsafe { jsx_precompile_version() };
    (number / 10_000, number / 100 % 100, number % 100)
}
