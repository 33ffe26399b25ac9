//! Pages as they stand in a catalogue.

use super::renumber::renumbered;
use crate::field::Fields;
use crate::out::{PageOut, Template, Templates};
use std::fmt;
use std::ops::RangeInclusive;

/// With which a page begins.
pub(super) const PAGE: u8 = 0x97;

/// The bytes before a page's templates: the 97, the name, the house, two lengths.
pub(super) const FRONT: usize = 1 + 4 + 1 + 4 + 4;

/// Where the house stands in it.
pub(super) const HOUSE: usize = 5;

/// What stands before a page's templates.
pub(super) struct Front {
    pub name: u32,
    pub house: u8,
    pub templates: usize,
    pub page: usize,
}

impl Front {
    /// That at the front of these bytes; none where there is no 97, or fewer bytes.
    pub(super) fn read(bytes: &[u8]) -> Option<Front> {
        let (front, _) = bytes.split_first_chunk::<FRONT>()?;
        let four = |at: usize| u32::from_be_bytes([front[at], front[at + 1], front[at + 2], front[at + 3]]);
        (front[0] == PAGE).then(|| Front {
            name: four(1),
            house: front[HOUSE],
            templates: four(6) as usize,
            page: four(10) as usize,
        })
    }
}

/// A page as it stands in a catalogue.
///
/// ```
/// use jsx_precompile::catalogue::{Catalogue, StandingPage};
///
/// let catalogue = Catalogue::over(b"\x97\0\0\0\x05\x02\0\0\0\0\0\0\0\x03\x13\0\0\0\0\0")?;
/// let page: StandingPage = catalogue.pages().next().unwrap();
/// assert_eq!((page.name(), page.house(), page.at(), page.bytes()), (5, 2, 0, 17));
/// # Ok::<(), jsx_precompile::Fault>(())
/// ```
#[derive(Clone, Copy, PartialEq, Eq)]
pub struct StandingPage<'a> {
    at: usize,
    name: u32,
    house: u8,
    before: u32,
    templates: &'a [u8],
    page: &'a [u8],
}

impl<'a> StandingPage<'a> {
    /// By which it leaves.
    ///
    /// ```
    /// use jsx_precompile::catalogue::Pages;
    ///
    /// assert_eq!(Pages::new(b"\x97\0\0\x01\0\x02\0\0\0\0\0\0\0\0").next().unwrap().name(), 256);
    /// ```
    pub fn name(&self) -> u32 {
        self.name
    }

    /// To which it belongs, 1 to 16.
    ///
    /// ```
    /// use jsx_precompile::catalogue::Pages;
    ///
    /// assert_eq!(Pages::new(b"\x97\0\0\x01\0\x02\0\0\0\0\0\0\0\0").next().unwrap().house(), 2);
    /// ```
    pub fn house(&self) -> u32 {
        self.house.into()
    }

    /// Where its 97 stands.
    ///
    /// ```
    /// use jsx_precompile::catalogue::Pages;
    ///
    /// let two = b"\x97\0\0\0\x05\x02\0\0\0\0\0\0\0\x03\x13\0\0\x97\0\0\0\x06\x02\0\0\0\0\0\0\0\0";
    /// assert!(Pages::new(two).map(|page| page.at()).eq([0, 17]));
    /// ```
    pub fn at(&self) -> usize {
        self.at
    }

    /// The bytes that it takes, from its 97 on; shares are counted by these.
    ///
    /// ```
    /// use jsx_precompile::catalogue::Pages;
    ///
    /// assert_eq!(Pages::new(b"\x97\0\0\0\x05\x02\0\0\0\0\0\0\0\x03\x13\0\0").next().unwrap().bytes(), 17);
    /// ```
    pub fn bytes(&self) -> usize {
        FRONT + self.templates.len() + self.page.len()
    }

    /// Its templates, with the numbers that they have here.
    ///
    /// ```
    /// use jsx_precompile::catalogue::{Catalogue, Shares};
    ///
    /// let (templates, page) = (b"\x84\0\x0d\0\0\0\x01\0\0\x81\0\x04<br>", b"\x12\0\x07\x90\0\x04\0\0\0\x01");
    /// let mut catalogue = Catalogue::new(100);
    /// catalogue.add(8, 1, &Shares::new(), templates, page)?;
    /// catalogue.add(7, 1, &Shares::new(), templates, page)?;
    /// let second = catalogue.pages().last().unwrap();
    /// assert_eq!(second.templates().next().unwrap().number(), 2);
    /// # Ok::<(), jsx_precompile::catalogue::CatalogueError>(())
    /// ```
    pub fn templates(&self) -> Templates<'a> {
        Templates::of(self.templates)
    }

    /// The bytes of its templates, with the numbers that they have here.
    ///
    /// ```
    /// use jsx_precompile::catalogue::Pages;
    ///
    /// let page = Pages::new(b"\x97\0\0\0\x05\x02\0\0\0\0\0\0\0\x03\x13\0\0").next().unwrap();
    /// assert_eq!((page.templates_bytes(), page.page_bytes()), (&[][..], &[0x13, 0, 0][..]));
    /// ```
    pub fn templates_bytes(&self) -> &'a [u8] {
        self.templates
    }

    /// Its page out, whose calls have the numbers that its templates have here. Both can be printed as a module.
    ///
    /// ```
    /// use jsx_precompile::catalogue::{Catalogue, Shares};
    /// use jsx_precompile::javascript::Printer;
    ///
    /// let (templates, page) = (b"\x84\0\x0d\0\0\0\x01\0\0\x81\0\x04<br>", b"\x83\0\0\x12\0\x07\x90\0\x04\0\0\0\x01");
    /// let mut catalogue = Catalogue::new(200);
    /// catalogue.add(8, 1, &Shares::new(), templates, page)?;
    /// catalogue.add(7, 1, &Shares::new(), templates, page)?;
    /// let second = catalogue.page(7).unwrap();
    /// let module = Printer::new(second.templates(), second.page()).module();
    /// assert_eq!(module, "const $$_tpl_2 = [\"<br>\"];\n_jsxTemplate($$_tpl_2)\n");
    /// # Ok::<(), jsx_precompile::catalogue::CatalogueError>(())
    /// ```
    pub fn page(&self) -> PageOut<'a> {
        PageOut::of(self.page)
    }

    /// The bytes of its page out, with the numbers that its calls have here.
    ///
    /// ```
    /// use jsx_precompile::catalogue::Pages;
    ///
    /// let page = Pages::new(b"\x97\0\0\0\x05\x02\0\0\0\0\0\0\0\x03\x13\0\0").next().unwrap();
    /// assert_eq!(page.page_bytes(), [0x13, 0, 0]);
    /// ```
    pub fn page_bytes(&self) -> &'a [u8] {
        self.page
    }

    /// The numbers of its templates: they follow on those of the pages before it.
    ///
    /// ```
    /// use jsx_precompile::catalogue::Pages;
    ///
    /// let page = Pages::new(b"\x97\0\0\0\x05\x02\0\0\0\0\0\0\0\x03\x13\0\0").next().unwrap();
    /// assert!(page.numbers().is_empty());
    /// ```
    pub fn numbers(&self) -> RangeInclusive<u32> {
        let count = Fields::new(self.templates).count() as u32;
        self.before.saturating_add(1)..=self.before.saturating_add(count)
    }

    /// Its template with this number; none where it is another page's.
    ///
    /// ```
    /// use jsx_precompile::catalogue::Pages;
    ///
    /// let page = b"\x97\0\0\0\x05\x02\0\0\0\x10\0\0\0\x0a\x84\0\x0d\0\0\0\x01\0\0\x81\0\x04<br>\x12\0\x07\x90\0\x04\0\0\0\x01";
    /// let page = Pages::new(page).next().unwrap();
    /// assert_eq!(page.template(1).unwrap().strings().next(), Some("<br>"));
    /// assert_eq!(page.template(2), None);
    /// ```
    pub fn template(&self, number: u32) -> Option<Template<'a>> {
        self.templates().find(|template| template.number() == number)
    }

    /// Its templates and its page out as they arrived, numbered from 1: so they can be put into another catalogue.
    ///
    /// ```
    /// use jsx_precompile::catalogue::{Catalogue, Shares};
    ///
    /// let (templates, page) = (b"\x84\0\x0d\0\0\0\x01\0\0\x81\0\x04<br>", b"\x12\0\x07\x90\0\x04\0\0\0\x01");
    /// let mut catalogue = Catalogue::new(100);
    /// catalogue.add(8, 1, &Shares::new(), templates, page)?;
    /// catalogue.add(7, 1, &Shares::new(), templates, page)?;
    /// let second = catalogue.page(7).unwrap();
    /// assert_ne!((second.templates_bytes(), second.page_bytes()), (&templates[..], &page[..]));
    /// assert_eq!(second.as_arrived(), (templates.to_vec(), page.to_vec()));
    /// # Ok::<(), jsx_precompile::catalogue::CatalogueError>(())
    /// ```
    pub fn as_arrived(&self) -> (Vec<u8>, Vec<u8>) {
        let lowered = |number: u32| number.wrapping_sub(self.before);
        (renumbered(self.templates, lowered), renumbered(self.page, lowered))
    }
}

impl fmt::Debug for StandingPage<'_> {
    fn fmt(&self, f: &mut fmt::Formatter<'_>) -> fmt::Result {
        f.debug_struct("StandingPage")
            .field("at", &self.at)
            .field("name", &self.name)
            .field("house", &self.house)
            .field("numbers", &self.numbers())
            .field("templates", &self.templates())
            .field("page", &self.page())
            .finish()
    }
}

/// The pages of a catalogue in the order of their arrival, by their lengths. Ends where no page stands:
/// [`rest`](Pages::rest) is then what is left, zeros where the catalogue is sound.
///
/// ```
/// use jsx_precompile::catalogue::Pages;
///
/// let mut pages = Pages::new(b"\x97\0\0\0\x05\x02\0\0\0\0\0\0\0\x03\x13\0\0\0\0\0");
/// assert_eq!(pages.by_ref().count(), 1);
/// assert_eq!((pages.rest(), pages.place()), (&[0, 0, 0][..], 17));
/// ```
#[derive(Clone, PartialEq, Eq)]
pub struct Pages<'a> {
    bytes: &'a [u8],
    at: usize,
    before: u32,
}

impl<'a> Pages<'a> {
    /// Of these bytes, whatever they are: nothing but lengths is looked at. [`Catalogue::over`](super::Catalogue::over)
    /// looks at all.
    ///
    /// ```
    /// assert_eq!(jsx_precompile::catalogue::Pages::new(&[0, 0]).next(), None);
    /// ```
    pub fn new(bytes: &'a [u8]) -> Pages<'a> {
        Pages { bytes, at: 0, before: 0 }
    }

    /// What was not read yet.
    ///
    /// ```
    /// assert_eq!(jsx_precompile::catalogue::Pages::new(&[0, 0]).rest(), [0, 0]);
    /// ```
    pub fn rest(&self) -> &'a [u8] {
        self.bytes
    }

    /// Where [`rest`](Pages::rest) begins in the bytes that were read.
    ///
    /// ```
    /// let mut pages = jsx_precompile::catalogue::Pages::new(b"\x97\0\0\x01\0\x02\0\0\0\0\0\0\0\0");
    /// pages.next();
    /// assert_eq!(pages.place(), 14);
    /// ```
    pub fn place(&self) -> usize {
        self.at
    }
}

impl<'a> Iterator for Pages<'a> {
    type Item = StandingPage<'a>;

    fn next(&mut self) -> Option<StandingPage<'a>> {
        let Front { name, house, templates, page } = Front::read(self.bytes)?;
        let (templates, behind) = self.bytes[FRONT..].split_at_checked(templates)?;
        let (page, rest) = behind.split_at_checked(page)?;
        let page = StandingPage { at: self.at, name, house, before: self.before, templates, page };
        self.bytes = rest;
        self.at += page.bytes();
        self.before = self.before.saturating_add(Fields::new(templates).count() as u32);
        Some(page)
    }
}

impl fmt::Debug for Pages<'_> {
    fn fmt(&self, f: &mut fmt::Formatter<'_>) -> fmt::Result {
        f.debug_list().entries(self.clone()).finish()
    }
}
