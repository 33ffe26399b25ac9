//! The pages of all houses in one buffer: they arrive and leave in place, each with its house, and what a house may have
//! is bounded by shares. Document 02, A13 and A14.
//!
//! ```
//! use jsx_precompile::catalogue::{Catalogue, Shares};
//! use jsx_precompile::{Options, page::{Element, Expression, Item, Page}, transform};
//!
//! let of = |name: &str| {
//!     let tag = Element::new(name).child(Expression::source("play"));
//!     transform(&Page::new([Item::statement([tag.into()])]).to_bytes().unwrap(), &Options::new()).unwrap()
//! };
//! let (hall, bar) = (of("h1"), of("h2"));
//! let shares = Shares::new().house(1, 200, 400)?.house(2, 300, u32::MAX)?;
//! let mut catalogue = Catalogue::new(1_000);
//! catalogue.add(7, 1, &shares, hall.templates_bytes(), hall.page_bytes())?;
//! catalogue.add(8, 2, &shares, bar.templates_bytes(), bar.page_bytes())?;
//!
//! // The numbers of a page follow on those of the pages before it.
//! assert!(catalogue.templates().map(|template| template.number()).eq([1, 2]));
//! let (page, template) = catalogue.template(2).unwrap();
//! assert_eq!((page.name(), template.strings().next()), (8, Some("<h2>")));
//!
//! // Later pages close up.
//! catalogue.remove(7)?;
//! assert_eq!(catalogue.template(1).unwrap().0.name(), 8);
//! # Ok::<(), Box<dyn std::error::Error>>(())
//! ```

mod arrives;
mod call;
mod disagreeing;
mod error;
mod file;
mod marker;
mod page;
mod read;
mod renumber;
mod shares;

pub use call::{CatalogueAnswer, add_into, remove_from};
pub use error::CatalogueError;
pub use file::{CatalogueFile, FileError};
pub use page::{Pages, StandingPage};
pub use shares::{Share, Shares, SharesError};

use crate::check::{Fault, Input};
use crate::limits::HOUSES;
use crate::out::Template;
use crate::path::Path;
use crate::refusal::Refusal;
use arrives::arrives;
use page::FRONT;
use read::{Held, read};

/// A sound catalogue: a row of pages, and zeros behind them; its length stays as it is. Over bytes of its own, or over lent
/// ones.
///
/// ```
/// use jsx_precompile::catalogue::{Catalogue, Shares};
///
/// let mut lent = [0; 30];
/// let mut catalogue = Catalogue::over(&mut lent[..])?;
/// catalogue.add(5, 1, &Shares::new(), &[], b"\x13\0\0")?;
/// assert_eq!((catalogue.used(), catalogue.free(), catalogue.count()), (17, 13, 1));
/// assert_eq!(lent[..6], [0x97, 0, 0, 0, 5, 1]);
/// # Ok::<(), Box<dyn std::error::Error>>(())
/// ```
#[derive(Clone, Debug, PartialEq, Eq)]
pub struct Catalogue<B = Vec<u8>> {
    bytes: B,
    used: usize,
    count: usize,
}

impl Catalogue {
    /// An empty one of so many bytes. Over 16,777,216 no page comes into it.
    ///
    /// ```
    /// use jsx_precompile::catalogue::Catalogue;
    ///
    /// assert_eq!(Catalogue::new(100).free(), 100);
    /// ```
    pub fn new(length: usize) -> Catalogue {
        Catalogue { bytes: vec![0; length], used: 0, count: 0 }
    }
}

impl<B: AsRef<[u8]>> Catalogue<B> {
    /// The catalogue that these bytes are; where they are none, the place and the reason.
    ///
    /// ```
    /// use jsx_precompile::catalogue::Catalogue;
    ///
    /// assert_eq!(Catalogue::over(vec![0; 100])?.count(), 0);
    /// let fault = Catalogue::over([0, 0, 5]).unwrap_err();
    /// assert_eq!(fault.to_string(), "catalogue, byte 2: 4 (misplaced): 05 behind the last page, where zeros must stand");
    /// let fault = Catalogue::over(b"\x97\0\0\0\x05\x02\0\0\0\0\0\0\0\x04\x13\0\0\x12").unwrap_err();
    /// assert_eq!(fault.at, 17);
    /// assert_eq!(fault.reason, "page 5: page out, byte 3: 3 (torn): 1 bytes where a field begins");
    /// # Ok::<(), jsx_precompile::Fault>(())
    /// ```
    ///
    /// # Errors
    ///
    /// [`Refusal::Misplaced`], whatever the reason.
    pub fn over(bytes: B) -> Result<Catalogue<B>, Fault> {
        let Held { used, pages } = read(bytes.as_ref())?;
        Ok(Catalogue { bytes, used, count: pages })
    }

    /// Its bytes, the free ones too.
    ///
    /// ```
    /// assert_eq!(jsx_precompile::catalogue::Catalogue::new(2).bytes(), [0, 0]);
    /// ```
    pub fn bytes(&self) -> &[u8] {
        self.bytes.as_ref()
    }

    /// What it is over.
    ///
    /// ```
    /// assert_eq!(jsx_precompile::catalogue::Catalogue::new(2).into_bytes(), vec![0, 0]);
    /// ```
    pub fn into_bytes(self) -> B {
        self.bytes
    }

    /// The bytes that pages take.
    ///
    /// ```
    /// assert_eq!(jsx_precompile::catalogue::Catalogue::new(100).used(), 0);
    /// ```
    pub fn used(&self) -> usize {
        self.used
    }

    /// The bytes behind the pages.
    ///
    /// ```
    /// assert_eq!(jsx_precompile::catalogue::Catalogue::new(100).free(), 100);
    /// ```
    pub fn free(&self) -> usize {
        self.bytes().len() - self.used
    }

    /// How many pages there are.
    ///
    /// ```
    /// assert_eq!(jsx_precompile::catalogue::Catalogue::new(100).count(), 0);
    /// ```
    pub fn count(&self) -> usize {
        self.count
    }

    /// The pages, in the order of their arrival.
    ///
    /// ```
    /// use jsx_precompile::catalogue::{Catalogue, Shares};
    ///
    /// let mut catalogue = Catalogue::new(100);
    /// catalogue.add(9, 1, &Shares::new(), &[], &[])?;
    /// catalogue.add(5, 2, &Shares::new(), &[], b"\x13\0\0")?;
    /// assert!(catalogue.pages().map(|page| (page.name(), page.house(), page.bytes())).eq([(9, 1, 14), (5, 2, 17)]));
    /// # Ok::<(), jsx_precompile::catalogue::CatalogueError>(())
    /// ```
    pub fn pages(&self) -> Pages<'_> {
        Pages::new(&self.bytes()[..self.used])
    }

    /// The page of that name.
    ///
    /// ```
    /// assert_eq!(jsx_precompile::catalogue::Catalogue::new(100).page(5), None);
    /// ```
    pub fn page(&self, name: u32) -> Option<StandingPage<'_>> {
        self.pages().find(|page| page.name() == name)
    }

    /// The templates of all pages, page by page in the order of their arrival.
    ///
    /// ```
    /// assert_eq!(jsx_precompile::catalogue::Catalogue::new(100).templates().count(), 0);
    /// ```
    pub fn templates(&self) -> impl Iterator<Item = Template<'_>> {
        self.pages().flat_map(|page| page.templates())
    }

    /// The template with this number, and its page.
    ///
    /// ```
    /// use jsx_precompile::catalogue::{Catalogue, Shares};
    ///
    /// let (templates, page) = (b"\x84\0\x0d\0\0\0\x01\0\0\x81\0\x04<br>", b"\x12\0\x07\x90\0\x04\0\0\0\x01");
    /// let mut catalogue = Catalogue::new(100);
    /// catalogue.add(9, 1, &Shares::new(), templates, page)?;
    /// let (page, template) = catalogue.template(1).unwrap();
    /// assert_eq!((page.name(), template.strings().next()), (9, Some("<br>")));
    /// assert!(catalogue.template(2).is_none());
    /// # Ok::<(), jsx_precompile::catalogue::CatalogueError>(())
    /// ```
    pub fn template(&self, number: u32) -> Option<(StandingPage<'_>, Template<'_>)> {
        let page = self.pages().find(|page| page.numbers().contains(&number))?;
        Some((page, page.template(number)?))
    }

    /// The bytes of a house's pages.
    ///
    /// ```
    /// use jsx_precompile::catalogue::{Catalogue, Shares};
    ///
    /// let mut catalogue = Catalogue::new(100);
    /// catalogue.add(5, 2, &Shares::new(), &[], b"\x13\0\0")?;
    /// assert_eq!([1, 2].map(|house| catalogue.used_by(house)), [0, 17]);
    /// # Ok::<(), jsx_precompile::catalogue::CatalogueError>(())
    /// ```
    pub fn used_by(&self, house: u32) -> u64 {
        self.pages().filter(|page| page.house() == house).map(|page| page.bytes() as u64).sum()
    }

    /// The bytes that a page of this house may have now, its front of 14 bytes among them: what is left of the house's
    /// most, and of what is free once the unused guarantees of the other houses are kept. It is refused with one more, and
    /// taken with so many, where the shares fit the catalogue.
    ///
    /// ```
    /// use jsx_precompile::Refusal;
    /// use jsx_precompile::catalogue::{Catalogue, Shares};
    ///
    /// let shares = Shares::new().house(1, 0, 40)?.house(2, 70, 100)?;
    /// let mut catalogue = Catalogue::new(100);
    /// assert_eq!([1, 2, 3].map(|house| catalogue.room(house, &shares)), [30, 100, 30]);
    /// let error = catalogue.add(5, 1, &shares, &[], b"\x12\0\x0e\x20\0\x0bconst a = 1").unwrap_err();
    /// assert_eq!(error.to_string(), "catalogue: 25 (not covered): the page has 31 bytes; 100 are free, 70 of them kept for other houses");
    /// catalogue.add(5, 1, &shares, &[], b"\x12\0\x0d\x20\0\x0aconst a = ")?;
    /// assert_eq!([1, 2, 3].map(|house| catalogue.room(house, &shares)), [0, 70, 0]);
    /// # Ok::<(), Box<dyn std::error::Error>>(())
    /// ```
    pub fn room(&self, house: u32, shares: &Shares) -> u64 {
        let left = shares.share(house).map_or(0, |share| u64::from(share.most).saturating_sub(self.used_by(house)));
        left.min((self.free() as u64).saturating_sub(self.kept(house, shares)))
    }

    /// What the other houses have not used of their guarantees.
    fn kept(&self, house: u32, shares: &Shares) -> u64 {
        let mut used = [0; HOUSES + 1];
        for page in self.pages() {
            used[page.house() as usize] += page.bytes() as u64;
        }
        let others = (1..=HOUSES).filter(|other| *other != house as usize);
        let unused = |house: usize| {
            let share = shares.share(house as u32).unwrap_or(Share::FREE);
            u64::from(share.guaranteed).saturating_sub(used[house])
        };
        others.map(unused).sum()
    }
}

impl<B: AsRef<[u8]> + AsMut<[u8]>> Catalogue<B> {
    /// A page arrives: its templates and its page out, as the transform writes them, become those of the house, numbered
    /// on from the pages before it.
    ///
    /// ```
    /// use jsx_precompile::catalogue::{Catalogue, CatalogueError, Shares};
    ///
    /// let shares = Shares::new().house(1, 0, 16)?;
    /// let mut catalogue = Catalogue::new(100);
    /// let error = catalogue.add(5, 1, &shares, &[], b"\x13\0\0").unwrap_err();
    /// assert_eq!(error, CatalogueError::OverMost { house: 1, bytes: 17, most: 16 });
    /// let error = catalogue.add(5, 17, &shares, &[], b"\x13\0\0").unwrap_err();
    /// assert_eq!(error.to_string(), "shares: 26 (bad shares): there is no house 17; they are 1 to 16");
    /// let error = catalogue.add(5, 1, &shares, &[], b"\x12\0\x07\x90\0\x04\0\0\0\x01").unwrap_err();
    /// assert_eq!(error.to_string(), "page out, byte 3, 12 > 90 1: 17 (disagreeing): template 1 is called, and the page has no templates");
    /// # Ok::<(), Box<dyn std::error::Error>>(())
    /// ```
    ///
    /// # Errors
    ///
    /// Whatever there is cause for but [`CatalogueError::NameAbsent`].
    pub fn add(
        &mut self,
        name: u32,
        house: u32,
        shares: &Shares,
        templates: &[u8],
        page: &[u8],
    ) -> Result<(), CatalogueError> {
        let answer = add_into(self.bytes.as_mut(), name, house, &shares.numbers(), templates, page);
        self.after(answer).map_err(|refusal| match refusal {
            Refusal::BadShares => CatalogueError::Shares(self.bad_shares(house, shares)),
            Refusal::NamePresent => {
                let (house, at) = self.page(name).map_or((0, 0), |page| (page.house(), page.at()));
                CatalogueError::NamePresent { name, house, at }
            }
            Refusal::OverMost => {
                let bytes = self.used_by(house) + (FRONT + templates.len() + page.len()) as u64;
                let most = shares.share(house).unwrap_or(Share::FREE).most;
                CatalogueError::OverMost { house, bytes, most }
            }
            Refusal::NotCovered => {
                let (bytes, free) = (FRONT + templates.len() + page.len(), self.free());
                CatalogueError::NotCovered { bytes, free, kept: self.kept(house, shares) }
            }
            _ => self.unsound(refusal).unwrap_or_else(|| {
                CatalogueError::Page(arrives(templates, page, 0).err().unwrap_or(unknown(Input::PageOut, refusal)))
            }),
        })
    }

    /// The page of that name leaves. Later pages close up, and their numbers with them.
    ///
    /// ```
    /// use jsx_precompile::catalogue::{Catalogue, CatalogueError, Shares};
    ///
    /// let mut catalogue = Catalogue::new(100);
    /// catalogue.add(5, 1, &Shares::new(), &[], b"\x13\0\0")?;
    /// catalogue.remove(5)?;
    /// assert_eq!(catalogue, Catalogue::new(100));
    /// assert_eq!(catalogue.remove(5), Err(CatalogueError::NameAbsent { name: 5 }));
    /// # Ok::<(), CatalogueError>(())
    /// ```
    ///
    /// # Errors
    ///
    /// [`CatalogueError::Unsound`] and [`CatalogueError::NameAbsent`].
    pub fn remove(&mut self, name: u32) -> Result<(), CatalogueError> {
        let answer = remove_from(self.bytes.as_mut(), name);
        self.after(answer).map_err(|refusal| match refusal {
            Refusal::NameAbsent => CatalogueError::NameAbsent { name },
            _ => self.unsound(refusal).unwrap_or(CatalogueError::Unsound(unknown(Input::Catalogue, refusal))),
        })
    }

    fn after(&mut self, answer: CatalogueAnswer) -> Result<(), Refusal> {
        match answer.refusal() {
            Some(refusal) => Err(refusal),
            None => {
                (self.used, self.count) = (answer.used, answer.pages);
                Ok(())
            }
        }
    }

    /// Where the catalogue is what is refused; of one that was sound, it is over the limit.
    fn unsound(&self, refusal: Refusal) -> Option<CatalogueError> {
        read(self.bytes()).err().filter(|fault| fault.refusal == refusal).map(CatalogueError::Unsound)
    }

    fn bad_shares(&self, house: u32, shares: &Shares) -> SharesError {
        match (shares.share(house), shares.fit(self.bytes().len())) {
            (Some(_), Err(error)) => error,
            _ => SharesError::NoHouse(house),
        }
    }
}

/// The library's refusal, where its place is not found.
fn unknown(input: Input, refusal: Refusal) -> Fault {
    Fault { input, at: 0, path: Path::default(), refusal, reason: refusal.explanation().to_string() }
}
