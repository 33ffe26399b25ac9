//! Why a page does not come or leave.

use super::shares::SharesError;
use crate::check::Fault;
use crate::refusal::Refusal;
use std::fmt;

/// Why a page does not come or leave; the catalogue is then as it was. The first of these that there is cause for, in this
/// order.
///
/// ```
/// use jsx_precompile::Refusal;
/// use jsx_precompile::catalogue::{Catalogue, CatalogueError, Shares};
///
/// let mut catalogue = Catalogue::new(100);
/// catalogue.add(5, 1, &Shares::new(), &[], b"\x13\0\0")?;
/// let error = catalogue.add(5, 2, &Shares::new(), &[], b"\x13\0\0").unwrap_err();
/// assert_eq!(error, CatalogueError::NamePresent { name: 5, house: 1, at: 0 });
/// assert_eq!(error.refusal(), Refusal::NamePresent);
/// assert_eq!(error.to_string(), "catalogue, byte 0: 21 (name present): page 5 stands there, of house 1");
/// # Ok::<(), CatalogueError>(())
/// ```
#[derive(Clone, Debug, PartialEq, Eq)]
pub enum CatalogueError {
    /// 4: the catalogue is not sound.
    Unsound(Fault),
    /// 3 to 7 and 17: the templates or the page out of the page that arrives are none, or do not agree.
    Page(Fault),
    /// 26: there is no such house, or more is guaranteed than the catalogue has.
    Shares(SharesError),
    /// 21: a page of that name is there.
    NamePresent {
        /// That of the page that arrives.
        name: u32,
        /// To which the page belongs that is there.
        house: u32,
        /// Where it stands.
        at: usize,
    },
    /// 22: no page of that name is there.
    NameAbsent {
        /// That of the page that is to leave.
        name: u32,
    },
    /// 24: the house would have more than its most.
    OverMost {
        /// That of the page.
        house: u32,
        /// What it would have with the page.
        bytes: u64,
        /// What it may have.
        most: u32,
    },
    /// 25: what is free does not hold the page and what is kept for the other houses.
    NotCovered {
        /// The bytes of the page.
        bytes: usize,
        /// What is free, before it comes.
        free: usize,
        /// What the other houses have not used of their guarantees.
        kept: u64,
    },
}

impl CatalogueError {
    /// The refusal.
    ///
    /// ```
    /// use jsx_precompile::{Refusal, catalogue::CatalogueError};
    ///
    /// assert_eq!(CatalogueError::NameAbsent { name: 5 }.refusal(), Refusal::NameAbsent);
    /// ```
    pub fn refusal(&self) -> Refusal {
        match self {
            CatalogueError::Unsound(fault) | CatalogueError::Page(fault) => fault.refusal,
            CatalogueError::Shares(_) => Refusal::BadShares,
            CatalogueError::NamePresent { .. } => Refusal::NamePresent,
            CatalogueError::NameAbsent { .. } => Refusal::NameAbsent,
            CatalogueError::OverMost { .. } => Refusal::OverMost,
            CatalogueError::NotCovered { .. } => Refusal::NotCovered,
        }
    }
}

impl fmt::Display for CatalogueError {
    fn fmt(&self, f: &mut fmt::Formatter<'_>) -> fmt::Result {
        let refusal = self.refusal();
        let (number, word) = (refusal.number(), refusal.word());
        match self {
            CatalogueError::Unsound(fault) | CatalogueError::Page(fault) => write!(f, "{fault}"),
            CatalogueError::Shares(error) => write!(f, "shares: {number} ({word}): {error}"),
            CatalogueError::NamePresent { name, house, at } => {
                write!(f, "catalogue, byte {at}: {number} ({word}): page {name} stands there, of house {house}")
            }
            CatalogueError::NameAbsent { name } => {
                write!(f, "catalogue: {number} ({word}): there is no page {name}")
            }
            CatalogueError::OverMost { house, bytes, most } => {
                write!(f, "shares: {number} ({word}): house {house} would have {bytes} bytes, and may have {most}")
            }
            CatalogueError::NotCovered { bytes, free, kept } => write!(
                f,
                "catalogue: {number} ({word}): the page has {bytes} bytes; {free} are free, {kept} of them kept for other houses"
            ),
        }
    }
}

impl std::error::Error for CatalogueError {}
