//! What each house is guaranteed of a catalogue, and the most that it may have. Document 02, A14.

use crate::limits::HOUSES;
use std::fmt;
use std::str::FromStr;

/// What one house is guaranteed, and the most that it may have, in bytes of the catalogue; a page counts from its 97.
///
/// ```
/// use jsx_precompile::catalogue::Share;
///
/// assert_eq!(Share::FREE, Share { guaranteed: 0, most: u32::MAX });
/// ```
#[derive(Clone, Copy, Debug, PartialEq, Eq)]
pub struct Share {
    /// So many bytes are kept for it.
    pub guaranteed: u32,
    /// It has no more than so many.
    pub most: u32,
}

impl Share {
    /// Nothing is kept for the house, and it may have all that is free.
    ///
    /// ```
    /// use jsx_precompile::catalogue::{Share, Shares};
    ///
    /// assert_eq!(Shares::new().share(16), Some(Share::FREE));
    /// ```
    pub const FREE: Share = Share { guaranteed: 0, most: u32::MAX };
}

/// The shares of the 16 houses. They are not in the catalogue: each arrival brings them.
///
/// As text, a line for each house that is not [free](Share::FREE): its number, what it is guaranteed, and the most that it
/// may have, or `-` for no limit. What follows a `#` is a remark.
///
/// ```
/// use jsx_precompile::catalogue::{Share, Shares};
///
/// let shares = Shares::new().house(1, 600, 4_000)?.house(2, 300, u32::MAX)?;
/// assert_eq!(shares.share(1), Some(Share { guaranteed: 600, most: 4_000 }));
/// assert_eq!(shares.to_string(), "1 600 4000\n2 300 -\n");
/// assert_eq!("# a festival\n2 300 -\n1 600 4000 # the large one\n".parse(), Ok(shares));
/// # Ok::<(), jsx_precompile::catalogue::SharesError>(())
/// ```
#[derive(Clone, Debug, PartialEq, Eq)]
pub struct Shares([Share; HOUSES]);

impl Default for Shares {
    fn default() -> Shares {
        Shares::new()
    }
}

impl Shares {
    /// Every house is [free](Share::FREE).
    ///
    /// ```
    /// use jsx_precompile::catalogue::Shares;
    ///
    /// assert_eq!(Shares::new().guaranteed(), 0);
    /// ```
    pub fn new() -> Shares {
        Shares([Share::FREE; HOUSES])
    }

    /// With this share of a house, 1 to 16.
    ///
    /// ```
    /// use jsx_precompile::catalogue::{Shares, SharesError};
    ///
    /// assert!(Shares::new().house(16, 5, 5).is_ok());
    /// assert_eq!(Shares::new().house(17, 5, 5), Err(SharesError::NoHouse(17)));
    /// let error = Shares::new().house(3, 6, 5).unwrap_err();
    /// assert_eq!(error.to_string(), "house 3 is guaranteed 6 bytes and may have 5");
    /// ```
    ///
    /// # Errors
    ///
    /// [`SharesError::NoHouse`] and [`SharesError::AboveMost`].
    pub fn house(mut self, house: u32, guaranteed: u32, most: u32) -> Result<Shares, SharesError> {
        let share = index(house).and_then(|at| self.0.get_mut(at)).ok_or(SharesError::NoHouse(house))?;
        if guaranteed > most {
            return Err(SharesError::AboveMost { house, guaranteed, most });
        }
        *share = Share { guaranteed, most };
        Ok(self)
    }

    /// That of a house; none where there is no such house.
    ///
    /// ```
    /// use jsx_precompile::catalogue::Shares;
    ///
    /// assert!([0, 17].iter().all(|house| Shares::new().share(*house).is_none()));
    /// ```
    pub fn share(&self, house: u32) -> Option<Share> {
        index(house).and_then(|at| self.0.get(at)).copied()
    }

    /// All guarantees together.
    ///
    /// ```
    /// use jsx_precompile::catalogue::Shares;
    ///
    /// assert_eq!(Shares::new().house(1, u32::MAX, u32::MAX)?.house(9, 1, 1)?.guaranteed(), 1 << 32);
    /// # Ok::<(), jsx_precompile::catalogue::SharesError>(())
    /// ```
    pub fn guaranteed(&self) -> u64 {
        self.0.iter().map(|share| u64::from(share.guaranteed)).sum()
    }

    /// Whether a catalogue of so many bytes has room for all guarantees.
    ///
    /// ```
    /// use jsx_precompile::catalogue::Shares;
    ///
    /// let shares = Shares::new().house(1, 300, 300)?.house(2, 300, 300)?;
    /// assert!(shares.fit(600).is_ok());
    /// let error = shares.fit(599).unwrap_err();
    /// assert_eq!(error.to_string(), "600 bytes are guaranteed, and the catalogue has 599");
    /// # Ok::<(), jsx_precompile::catalogue::SharesError>(())
    /// ```
    ///
    /// # Errors
    ///
    /// [`SharesError::AboveCatalogue`].
    pub fn fit(&self, catalogue: usize) -> Result<(), SharesError> {
        let guaranteed = self.guaranteed();
        if guaranteed > catalogue as u64 {
            return Err(SharesError::AboveCatalogue { guaranteed, catalogue });
        }
        Ok(())
    }

    /// As the library takes them: guaranteed and most of house 1, of house 2, and so on.
    ///
    /// ```
    /// use jsx_precompile::catalogue::Shares;
    ///
    /// assert_eq!(Shares::new().house(2, 7, 8)?.numbers()[..6], [0, u32::MAX, 7, 8, 0, u32::MAX]);
    /// # Ok::<(), jsx_precompile::catalogue::SharesError>(())
    /// ```
    pub fn numbers(&self) -> [u32; 2 * HOUSES] {
        let mut numbers = [0; 2 * HOUSES];
        for (pair, share) in numbers.chunks_exact_mut(2).zip(self.0) {
            pair.copy_from_slice(&[share.guaranteed, share.most]);
        }
        numbers
    }

    /// Of such numbers.
    ///
    /// ```
    /// use jsx_precompile::catalogue::{Shares, SharesError};
    ///
    /// let shares = Shares::new().house(2, 7, 8)?;
    /// assert_eq!(Shares::from_numbers(&shares.numbers()), Ok(shares));
    /// assert_eq!(Shares::from_numbers(&[1, 2]), Err(SharesError::Count(2)));
    /// # Ok::<(), SharesError>(())
    /// ```
    ///
    /// # Errors
    ///
    /// [`SharesError::Count`] and [`SharesError::AboveMost`].
    pub fn from_numbers(numbers: &[u32]) -> Result<Shares, SharesError> {
        if numbers.len() != 2 * HOUSES {
            return Err(SharesError::Count(numbers.len()));
        }
        let pairs = (1..).zip(numbers.chunks_exact(2));
        pairs.into_iter().try_fold(Shares::new(), |shares, (house, pair)| shares.house(house, pair[0], pair[1]))
    }
}

/// Where the share of a house stands.
fn index(house: u32) -> Option<usize> {
    (house as usize).checked_sub(1)
}

/// Why shares are none.
///
/// ```
/// use jsx_precompile::catalogue::{Shares, SharesError};
///
/// assert_eq!("1 7 9\n2 7\n".parse::<Shares>(), Err(SharesError::Line(2)));
/// ```
#[derive(Clone, Debug, PartialEq, Eq)]
pub enum SharesError {
    /// Houses are numbered from 1 to 16.
    NoHouse(u32),
    /// A house is guaranteed more than it may have.
    AboveMost {
        /// Its number.
        house: u32,
        /// What it is guaranteed.
        guaranteed: u32,
        /// What it may have.
        most: u32,
    },
    /// All houses together are guaranteed more than there is.
    AboveCatalogue {
        /// All guarantees together.
        guaranteed: u64,
        /// The bytes of the catalogue.
        catalogue: usize,
    },
    /// So many numbers where 32 are needed.
    Count(usize),
    /// A line of text, counted from 1, that is not the number of a house and two numbers up to 4,294,967,295.
    Line(usize),
    /// A line of text on which a house stands that stood before.
    Twice {
        /// The line, counted from 1.
        line: usize,
        /// The number of the house.
        house: u32,
    },
}

impl fmt::Display for SharesError {
    fn fmt(&self, f: &mut fmt::Formatter<'_>) -> fmt::Result {
        match self {
            SharesError::NoHouse(house) => write!(f, "there is no house {house}; they are 1 to {HOUSES}"),
            SharesError::AboveMost { house, guaranteed, most } => {
                write!(f, "house {house} is guaranteed {guaranteed} bytes and may have {most}")
            }
            SharesError::AboveCatalogue { guaranteed, catalogue } => {
                write!(f, "{guaranteed} bytes are guaranteed, and the catalogue has {catalogue}")
            }
            SharesError::Count(count) => write!(f, "{count} numbers, and there must be {}", 2 * HOUSES),
            SharesError::Line(line) => {
                write!(f, "line {line} is not a house, what it is guaranteed, and the most that it may have")
            }
            SharesError::Twice { line, house } => write!(f, "house {house} stands on line {line} again"),
        }
    }
}

impl std::error::Error for SharesError {}

/// The sign for no limit.
const NO_LIMIT: &str = "-";

impl FromStr for Shares {
    type Err = SharesError;

    fn from_str(text: &str) -> Result<Shares, SharesError> {
        let mut shares = Shares::new();
        let mut seen = vec![];
        for (line, text) in (1..).zip(text.lines()) {
            let words: Vec<&str> = text.split('#').next().unwrap_or_default().split_whitespace().collect();
            if words.is_empty() {
                continue;
            }
            let [house, guaranteed, most] = numbers(&words).ok_or(SharesError::Line(line))?;
            if seen.contains(&house) {
                return Err(SharesError::Twice { line, house });
            }
            seen.push(house);
            shares = shares.house(house, guaranteed, most)?;
        }
        Ok(shares)
    }
}

fn numbers(words: &[&str]) -> Option<[u32; 3]> {
    let [house, guaranteed, most] = words else { return None };
    let most = if *most == NO_LIMIT { u32::MAX } else { most.parse().ok()? };
    Some([house.parse().ok()?, guaranteed.parse().ok()?, most])
}

impl fmt::Display for Shares {
    fn fmt(&self, f: &mut fmt::Formatter<'_>) -> fmt::Result {
        for (house, share) in (1..).zip(self.0).filter(|(_, share): &(u32, Share)| *share != Share::FREE) {
            let most = if share.most == u32::MAX { NO_LIMIT.to_string() } else { share.most.to_string() };
            writeln!(f, "{house} {} {most}", share.guaranteed)?;
        }
        Ok(())
    }
}
