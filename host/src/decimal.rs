//! Numbers with places behind the point.

use crate::limits::{MAX_DIGITS, MAX_PLACES};
use std::fmt;
use std::str::FromStr;

/// A decimal without a sign: digits with the point so many places before their end. 02's fields 7a and 7b.
///
/// Digits and places are kept as they come: `12.50` is not made `12.5`, and both stay apart in a page and in what comes
/// out of it. They are written alike, without needless zeros.
///
/// ```
/// use jsx_precompile::Decimal;
///
/// let price: Decimal = "12.50".parse()?;
/// assert_eq!((price.digits(), price.places()), (1250, 2));
/// assert_eq!(price.to_string(), "12.5");
/// assert_ne!(price, Decimal::new(125, 1)?);
/// # Ok::<(), jsx_precompile::DecimalError>(())
/// ```
#[derive(Clone, Copy, Debug, PartialEq, Eq, Hash)]
pub struct Decimal {
    digits: u64,
    places: u8,
}

impl Decimal {
    pub(crate) const ZERO: Decimal = Decimal { digits: 0, places: 0 };

    /// These digits with the point so many places before their end; an error where one of them is over its limit,
    /// [`MAX_DIGITS`] and [`MAX_PLACES`].
    ///
    /// ```
    /// use jsx_precompile::{Decimal, DecimalError};
    ///
    /// assert_eq!(Decimal::new(5, 2)?.to_string(), "0.05");
    /// assert_eq!(Decimal::new(5, 16), Err(DecimalError::TooManyPlaces(16)));
    /// # Ok::<(), DecimalError>(())
    /// ```
    pub fn new(digits: u64, places: u8) -> Result<Decimal, DecimalError> {
        if digits > MAX_DIGITS {
            return Err(DecimalError::TooManyDigits(digits.to_string()));
        }
        if places > MAX_PLACES {
            return Err(DecimalError::TooManyPlaces(places.into()));
        }
        Ok(Decimal { digits, places })
    }

    /// The digits, without the point.
    ///
    /// ```
    /// assert_eq!("0.050".parse::<jsx_precompile::Decimal>()?.digits(), 50);
    /// # Ok::<(), jsx_precompile::DecimalError>(())
    /// ```
    pub fn digits(self) -> u64 {
        self.digits
    }

    /// How many of the digits stand behind the point, zeros at the end too.
    ///
    /// ```
    /// assert_eq!("0.050".parse::<jsx_precompile::Decimal>()?.places(), 3);
    /// # Ok::<(), jsx_precompile::DecimalError>(())
    /// ```
    pub fn places(self) -> u8 {
        self.places
    }

    /// The body of a field: eight bytes of digits, high byte first, and one of places.
    pub(crate) fn to_bytes(self) -> [u8; 9] {
        let mut bytes = [self.places; 9];
        bytes[..8].copy_from_slice(&self.digits.to_be_bytes());
        bytes
    }

    /// Of a body: none where it has another length than nine, the error where it is over a limit.
    pub(crate) fn from_bytes(body: &[u8]) -> Option<Result<Decimal, DecimalError>> {
        let body: [u8; 9] = body.try_into().ok()?;
        let [digits @ .., places] = body;
        Some(Decimal::new(u64::from_be_bytes(digits), places))
    }
}

/// As a page has it in its HTML: no zeros at the end behind the point, no bare point, a 0 before the point where no digit
/// stands there.
///
/// ```
/// use jsx_precompile::Decimal;
///
/// for (text, written) in [("12.50", "12.5"), ("12.00", "12"), ("120", "120"), ("0.0", "0"), ("007.5", "7.5")] {
///     assert_eq!(text.parse::<Decimal>()?.to_string(), written);
/// }
/// # Ok::<(), jsx_precompile::DecimalError>(())
/// ```
impl fmt::Display for Decimal {
    fn fmt(&self, f: &mut fmt::Formatter<'_>) -> fmt::Result {
        let (mut digits, mut places) = (self.digits, usize::from(self.places));
        while places > 0 && digits % 10 == 0 {
            digits /= 10;
            places -= 1;
        }
        let power = 10_u64.pow(places as u32);
        match places {
            0 => write!(f, "{digits}"),
            _ => write!(f, "{}.{:0places$}", digits / power, digits % power),
        }
    }
}

/// From digits, with a point and more digits behind it or without: no sign, no exponent. Places are kept as written.
///
/// ```
/// use jsx_precompile::{Decimal, DecimalError};
///
/// assert_eq!("12.50".parse(), Decimal::new(1250, 2));
/// assert_eq!("12".parse(), Decimal::new(12, 0));
/// for text in ["", ".5", "5.", "1e3", "-1", "1,5", "1.2.3", " 1"] {
///     assert!(matches!(text.parse::<Decimal>(), Err(DecimalError::NoDecimal(..))), "{text}");
/// }
/// ```
impl FromStr for Decimal {
    type Err = DecimalError;

    fn from_str(text: &str) -> Result<Decimal, DecimalError> {
        let no = |reason| Err(DecimalError::NoDecimal(text.to_string(), reason));
        let (whole, fraction) = match text.split_once('.') {
            Some((_, "")) => return no("no digit stands behind the point"),
            Some(parts) => parts,
            None => (text, ""),
        };
        if whole.is_empty() {
            return no(if text.is_empty() { "it is empty" } else { "no digit stands before the point" });
        }
        if !whole.bytes().chain(fraction.bytes()).all(|sign| sign.is_ascii_digit()) {
            return no("only digits and one point may stand in it");
        }
        let places = u8::try_from(fraction.len()).map_err(|_| DecimalError::TooManyPlaces(fraction.len()))?;
        let digits = format!("{whole}{fraction}");
        match digits.parse() {
            Ok(digits) => Decimal::new(digits, places),
            // Only digits stand there, so that there are too many for the type.
            Err(_) => Err(DecimalError::TooManyDigits(digits.trim_start_matches('0').to_string())),
        }
    }
}

/// Why a number is no [`Decimal`]. It can still be passed as source text.
///
/// ```
/// use jsx_precompile::{Decimal, DecimalError};
///
/// let error = "1e3".parse::<Decimal>().unwrap_err();
/// assert_eq!(error.to_string(), "\"1e3\" is no decimal: only digits and one point may stand in it");
/// let error = "1000000000000.000".parse::<Decimal>().unwrap_err();
/// assert_eq!(error.to_string(), "the digits 1000000000000000 are over 999999999999999");
/// let error = "0.1234567890123456".parse::<Decimal>().unwrap_err();
/// assert_eq!(error.to_string(), "the digits 1234567890123456 are over 999999999999999");
/// let error = "0.0000000000000001".parse::<Decimal>().unwrap_err();
/// assert_eq!(error.to_string(), "16 places behind the point, at most 15 are taken");
/// ```
#[derive(Clone, Debug, PartialEq, Eq)]
pub enum DecimalError {
    /// This text is no decimal, and why.
    NoDecimal(String, &'static str),
    /// These digits, all taken together, are over [`MAX_DIGITS`].
    TooManyDigits(String),
    /// So many places are over [`MAX_PLACES`].
    TooManyPlaces(usize),
}

impl fmt::Display for DecimalError {
    fn fmt(&self, f: &mut fmt::Formatter<'_>) -> fmt::Result {
        match self {
            DecimalError::NoDecimal(text, reason) => write!(f, "{text:?} is no decimal: {reason}"),
            DecimalError::TooManyDigits(digits) => write!(f, "the digits {digits} are over {MAX_DIGITS}"),
            DecimalError::TooManyPlaces(places) => {
                write!(f, "{places} places behind the point, at most {MAX_PLACES} are taken")
            }
        }
    }
}

impl std::error::Error for DecimalError {}
