//! The error type of the crate barcoders, with the same names and messages.
use crate::Refusal;
use core::fmt;

/// Why a barcode cannot be encoded.
#[derive(Copy, Clone, Debug, PartialEq, Eq, Hash)]
pub enum Error {
    /// The data has a character that cannot be encoded at its place.
    Character,
    /// The data is too short or too long.
    Length,
    /// A picture cannot be made. This crate never returns it.
    Generate,
    /// The check is wrong. This crate returns it for the check digit of an EAN-13 number, and as
    /// what a [`Refusal`] of [`crate::read`] becomes.
    Checksum,
}

/// A `Result` with this error.
pub type Result<T> = ::core::result::Result<T, Error>;

/// The error that stands for a refusal, so that `?` works in a function that returns [`Result`].
/// [`Code128::new`](crate::sym::code128::Code128::new) uses it, where 2, 3, 19 and 4 occur, and
/// [`EAN13::new`](crate::sym::ean13::EAN13::new), where 30, 31 and 32 do.
///
/// | Refusal | Error |
/// |---|---|
/// | 2, 4, 5, 10, 20, 22, 30: a text, row, list, record or buffer has a wrong length | `Length` |
/// | 1, 3, 19, 31: a character cannot be encoded | `Character` |
/// | 11, 12, 13, 15, 16, 21, 23: a cell, block, number, version or bit is wrong | `Character` |
/// | 33: the cells are no EAN-13 row, whatever is wrong with them | `Character` |
/// | 14, 32: the check is wrong | `Checksum` |
///
/// ```
/// use slatmonief::error::{Error, Result};
///
/// fn copied(row: &[u8]) -> Result<Vec<u8>> {
///     Ok(slatmonief::draw_symbols(&slatmonief::read_row(row)?)?)
/// }
/// assert_eq!(copied(&[1, 0, 1]), Err(Error::Length));
/// ```
impl From<Refusal> for Error {
    fn from(refusal: Refusal) -> Error {
        match refusal.number() {
            2 | 4 | 5 | 10 | 20 | 22 | 30 => Error::Length,
            14 | 32 => Error::Checksum,
            _ => Error::Character,
        }
    }
}

impl fmt::Display for Error {
    fn fmt(&self, f: &mut fmt::Formatter<'_>) -> fmt::Result {
        match self {
            Error::Character => write!(f, "Barcode data is invalid"),
            Error::Length => write!(f, "Barcode data length is invalid"),
            Error::Generate => write!(f, "Could not generate barcode data"),
            Error::Checksum => write!(f, "Invalid checksum"),
        }
    }
}

#[cfg(feature = "std")]
impl std::error::Error for Error {}
