//! Code 128 with the signatures of `barcoders::sym::code128`: change only the `use` lines, this one
//! and that of `barcoders::error`.
//!
//! ```
//! use slatmonief::sym::code128::*;
//!
//! let barcode = Code128::new("ÀHE@$AĆ123456").unwrap();
//! let encoded: Vec<u8> = barcode.encode();
//! assert_eq!(encoded.len(), 11 * 11 + 13);
//! ```
//!
//! It answers as barcoders does, with two differences:
//!
//! - data with ź (FNC2), which barcoders takes in sets A and B, is refused by [`Error::Character`];
//! - data of more than 4,000 symbols is refused by [`Error::Length`], if it has no ź. Before
//!   version 1.4.0 the limit was 255.
//!
//! [`crate::encode`] describes the data; [`crate::encode_str`] also says at which place the data
//! cannot be encoded.
//!
//! [`Error::Character`]: crate::error::Error::Character
//! [`Error::Length`]: crate::error::Error::Length
use crate::error::Result;
use alloc::vec::Vec;

/// A Code 128 barcode. Two are equal if their rows are.
#[derive(Clone, Debug, PartialEq, Eq, Hash)]
pub struct Code128(Vec<u8>);

impl Code128 {
    /// Makes a barcode of this data.
    ///
    /// Returns [`Error::Character`] if a character cannot be encoded at its place, a digit is left
    /// over, or the data has a ź (FNC2); and [`Error::Length`] if the data has fewer than two UTF-8
    /// bytes or needs more than 4,000 symbols.
    ///
    /// [`Error::Character`]: crate::error::Error::Character
    /// [`Error::Length`]: crate::error::Error::Length
    pub fn new<T: AsRef<str>>(data: T) -> Result<Code128> {
        Ok(Code128(crate::encode_str(data.as_ref())?))
    }

    /// The cells of the barcode's row: 1 for a bar, 0 for a space.
    pub fn encode(&self) -> Vec<u8> {
        self.0.clone()
    }
}
