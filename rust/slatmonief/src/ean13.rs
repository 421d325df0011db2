//! EAN-13 rows, as on goods and books: written and read back. Here since version 1.6.0.
//!
//! # Words
//!
//! - A *number* has 13 digits, and the last of them is its check digit. Add up all 13, those at odd
//!   places (1, 3 and so on to 11) three times each: the check digit is the one that makes this sum
//!   a multiple of 10.
//! - A *text* is the ASCII digits of a number, with the check digit (13) or without it (12). No
//!   spaces or hyphens: an ISBN is given as `9783161484100`.
//! - A *row* is the 95 cells of a number. A *cell* is a byte: 1 for a bar, 0 for a space.
//! - Places in texts count from 0.
//!
//! # UPC-A
//!
//! A UPC-A number has 12 digits, and its check digit is one of them. It is the EAN-13 number with a
//! 0 ahead of it, so give [`write()`] the 0 and all 12 digits. The 12 digits alone would be taken
//! for another number, whose check digit is left out.
//!
//! # Example
//!
//! ```
//! use slatmonief::ean13;
//!
//! let row = ean13::write_str("400638133393")?;
//! assert_eq!(row.len(), 95);
//! assert_eq!(row, ean13::write_str("4006381333931")?);
//! assert_eq!(ean13::read_row(&row)?, "4006381333931");
//!
//! let refusal = ean13::write_str("4006381333930").unwrap_err();
//! assert_eq!((refusal.number(), refusal.second()), (32, 1));
//! assert_eq!(
//!     refusal.to_string(),
//!     "refusal 32: the check digit is wrong, 1 would be right"
//! );
//!
//! let upc_a = "036000291452";
//! assert!(ean13::write_str(&format!("0{upc_a}")).is_ok());
//! # Ok::<(), slatmonief::Refusal>(())
//! ```
use crate::{job, Numbers, Refusal};
use alloc::string::String;
use alloc::vec::Vec;

/// The cells of a row.
pub const CELLS: usize = 95;
/// The digits of a number, its check digit among them.
pub const DIGITS: usize = 13;

extern "C" {
    fn slatmonief_ean13_write(
        text: *const u8,
        text_len: usize,
        row: *mut u8,
        row_len: usize,
    ) -> Numbers;
    fn slatmonief_ean13_read(
        row: *const u8,
        row_len: usize,
        text: *mut u8,
        text_len: usize,
    ) -> Numbers;
}

job! {
    /// The call of write, whose refusals do not say yet what stands at their place.
    call_write, slatmonief_ean13_write, WriteEan13, text: u8, row: u8
}

/// Writes the row of a number, given as ASCII digits; returns [`CELLS`], the number of cells
/// written.
///
/// To 12 digits the check digit is added; of 13 digits the last is tested. So a number has the same
/// row with its check digit and without it.
///
/// # Refusals, in this order
///
/// | Number | Reason | Second number |
/// |---|---|---|
/// | 30 | the text has neither 12 nor 13 bytes | its length |
/// | 31 | a byte is none of the ASCII digits | the place of the first such byte |
/// | 32 | the last of 13 digits is not the check digit | the right one, a number from 0 to 9 |
/// | 5 | `row` is too short | 95 |
///
/// # Example
///
/// ```
/// use slatmonief::ean13;
///
/// let mut row = [7; 100];
/// assert_eq!(ean13::write(b"9783161484100", &mut row), Ok(ean13::CELLS));
/// assert_eq!(row[..10], [1, 0, 1, 0, 1, 1, 1, 0, 1, 1]);
/// assert_eq!(row[95..], [7; 5]);
///
/// let refusal = ean13::write(b"978-316148410", &mut row).unwrap_err();
/// assert_eq!((refusal.number(), refusal.second()), (31, 3));
/// assert_eq!(refusal.character(), Some('-'));
/// ```
pub fn write(text: &[u8], row: &mut [u8]) -> Result<usize, Refusal> {
    call_write(text, row).map_err(|refusal| refusal.in_bytes(text))
}

job! {
    /// Reads a row back to all digits of its number, in ASCII; returns [`DIGITS`], the number of
    /// digits written.
    ///
    /// It accepts exactly the rows that [`write()`] writes.
    ///
    /// # Refusals, in this order
    ///
    /// | Number | Reason | Second number |
    /// |---|---|---|
    /// | 33 | [`write()`] never writes this row | 0 |
    /// | 5 | `text` is too short | 13 |
    ///
    /// Refusal 33 is for a length other than 95, a cell that is neither 0 nor 1, a wrong guard,
    /// seven cells that are no digit's, a left side whose parities stand for no first digit, and a
    /// wrong check digit.
    ///
    /// An accepted row with one worn cell is always refused. A row that is upside down is refused
    /// too: turn its cells round and read again.
    ///
    /// # Example
    ///
    /// ```
    /// use slatmonief::ean13;
    ///
    /// let mut row = ean13::write_str("9783161484100").unwrap();
    /// let mut text = [0; ean13::DIGITS];
    /// assert_eq!(ean13::read(&row, &mut text), Ok(13));
    /// assert_eq!(text, *b"9783161484100");
    ///
    /// row[12] ^= 1; // a worn cell
    /// let refusal = ean13::read(&row, &mut text).unwrap_err();
    /// assert_eq!((refusal.number(), refusal.second()), (33, 0));
    /// assert_eq!(refusal.to_string(), "refusal 33: the cells are no EAN-13 row");
    /// ```
    pub read, slatmonief_ean13_read, ReadEan13, row: u8, text: u8
}

/// Writes the row of a number like [`write()`], and returns it.
///
/// The row always has enough room, so refusal 5 does not occur; 30, 31 and 32 do. The length of the
/// text is that in bytes. [`Refusal::offset`] and [`Refusal::character`] say where in the text
/// refusal 31 is, and what stands there.
///
/// The row takes 95 bytes, and a refused text reserves nothing, however long it is.
///
/// # Example
///
/// ```
/// let refusal = slatmonief::ean13::write_str("40063813339é").unwrap_err();
/// assert_eq!((refusal.number(), refusal.second()), (31, 11));
/// assert_eq!((refusal.offset(), refusal.character()), (Some(11), Some('é')));
/// assert_eq!(
///     refusal.to_string(),
///     "refusal 31: `é` at place 11 is none of the digits 0 to 9"
/// );
/// ```
pub fn write_str(text: &str) -> Result<Vec<u8>, Refusal> {
    let mut row = [0; CELLS];
    call_write(text.as_bytes(), &mut row).map_err(|refusal| refusal.in_digits(text))?;
    Ok(row.to_vec())
}

/// Reads a row like [`read`], and returns the 13 digits. Refusal 5 does not occur; 33 does.
///
/// The digits take 13 bytes, and a refused row reserves nothing, however long it is.
pub fn read_row(row: &[u8]) -> Result<String, Refusal> {
    let mut text = [0; DIGITS];
    read(row, &mut text)?;
    Ok(text.map(char::from).iter().collect())
}
