//! Code 128 rows: written, read back, packed and unpacked. EAN-13 rows: written and read back.
//!
//! This crate is a thin, safe layer over a library in which every function is proved to do what its
//! documentation says, for every input.
//!
//! The calls of this page are for Code 128. The module [`ean13`] has those for EAN-13.
//!
//! # Words
//!
//! - A *cell* is a byte: 1 for a bar, 0 for a space.
//! - A *symbol list* is a START number (103, 104 or 105) and then data numbers from 0 to 102,
//!   without the check. Its length, n, is from 1 to 4,000 (before version 1.4.0: to 255).
//! - A *row* is the cells of a symbol list, of its check and of the stop: 11(n+1)+13 cells.
//! - A *row record* is a row in few bytes: a version byte, n, and then eight cells in each byte.
//!   [`pack`] describes its two versions.
//! - Places in texts, lists, rows and records count from 0. In a text they count code points
//!   (`char`s), and not bytes; [`Refusal::offset`] is the place in bytes.
//!
//! # Three ways to call it
//!
//! - [`encode`], [`draw`], [`read`], [`spell`], [`scan`], [`pack`] and [`unpack`] write into a
//!   buffer that you lend, and allocate nothing. An accepted call fills the front of the buffer and
//!   leaves the rest of it unchanged. A refused call leaves all of it unchanged and returns a
//!   [`Refusal`]. With a buffer of the size [`MOST_CELLS`], [`MOST_SYMBOLS`], [`MOST_CODE_POINTS`],
//!   [`MOST_SCANNED`] or [`MOST_RECORD`] there is always enough room. Such buffers are for static
//!   or heap memory rather than a small stack. A shorter buffer is refused only if the answer does
//!   not fit: the second number of refusal 5 is the length needed, 11(n+1)+13 cells for a row.
//! - [`encode_str`], [`draw_symbols`], [`read_row`], [`spell_symbols`], [`scan_symbols`],
//!   [`pack_row`] and [`unpack_record`] do the same and return a new `Vec` or `String`. What they
//!   reserve for it goes by the length of the input, and never exceeds those sizes, in elements;
//!   `spell_symbols` then makes a `String` of them. `encode_str` also copies the code points of the
//!   text, if they are no more than [`MOST_CODE_POINTS`].
//! - [`sym::code128::Code128`], [`sym::ean13::EAN13`] and [`error`] have the signatures of the
//!   crate barcoders: see below.
//!
//! # Example
//!
//! ```
//! let row = slatmonief::encode_str("ƁAIMĆ1234")?;
//! let symbols = slatmonief::read_row(&row)?;
//! assert_eq!(symbols, [104, 33, 41, 45, 99, 12, 34]);
//! assert_eq!(slatmonief::scan_symbols(&symbols)?, b"AIM1234");
//! assert_eq!(slatmonief::spell_symbols(&symbols)?, "ƁAIMĆ1234");
//!
//! let record = slatmonief::pack_row(&row)?;
//! assert_eq!(slatmonief::unpack_record(&record)?, row);
//!
//! let refusal = slatmonief::encode_str("Ɓ€").unwrap_err();
//! assert_eq!((refusal.number(), refusal.second()), (3, 1));
//! assert_eq!((refusal.offset(), refusal.character()), (Some(2), Some('€')));
//! assert_eq!(
//!     refusal.to_string(),
//!     "refusal 3: `€` has no number in set B, at place 1 (counted in code points; byte 2)"
//! );
//! # Ok::<(), slatmonief::Refusal>(())
//! ```
//!
//! # For a program that uses barcoders
//!
//! Each `use barcoders::…` line becomes `use slatmonief::…`, and a path that is written out
//! elsewhere changes in the same way:
//!
//! | Was | Is |
//! |---|---|
//! | `use barcoders::sym::code128::*;` | `use slatmonief::sym::code128::*;` |
//! | `use barcoders::sym::ean13::*;` | `use slatmonief::sym::ean13::*;` |
//! | `use barcoders::error::{Error, Result};` | `use slatmonief::error::{Error, Result};` |
//!
//! Or one line at the root of the program, and no other changes:
//!
//! ```
//! extern crate slatmonief as barcoders;
//! # fn main() -> barcoders::error::Result<()> {
//! use barcoders::sym::code128::*;
//!
//! let encoded: Vec<u8> = Code128::new("ÀHE@$AĆ123456")?.encode();
//! # assert_eq!(encoded.len(), 134);
//! # Ok(())
//! # }
//! ```
//!
//! The other symbologies of barcoders and its pictures are not here. [`sym::code128`] and
//! [`sym::ean13`] say which answers differ. A [`Refusal`] becomes an [`error::Error`] by `?` or
//! `into()`.
//!
//! # Without std
//!
//! The feature `std` is on by default, as in barcoders. Without it (`default-features = false`) the
//! crate needs only `alloc`, and its two error types do not implement `std::error::Error`.
//!
//! # Threads
//!
//! The library keeps nothing between two calls. Any number of threads may call it at once.
#![cfg_attr(not(feature = "std"), no_std)]
#![warn(missing_docs)]

extern crate alloc;

pub mod ean13;
pub mod error;
mod refusal;
pub mod sym;
mod text;

use alloc::string::String;
use alloc::vec::Vec;

pub use refusal::Refusal;

/// The most cells that a row has.
pub const MOST_CELLS: usize = 44_024;
/// The most symbols that a list has.
pub const MOST_SYMBOLS: usize = 4_000;
/// The most code points that [`spell`] writes, and that a text has which [`encode`] accepts: one
/// for the START and at most two for each of 3,999 symbols.
pub const MOST_CODE_POINTS: usize = 7_999;
/// The most bytes that [`scan`] writes.
pub const MOST_SCANNED: usize = 7_998;
/// The most bytes that a row record has.
pub const MOST_RECORD: usize = 5_506;

/// What a call of the library answers: 0 and a number, or the number of a refusal and its second
/// number.
#[repr(C)]
struct Numbers {
    number: u32,
    second: usize,
}

extern "C" {
    fn slatmonief_encode(
        text: *const u32,
        text_len: usize,
        row: *mut u8,
        row_len: usize,
    ) -> Numbers;
    fn slatmonief_draw(
        symbols: *const u8,
        symbols_len: usize,
        row: *mut u8,
        row_len: usize,
    ) -> Numbers;
    fn slatmonief_read(
        row: *const u8,
        row_len: usize,
        symbols: *mut u8,
        symbols_len: usize,
    ) -> Numbers;
    fn slatmonief_spell(
        symbols: *const u8,
        symbols_len: usize,
        text: *mut u32,
        text_len: usize,
    ) -> Numbers;
    fn slatmonief_scan(
        symbols: *const u8,
        symbols_len: usize,
        bytes: *mut u8,
        bytes_len: usize,
    ) -> Numbers;
    fn slatmonief_pack(
        row: *const u8,
        row_len: usize,
        record: *mut u8,
        record_len: usize,
    ) -> Numbers;
    fn slatmonief_unpack(
        record: *const u8,
        record_len: usize,
        row: *mut u8,
        row_len: usize,
    ) -> Numbers;
}

/// The answer of a job as a `Result`.
fn answer(job: refusal::Job, a: Numbers) -> Result<usize, Refusal> {
    match a.number {
        0 => Ok(a.second),
        number => Err(Refusal::new(job, number, a.second)),
    }
}

/// A function that calls one job of the library.
macro_rules! job {
    (
        $(#[$doc:meta])*
        $see:vis $name:ident, $extern:ident, $job:ident,
        $input:ident: $from:ty, $output:ident: $to:ty
    ) => {
        $(#[$doc])*
        $see fn $name($input: &[$from], $output: &mut [$to]) -> Result<usize, $crate::Refusal> {
            // SAFETY: both slices are valid for their lengths, a `&` and a `&mut` slice do not
            // overlap, and the library keeps neither of them.
            let numbers = unsafe {
                $extern($input.as_ptr(), $input.len(), $output.as_mut_ptr(), $output.len())
            };
            $crate::answer($crate::refusal::Job::$job, numbers)
        }
    };
}
pub(crate) use job;

job! {
    /// The call of encode, whose refusals do not say yet what stands at their place.
    call_encode, slatmonief_encode, Encode, text: u32, row: u8
}

/// Encodes a text, given as code points, to a row; returns n, the number of symbols.
///
/// The text names its code sets: it begins with À, Ɓ or Ć for set A, B or C, and switches to
/// another set by the same letters. Other letters are written for symbols that have no
/// character of their own: Ź for FNC1, Ż for FNC3, ż for FNC4, Ž for Shift and, in set B, ÷ for
/// DEL. Set C takes digits in pairs, Ź and the switches; a Ź inside a pair gives the same row
/// as a Ź ahead of the pair.
///
/// ź for FNC2 is retired: before version 1.3.0 it was 97 in sets A and B. A row that has this
/// symbol is still read, spelled, scanned and drawn. In set C, 97 is a pair of digits, and ź
/// is refused by 3, as it always was.
///
/// Shift does not change the set in which the next code point is encoded, as in barcoders:
/// `ÀŽa` is refused, since set A has no `a`. [`scan`] does shift: `a` is 65 in set B, and 65 in
/// set A is U+0001, so write `ÀŽ\u{1}` to have an `a` sent.
///
/// # Refusals, in this order
///
/// | Number | Reason | Second number |
/// |---|---|---|
/// | 1 | a value is not a Unicode scalar value | its place |
/// | 2 | the text has fewer than two UTF-8 bytes | 0 |
/// | 3 | parsing stops | the place; the length of the text if a digit is left over |
/// | 19 | the text has a ź (FNC2), which is retired | the place of the first |
/// | 4 | more than 4,000 symbols are needed | the symbols needed |
/// | 5 | `row` is too short | the cells needed |
///
/// Parsing stops at place 0 if the text does not begin with À, Ɓ or Ć. Later it stops at a code
/// point that has no number in the current set and, after the first digit of a pair, at
/// anything but a digit or Ź. Each refusal is tested over the whole text before the next, so
/// `Ɓź€` is refused by 3 at place 2.
///
/// # Example
///
/// ```
/// let mut row = [7; 40];
/// assert_eq!(slatmonief::encode(&[0xC0], &mut row), Ok(1));
/// assert_eq!(row[35..], [7; 5]);
///
/// let refusal = slatmonief::encode(&[0xC0, 0x17A], &mut row).unwrap_err();
/// assert_eq!((refusal.number(), refusal.second()), (19, 1));
/// assert_eq!(refusal.to_string(), "refusal 19: ź (FNC2) at place 1 is retired");
/// ```
pub fn encode(text: &[u32], row: &mut [u8]) -> Result<usize, Refusal> {
    call_encode(text, row).map_err(|refusal| refusal.in_points(text))
}

job! {
    /// Draws a symbol list as a row; returns n, the number of symbols.
    ///
    /// # Refusals, in this order
    ///
    /// | Number | Reason | Second number |
    /// |---|---|---|
    /// | 10 | the list is empty or has more than 4,000 symbols | its length |
    /// | 13 | place 0 is not a START, or a later number is above 102 | the first such place |
    /// | 5 | `row` is too short | the cells needed |
    pub draw, slatmonief_draw, Draw, symbols: u8, row: u8
}
job! {
    /// Reads a row back to its symbol list; returns n, the number of symbols.
    ///
    /// It accepts exactly the rows that [`draw`] writes: those that [`encode`] writes, and those of
    /// labels with FNC2, which encode refuses since version 1.3.0.
    ///
    /// # Refusals, in this order
    ///
    /// | Number | Reason | Second number |
    /// |---|---|---|
    /// | 10 | no row has this length | the length |
    /// | 11 | a cell is neither 0 nor 1 | the first such place |
    /// | 12 | a block is none of the 106 patterns and has an even number of bar cells | the block |
    /// | 16 | a block is none of the 106 patterns and has an odd number of bar cells | the block |
    /// | 13 | block 0 is not a START, or a later block is one | the block |
    /// | 15 | the last 13 cells are not the stop | the place of the first wrong cell in the row |
    /// | 14 | the check is wrong | the check that would be right |
    /// | 5 | `symbols` is too short | n |
    ///
    /// Refusals 12, 16 and 13 are tested together, block by block from the left, 12 or 16 before
    /// 13. A block is eleven cells. Block 0 is the START, and block n is the check.
    ///
    /// An accepted row with one worn cell is always refused: by 15 if that cell is one of the last
    /// 13, otherwise by 16, and never by 12. So photograph the label again after 16, and print it
    /// again after 12. More worn cells can give 16 too. A row that is upside down is refused by 12
    /// at block 0.
    ///
    /// # Example
    ///
    /// ```
    /// let mut row = slatmonief::encode_str("Ć12").unwrap();
    /// let mut symbols = [0; 2];
    /// let n = slatmonief::read(&row, &mut symbols).unwrap();
    /// assert_eq!(symbols[..n], [105, 12]);
    ///
    /// row[12] ^= 1; // a worn cell, in block 1
    /// let refusal = slatmonief::read(&row, &mut symbols).unwrap_err();
    /// assert_eq!((refusal.number(), refusal.second()), (16, 1));
    /// ```
    pub read, slatmonief_read, Read, row: u8, symbols: u8
}
job! {
    /// Spells a symbol list as a text, in code points; returns the number of code points written.
    ///
    /// It is the one text that barcoders turns into this list and that has no Ź (FNC1) inside a
    /// pair. So 103 98 65, with a Shift, is spelled `ÀŽ\u{1}`, while [`scan`] sends `a` for it.
    ///
    /// [`encode`] turns this text into the list again, unless the text has a ź: 97 (FNC2) in set A
    /// or B is still spelled ź, and encode refuses it by 19. To print such a row again, use
    /// [`draw`].
    ///
    /// # Refusals, in this order
    ///
    /// | Number | Reason | Second number |
    /// |---|---|---|
    /// | 10 | the list is empty or has more than 4,000 symbols | its length |
    /// | 13 | place 0 is not a START, or a later number is above 102 | the first such place |
    /// | 5 | `text` is too short | the code points needed |
    ///
    /// # Example
    ///
    /// ```
    /// // The row of an archived label with FNC2.
    /// let row = slatmonief::draw_symbols(&[104, 33, 97])?;
    /// let symbols = slatmonief::read_row(&row)?;
    /// assert_eq!(slatmonief::spell_symbols(&symbols)?, "ƁAź");
    /// assert_eq!(slatmonief::encode_str("ƁAź").unwrap_err().number(), 19);
    /// assert_eq!(slatmonief::draw_symbols(&symbols)?, row);
    /// # Ok::<(), slatmonief::Refusal>(())
    /// ```
    pub spell, slatmonief_spell, Spell, symbols: u8, text: u32
}
job! {
    /// Writes the 7-bit bytes that a scanner sends for a symbol list; returns their number.
    ///
    /// A START, a switch, Shift and the function symbols send nothing. After Shift (98 in set A or
    /// B) the next symbol alone is read in the other of these two sets, if it is below 96.
    /// Otherwise Shift has no effect: a switch after it switches, and a second Shift is a Shift for
    /// the symbol after that. In set C, 98 is a pair of digits. Shift changes which bytes are
    /// written and never how many. Before version 1.2.0 it had no effect at all.
    ///
    /// # Refusals, in this order
    ///
    /// | Number | Reason | Second number |
    /// |---|---|---|
    /// | 10 | the list is empty or has more than 4,000 symbols | its length |
    /// | 13 | place 0 is not a START, or a later number is above 102 | the first such place |
    /// | 5 | `bytes` is too short | the bytes needed |
    ///
    /// # Example
    ///
    /// ```
    /// // Set A, `A`, Shift, 65, which is `a` in set B, and `B`.
    /// let symbols = slatmonief::read_row(&slatmonief::encode_str("ÀAŽ\u{1}B")?)?;
    /// assert_eq!(symbols, [103, 33, 98, 65, 34]);
    /// let mut bytes = [0; 4];
    /// let n = slatmonief::scan(&symbols, &mut bytes)?;
    /// assert_eq!(bytes[..n], *b"AaB");
    /// # Ok::<(), slatmonief::Refusal>(())
    /// ```
    pub scan, slatmonief_scan, Scan, symbols: u8, bytes: u8
}
job! {
    /// Packs the cells of a row into a row record; returns the number of bytes written.
    ///
    /// The row may have any cells: [`read`] need not accept it. The record begins with its version
    /// and n:
    ///
    /// - version 1, for n up to 255: byte 0 is 1, and byte 1 is n;
    /// - version 2, for n from 256 on: byte 0 is 2, byte 1 is n / 256, and byte 2 is n % 256.
    ///
    /// Then come the cells, eight to a byte, the first in the top bit. Low bits of the last byte
    /// that no cell takes are spare, and 0. That makes 7 bytes at n = 1, 356 at 255, 358 at 256 and
    /// 5,506 at 4,000, and one record for each row.
    ///
    /// Up to 255 symbols the record is, byte for byte, that of this crate before its version 1.4.0.
    /// Longer rows were refused by 10 there, and its [`unpack`] refuses a record of version 2 by
    /// 21, with 2.
    ///
    /// # Refusals, in this order
    ///
    /// | Number | Reason | Second number |
    /// |---|---|---|
    /// | 10 | no row has this length | the length |
    /// | 11 | a cell is neither 0 nor 1 | the first such place |
    /// | 5 | `record` is too short | the bytes needed |
    ///
    /// # Example
    ///
    /// ```
    /// // A customs label of 300 symbols: version 2, and 300 is 1 * 256 + 44.
    /// let row = slatmonief::encode_str(&format!("Ɓ{}", "A".repeat(299)))?;
    /// let record = slatmonief::pack_row(&row)?;
    /// assert_eq!(record[..3], [2, 1, 44]);
    /// assert_eq!(record.len(), 3 + row.len() / 8 + 1);
    /// assert_eq!(slatmonief::unpack_record(&record)?, row);
    /// # Ok::<(), slatmonief::Refusal>(())
    /// ```
    pub pack, slatmonief_pack, Pack, row: u8, record: u8
}
job! {
    /// Unpacks a row record to the cells of its row; returns the number of cells written.
    ///
    /// The record is of version 1 or 2, as [`pack`] writes it. Its count, the n that it declares,
    /// is believed only once it agrees with the length. Before version 1.4.0 of this crate a record
    /// of version 2 was refused by 21.
    ///
    /// # Refusals, in this order
    ///
    /// | Number | Reason | Second number |
    /// |---|---|---|
    /// | 20 | the record has fewer than two bytes | its length |
    /// | 21 | the version byte is neither 1 nor 2 | that byte |
    /// | 22 | in version 1, the count is 0 | 0 |
    /// | 22 | in version 2, the count is up to 255, above 4,000, or not whole (2 bytes) | 0 |
    /// | 22 | the length is not what the version and the count need | the bytes needed |
    /// | 23 | a spare bit of the last byte is set | the place of the last byte |
    /// | 5 | `row` is too short | the cells needed |
    ///
    /// # Example
    ///
    /// ```
    /// // Two captures that merely declare a size: 4,000 symbols, and 65,535.
    /// let mut row = [0; 35];
    /// let refusal = slatmonief::unpack(&[2, 15, 160], &mut row).unwrap_err();
    /// assert_eq!((refusal.number(), refusal.second()), (22, 5506));
    /// let words = "refusal 22: the record's length is not what its count needs, 5506 bytes";
    /// assert_eq!(refusal.to_string(), words);
    /// let refusal = slatmonief::unpack(&[2, 255, 255], &mut row).unwrap_err();
    /// assert_eq!((refusal.number(), refusal.second()), (22, 0));
    /// ```
    pub unpack, slatmonief_unpack, Unpack, record: u8, row: u8
}

/// What a job writes to the front of a new buffer of this length, as a vector. Each caller takes
/// the length from that of its input, so that a short label does not pay for a long one, and bounds
/// the input's length first, so that no input reserves more than the longest answer.
fn lent<T: Clone + Default>(
    room: usize,
    job: impl FnOnce(&mut [T]) -> Result<usize, Refusal>,
    length: impl FnOnce(usize) -> usize,
) -> Result<Vec<T>, Refusal> {
    // For a short buffer this is faster than `vec!`, which asks the system for zeroed memory.
    let mut buffer = Vec::with_capacity(room);
    buffer.resize(room, T::default());
    let n = job(&mut buffer)?;
    buffer.truncate(length(n));
    Ok(buffer)
}

/// The number of cells in a row of n symbols.
fn cells(n: usize) -> usize {
    11 * (n + 1) + 13
}

/// Encodes a text like [`encode`], and returns the row.
///
/// A `&str` has only scalar values and the row always has enough room, so refusals 1 and 5 do not
/// occur; 2, 3, 19 and 4 do. [`Refusal::offset`] and [`Refusal::character`] say where in the text
/// refusals 3 and 19 are, and what stands there.
///
/// A text of up to [`MOST_CODE_POINTS`] code points is copied and goes to the library. No longer
/// one is accepted: it is answered here, in plain Rust, by one look at each character (a second one
/// up to the place of refusal 3 or 19), and nothing is reserved for it. That these answers are
/// those of [`encode`] is tested, not proved.
pub fn encode_str(text: &str) -> Result<Vec<u8>, Refusal> {
    if is_longer_than_any_label(text) {
        let (number, second) = text::parse(text);
        debug_assert_ne!(number, 0, "a longer text is never accepted");
        return Err(Refusal::new(refusal::Job::Encode, number, second).in_text(text));
    }
    // A code point takes at least one byte, and gives at most one symbol.
    let mut points = Vec::with_capacity(text.len().min(MOST_CODE_POINTS));
    points.extend(text.chars().map(u32::from));
    let room = cells(points.len().min(MOST_SYMBOLS));
    lent(room, |row| call_encode(&points, row), cells).map_err(|refusal| refusal.in_text(text))
}

/// Whether the text has more code points than a text that is accepted.
fn is_longer_than_any_label(text: &str) -> bool {
    // The first test is enough for most, and the second stops where the limit is.
    text.len() > MOST_CODE_POINTS && text.chars().nth(MOST_CODE_POINTS).is_some()
}

/// Draws a symbol list like [`draw`], and returns the row. Refusal 5 does not occur.
pub fn draw_symbols(symbols: &[u8]) -> Result<Vec<u8>, Refusal> {
    let room = cells(symbols.len().min(MOST_SYMBOLS));
    lent(room, |row| draw(symbols, row), cells)
}

/// Reads a row like [`read`], and returns the symbol list. Refusal 5 does not occur.
pub fn read_row(row: &[u8]) -> Result<Vec<u8>, Refusal> {
    // A symbol takes eleven cells, the check and the stop 24 more.
    let room = row.len().min(MOST_CELLS).saturating_sub(24) / 11;
    lent(room, |symbols| read(row, symbols), |n| n)
}

/// Spells a symbol list like [`spell`], and returns the text. Refusal 5 does not occur.
pub fn spell_symbols(symbols: &[u8]) -> Result<String, Refusal> {
    // The START gives one code point, and every other symbol at most two.
    let room = (2 * symbols.len().min(MOST_SYMBOLS)).saturating_sub(1);
    let points: Vec<u32> = lent(room, |text| spell(symbols, text), |n| n)?;
    Ok(points.into_iter().filter_map(char::from_u32).collect())
}

/// Scans a symbol list like [`scan`], and returns the bytes. Refusal 5 does not occur.
pub fn scan_symbols(symbols: &[u8]) -> Result<Vec<u8>, Refusal> {
    // The START sends nothing, and every other symbol at most two bytes.
    let room = (2 * symbols.len().min(MOST_SYMBOLS)).saturating_sub(2);
    lent(room, |bytes| scan(symbols, bytes), |n| n)
}

/// Packs a row like [`pack`], and returns the row record. Refusal 5 does not occur.
pub fn pack_row(row: &[u8]) -> Result<Vec<u8>, Refusal> {
    // Version and count take at most three bytes, and eight cells one.
    let room = 3 + (row.len().min(MOST_CELLS) + 7) / 8;
    lent(room, |record| pack(row, record), |n| n)
}

/// Unpacks a row record like [`unpack`], and returns the row. Refusal 5 does not occur.
pub fn unpack_record(record: &[u8]) -> Result<Vec<u8>, Refusal> {
    // Version and count take at least two bytes, and the rest has eight cells to a byte.
    let room = (8 * record.len().min(MOST_RECORD).saturating_sub(2)).min(MOST_CELLS);
    lent(room, |row| unpack(record, row), |n| n)
}
