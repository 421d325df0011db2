// A little program for the goods of a shop, as it is written for the crate barcoders.
use barcoders::error::{Error, Result};
use barcoders::sym::ean13::*;

/// The cells of an article's barcode.
pub fn row(number: &str) -> Result<Vec<u8>> {
    let barcode = EAN13::new(number)?;
    Ok(barcode.encode())
}

/// The rows of a book and of an article from Japan and one from America, or the first error.
pub fn rows(book: &str, japan: String, america: &String) -> Result<[Vec<u8>; 3]> {
    let book: Bookland = Bookland::new(book)?;
    let japan: JAN = JAN::new(japan)?;
    let america: UPCA = UPCA::new(america)?;
    Ok([book, japan, america].map(|barcode: EAN13| barcode.encode()))
}

/// What the till is told about a number.
pub fn told(number: &str) -> String {
    match row(number) {
        Ok(cells) => format!("{} cells", cells.len()),
        Err(Error::Character) => "a wrong character".to_string(),
        Err(Error::Length) => format!("a wrong length: {}", Error::Length),
        Err(Error::Checksum) => format!("a wrong check digit: {}", Error::Checksum),
        Err(other @ Error::Generate) => format!("{other:?}"),
    }
}

/// What the log shows of a number, on one line and on many.
pub fn logged(number: &str) -> [String; 2] {
    let barcode = EAN13::new(number);
    [format!("{barcode:?}"), format!("{barcode:#?}")]
}

/// The digits on the right side of a row, found in the crate's tables.
pub fn right_side(row: &[u8]) -> Vec<Option<usize>> {
    let [_, _, right]: [[[u8; 7]; 10]; 3] = ENCODINGS;
    let from = LEFT_GUARD.len() + 6 * 7 + MIDDLE_GUARD.len();
    let digits = row[from..row.len() - RIGHT_GUARD.len()].chunks(7);
    digits
        .map(|cells| right.iter().position(|digit| digit == cells))
        .collect()
}

/// An article in a program with errors of its own.
pub fn printed(number: String) -> std::result::Result<usize, Box<dyn std::error::Error>> {
    let bars = EAN13::new(number)?
        .encode()
        .into_iter()
        .filter(|&cell| cell == 1);
    Ok(bars.count())
}
