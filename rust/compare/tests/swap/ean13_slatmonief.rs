// The program of ean13_barcoders.rs with four lines changed.
use slatmonief::error::Error;
use slatmonief::error::Result;
use slatmonief::sym::ean13::*;

/// The cells of an article's number.
pub fn row(number: &str) -> Result<Vec<u8>> {
    let barcode = EAN13::new(number)?;
    Ok(barcode.encode())
}

/// The rows of an American article, of a book and of a Japanese article.
pub fn rows(
    article: &str,
    book: String,
    japanese: &String,
) -> slatmonief::error::Result<Vec<Vec<u8>>> {
    let article: UPCA = UPCA::new(article)?;
    let book: Bookland = Bookland::new(book)?;
    let japanese: JAN = JAN::new(japanese)?;
    Ok(vec![article.encode(), book.encode(), japanese.encode()])
}

/// What the counter is told about a number.
pub fn told(number: &str) -> String {
    match row(number) {
        Ok(cells) => format!("{} cells", cells.len()),
        Err(Error::Character) => format!("no digit: {}", Error::Character),
        Err(Error::Length) => "neither 12 nor 13 digits".to_string(),
        Err(Error::Checksum) => format!("mistyped: {}", Error::Checksum),
        Err(other @ Error::Generate) => format!("{other:?}"),
    }
}

/// The barcode as a log has it, on one line and on many.
pub fn logged(number: &str) -> std::result::Result<String, Box<dyn std::error::Error>> {
    let barcode: EAN13 = EAN13::new(number)?;
    Ok(format!("{barcode:?} {barcode:#?}"))
}

/// The guards and the cells of a digit on each side, as a legend shows them.
pub fn legend(digit: usize) -> Vec<u8> {
    let sides: [[[u8; 7]; 10]; 3] = ENCODINGS;
    let digits = sides.map(|side| side[digit]).concat();
    [&LEFT_GUARD[..], &MIDDLE_GUARD, &RIGHT_GUARD, &digits].concat()
}
