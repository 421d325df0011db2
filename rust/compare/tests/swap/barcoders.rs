// A little label program, as it is written for the crate barcoders.
use barcoders::error;
use barcoders::error::Error;
use barcoders::sym::code128::*;

/// The cells of a parcel's label.
pub fn row(number: &str) -> barcoders::error::Result<Vec<u8>> {
    let barcode = Code128::new(number)?;
    Ok(barcode.encode())
}

/// The rows of all labels, or the first error.
pub fn rows(numbers: &[String]) -> error::Result<Vec<Vec<u8>>> {
    numbers.iter().map(|number| row(number)).collect()
}

/// What the counter is told about a label.
pub fn told(number: &str) -> String {
    match row(number) {
        Ok(cells) => format!("{} cells", cells.len()),
        Err(Error::Character) => format!("a wrong character: {}", Error::Character),
        Err(Error::Length) => "a wrong length".to_string(),
        Err(other @ (Error::Generate | Error::Checksum)) => format!("{other:?}"),
    }
}

/// A label in a program with errors of its own.
pub fn printed(number: String) -> Result<usize, Box<dyn std::error::Error>> {
    let barcode: Code128 = Code128::new(number)?;
    let bars = barcode.encode().into_iter().filter(|&cell| cell == 1);
    println!("{barcode:?}");
    Ok(bars.count())
}
