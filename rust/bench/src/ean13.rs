//! Times write of EAN-13 against the crate and against plain Rust, and read against plain Rust.
use crate::jobs::{agree, lent, OF_PLAIN};
use crate::report::Table;
use crate::timing::{measure, Side};
use barcoders::sym::ean13::EAN13;
use bench::inputs::{articles, Article};
use bench::plain_ean13 as plain;
use slatmonief::ean13;
use std::hint::black_box;

/// The target for write's time, as a part of the crate's time.
const OF_CRATE: f64 = 0.15;

/// The number of numbers in a batch: of 256 the processor learns the digits by heart.
const COUNT: usize = 4096;

/// Asserts that the crate makes the same rows as the library, of either length of text.
fn agree_with_crate(articles: &[Article]) {
    for article in articles {
        for text in [&article.text[..12], &article.text] {
            let row = EAN13::new(text).map(|code| code.encode());
            assert_eq!(row, Ok(article.row.clone()));
        }
    }
}

/// Times write, of texts without the check and with it, against the crate and against plain Rust,
/// in the same rounds; and the `EAN13` of the library's Rust crate, which makes a vector, against
/// the crate's.
fn write(rounds: usize) -> Vec<Table> {
    let mut of_crate = Table::new("EAN-13, write beside the crate", "digits", "ns", "crate");
    let mut of_plain = Table::new("EAN-13, write beside plain Rust", "digits", "ns", "plain");
    let title = "`EAN13::new(text)` and `encode()` of the library's Rust face beside the crate's";
    let mut same_face = Table::new(title, "digits", "ns", "crate");
    let articles = articles(None, COUNT);
    agree_with_crate(&articles);
    for digits in [12, 13] {
        let texts: Vec<&str> = articles.iter().map(|a| &a.text[..digits]).collect();
        let bytes: Vec<&[u8]> = texts.iter().map(|text| text.as_bytes()).collect();
        agree(&bytes, ean13::write, plain::write);
        let mut sides = [
            lent(&bytes, ean13::write),
            lent(&bytes, plain::write),
            Side::new(texts.clone(), |text: &str| {
                drop(black_box(EAN13::new(text).unwrap().encode()))
            }),
            Side::new(texts, |text: &str| {
                let code = slatmonief::sym::ean13::EAN13::new(text).unwrap();
                drop(black_box(code.encode()))
            }),
        ];
        let times = measure(&mut sides, rounds);
        let key = digits.to_string();
        of_crate.add(key.clone(), &times[0], &times[2], Some(OF_CRATE));
        of_plain.add(key.clone(), &times[0], &times[1], Some(OF_PLAIN));
        same_face.add(key, &times[3], &times[2], None);
    }
    vec![of_crate, of_plain, same_face]
}

/// Times read against the plain search and against a reader with a table, in the same rounds: rows
/// of any leading digit, and those of 0, which have one set on the left.
fn read(rounds: usize) -> Vec<Table> {
    let keys = "leading digit";
    let mut of_plain = Table::new("EAN-13, read beside plain Rust", keys, "ns", "plain");
    let title = "EAN-13, read beside a table-driven reader (the limit)";
    let mut of_table = Table::new(title, keys, "ns", "table");
    for (leading, name) in [(None, "any"), (Some(0), "0")] {
        let articles = articles(leading, COUNT);
        let rows: Vec<&[u8]> = articles.iter().map(|article| &article.row[..]).collect();
        agree(&rows, ean13::read, plain::read);
        agree(&rows, ean13::read, plain::table_read);
        let mut sides = [
            lent(&rows, ean13::read),
            lent(&rows, plain::read),
            lent(&rows, plain::table_read),
        ];
        let times = measure(&mut sides, rounds);
        of_plain.add(name, &times[0], &times[1], Some(OF_PLAIN));
        of_table.add(name, &times[0], &times[2], None);
    }
    vec![of_plain, of_table]
}

/// Times both jobs.
pub fn run(rounds: usize) -> Vec<Table> {
    let mut tables = write(rounds);
    tables.extend(read(rounds));
    tables
}
