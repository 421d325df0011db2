//! The Rust blocks of README.md in its section for the label service: each of them stands here line
//! by line, and is run.
use slatmonief::Refusal;

#[test]
fn code_that_uses_barcoders() -> Result<(), slatmonief::error::Error> {
    use slatmonief::error::{Error, Result}; // was: use barcoders::error::{Error, Result};
    use slatmonief::sym::code128::*; // was: use barcoders::sym::code128::*;

    fn row(number: &str) -> Result<Vec<u8>> {
        Ok(Code128::new(number)?.encode())
    }
    assert_eq!(row("ÀHE@$AĆ123456")?.len(), 134);
    assert_eq!(row("Hello"), Err(Error::Character));
    Ok(())
}

#[test]
fn the_jobs() -> Result<(), Refusal> {
    let row = slatmonief::encode_str("ƁAIMĆ1234")?;
    let symbols = slatmonief::read_row(&row)?;
    assert_eq!(slatmonief::scan_symbols(&symbols)?, b"AIM1234");
    assert_eq!(slatmonief::spell_symbols(&symbols)?, "ƁAIMĆ1234");
    assert_eq!(slatmonief::draw_symbols(&symbols)?, row);
    let mut lent = [0; slatmonief::MOST_SYMBOLS];
    let n = slatmonief::read(&row, &mut lent)?;
    assert_eq!(lent[..n], symbols);
    Ok(())
}

#[test]
fn a_refusal() {
    let refusal = slatmonief::encode_str("ÀHello").unwrap_err();
    assert_eq!((refusal.number(), refusal.second()), (3, 2));
    assert_eq!(refusal.offset(), Some(3));
    assert_eq!(refusal.character(), Some('e'));
    assert_eq!(
        refusal.to_string(),
        "refusal 3: `e` has no number in set A, at place 2 (counted in code points; byte 3)"
    );
}

#[test]
fn a_record() -> Result<(), Refusal> {
    let row = slatmonief::encode_str(&format!("Ɓ{}", "A".repeat(300)))?;
    let record = slatmonief::pack_row(&row)?;
    assert_eq!((row.len(), record.len()), (3335, 420));
    assert_eq!(record[..3], [2, 1, 45]); // version 2, 256 + 45 symbols
    assert_eq!(slatmonief::unpack_record(&record)?, row);
    Ok(())
}

#[test]
fn goods() -> Result<(), Refusal> {
    use slatmonief::ean13;

    let row = ean13::write_str("400638133393")?; // the check digit, 1, is added
    assert_eq!(row.len(), ean13::CELLS); // 95
    assert_eq!(ean13::write_str("4006381333931")?, row); // the check digit is tested
    assert_eq!(ean13::read_row(&row)?, "4006381333931");
    let refusal = ean13::write_str("4006381333930").unwrap_err();
    assert_eq!(
        refusal.to_string(),
        "refusal 32: the check digit is wrong, 1 would be right"
    );
    Ok(())
}

/// The indented blocks of a text, without those of commands, which begin with `$`.
fn blocks(text: &str) -> Vec<String> {
    let mut blocks = vec![String::new()];
    for line in text.lines() {
        let block = blocks.last_mut().expect("there is always one");
        if line.starts_with("    ") || (line.is_empty() && !block.is_empty()) {
            block.push_str(&format!("{line}\n"));
        } else if !block.is_empty() {
            blocks.push(String::new());
        }
    }
    let blocks = blocks.iter().map(|block| block.trim_end().to_string());
    blocks
        .filter(|block| !block.is_empty() && !block.trim_start().starts_with('$'))
        .collect()
}

/// Every block of the section is in this file.
#[test]
fn every_block_is_run() {
    let path = concat!(env!("CARGO_MANIFEST_DIR"), "/../../README.md");
    let readme = std::fs::read_to_string(path).expect("the repository has a README.md");
    let section = readme
        .split("\n## ")
        .find(|s| s.starts_with("For the label service"));
    let blocks = blocks(section.expect("README.md has a section for the label service"));
    for block in &blocks {
        let here = include_str!("readme.rs").contains(block.as_str());
        assert!(
            here,
            "this block of README.md is not in rust/slatmonief/tests/readme.rs:\n{block}"
        );
    }
    assert!(blocks.len() >= 4, "{blocks:#?}");
}
