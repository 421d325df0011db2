//! A program that is written for the EAN-13 of barcoders does the same with this crate, once each
//! line that names barcoders names slatmonief.
#[path = "swap/ean13_slatmonief.rs"]
mod after;
#[path = "swap/ean13_barcoders.rs"]
mod before;

/// Numbers that are accepted, and some that are refused by each of the three errors.
const NUMBERS: [&str; 12] = [
    "750103131130",
    "5901234123457",
    "0036000291452",
    "9783161484100",
    "4901234567894",
    "000000000000",
    "",
    "59012341234",
    "59012341234577",
    "59012341234O7",
    "5901234123\u{663}",
    "5901234123450",
];

/// Only the first line, a comment, and the four lines that name the crate differ.
#[test]
fn which_lines_change() {
    let before = include_str!("swap/ean13_barcoders.rs").lines();
    let after = include_str!("swap/ean13_slatmonief.rs").lines();
    assert_eq!(before.clone().count(), after.clone().count());
    let changed: Vec<(&str, &str)> = before.zip(after).filter(|(a, b)| a != b).skip(1).collect();
    for (a, b) in &changed {
        assert_eq!(a.replace("barcoders::", "slatmonief::"), *b);
    }
    assert_eq!(changed.len(), 4, "{changed:?}");
}

/// The same rows, errors, messages and debug output.
#[test]
fn the_same_answers() {
    let mut accepted = 0;
    for number in NUMBERS {
        let row = before::row(number);
        assert_eq!(
            after::row(number).map_err(|error| format!("{error:?} {error}")),
            row.clone().map_err(|error| format!("{error:?} {error}"))
        );
        assert_eq!(after::told(number), before::told(number));
        let logged = before::logged(number).map_err(|error| error.to_string());
        assert_eq!(
            after::logged(number).map_err(|error| error.to_string()),
            logged
        );
        accepted += usize::from(row.is_ok());
    }
    assert_eq!((accepted, NUMBERS.len()), (6, 12));
}

/// The same rows by the three other names of the type, and the same tables.
#[test]
fn the_same_names_and_tables() {
    for (article, book, japanese) in [
        (NUMBERS[2], NUMBERS[3], NUMBERS[4]),
        (NUMBERS[2], NUMBERS[11], NUMBERS[4]),
    ] {
        let before = before::rows(article, book.into(), &japanese.into());
        let after = after::rows(article, book.into(), &japanese.into());
        assert_eq!(format!("{after:?}"), format!("{before:?}"));
    }
    for digit in 0..10 {
        assert_eq!(after::legend(digit), before::legend(digit));
    }
}
