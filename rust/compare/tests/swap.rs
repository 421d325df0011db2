//! A program that is written for barcoders does the same with this crate, once each line that names
//! barcoders names slatmonief.
#[path = "swap/slatmonief.rs"]
mod after;
#[path = "swap/barcoders.rs"]
mod before;

/// Labels that are accepted, and some that are refused by each of the two errors.
fn numbers() -> Vec<String> {
    let texts = [
        "ÀHE@$AĆ123456",
        "ƁHE1234A*1",
        "Ć00Ź12",
        "Ć1Ź2",
        "À\u{6}",
        "ƁŽa÷",
        "",
        "A",
        "Hello",
        "ÀHello",
        "Ć123",
        "Ɓ€",
    ];
    texts.map(String::from).to_vec()
}

/// Only the first line, a comment, and the four lines that name the crate differ.
#[test]
fn which_lines_change() {
    let before = include_str!("swap/barcoders.rs").lines();
    let after = include_str!("swap/slatmonief.rs").lines();
    assert_eq!(before.clone().count(), after.clone().count());
    let changed: Vec<(&str, &str)> = before.zip(after).filter(|(a, b)| a != b).skip(1).collect();
    for (a, b) in &changed {
        assert_eq!(a.replace("barcoders::", "slatmonief::"), *b);
    }
    let changed: Vec<&str> = changed.iter().map(|(a, _)| *a).collect();
    assert_eq!(
        changed,
        [
            "use barcoders::error;",
            "use barcoders::error::Error;",
            "use barcoders::sym::code128::*;",
            "pub fn row(number: &str) -> barcoders::error::Result<Vec<u8>> {",
        ]
    );
}

#[test]
fn the_same_answers() {
    let numbers = numbers();
    let mut accepted = 0;
    for number in &numbers {
        let row = before::row(number);
        assert_eq!(
            after::row(number).map_err(|error| error.to_string()),
            row.clone().map_err(|error| error.to_string())
        );
        assert_eq!(after::told(number), before::told(number));
        let printed = before::printed(number.clone()).map_err(|error| error.to_string());
        assert_eq!(
            after::printed(number.clone()).map_err(|error| error.to_string()),
            printed
        );
        accepted += usize::from(row.is_ok());
    }
    assert_eq!((accepted, numbers.len()), (6, 12));
    let good = before::rows(&numbers[..6]).unwrap();
    assert_eq!(after::rows(&numbers[..6]).unwrap(), good);
    let error = before::rows(&numbers).unwrap_err();
    assert_eq!(
        format!("{:?}", after::rows(&numbers)),
        format!("Err({error:?})")
    );
}
