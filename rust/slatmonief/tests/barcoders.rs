//! Programs that are written for barcoders run as they are after one line at their root. For Code
//! 128, the tests of rust/compare run the same text with barcoders itself.
extern crate slatmonief as barcoders;

#[path = "swap/ean13.rs"]
mod goods;
#[path = "../../compare/tests/swap/barcoders.rs"]
mod program;

#[test]
fn one_line_changes() {
    let row = slatmonief::encode_str("ÀHE@$AĆ123456").unwrap();
    assert_eq!(program::row("ÀHE@$AĆ123456"), Ok(row.clone()));
    let numbers = ["ÀHE@$AĆ123456".to_string(), "Ɓź".to_string()];
    assert_eq!(program::rows(&numbers[..1]), Ok(vec![row.clone()]));
    assert_eq!(
        program::rows(&numbers),
        Err(barcoders::error::Error::Character)
    );
    assert_eq!(
        program::told("Hello"),
        "a wrong character: Barcode data is invalid"
    );
    assert_eq!(program::told("A"), "a wrong length");
    let bars = row.iter().filter(|&&cell| cell == 1).count();
    assert_eq!(program::printed(numbers[0].clone()).unwrap(), bars);
}

#[test]
fn one_line_changes_for_ean13() {
    let row = |number| slatmonief::ean13::write_str(number).unwrap();
    let [book, japan, america] = ["978316148410", "490123456789", "0036000291452"];
    assert_eq!(goods::row(book), Ok(row(book)));
    assert_eq!(
        goods::rows(book, japan.to_string(), &america.to_string()),
        Ok([row(book), row(japan), row(america)])
    );
    assert_eq!(
        goods::rows(book, japan.to_string(), &"0036000291451".to_string()),
        Err(barcoders::error::Error::Checksum)
    );
    assert_eq!(goods::told("4006381333931"), "95 cells");
    for (number, words) in [
        ("400638133393I", "a wrong character"),
        ("", "a wrong length: Barcode data length is invalid"),
        ("4006381333930", "a wrong check digit: Invalid checksum"),
    ] {
        assert_eq!(goods::told(number), words);
    }
    let digits = goods::right_side(&row(book))
        .into_iter()
        .map(Option::unwrap);
    assert_eq!(digits.collect::<Vec<usize>>(), [4, 8, 4, 1, 0, 0]);
    let bars = row(book).iter().filter(|&&cell| cell == 1).count();
    assert_eq!(goods::printed(book.to_string()).unwrap(), bars);
}

/// What barcoders shows of a barcode is a vector of its twelve digits.
#[test]
fn the_same_debug_output() {
    #[derive(Debug)]
    #[allow(dead_code)] // `Debug` reads the field.
    struct EAN13(Vec<u8>);

    for number in ["750103131130", "7501031311309"] {
        let vector = vec![7, 5, 0, 1, 0, 3, 1, 3, 1, 1, 3, 0];
        let shown: Result<EAN13, ()> = Ok(EAN13(vector));
        let [line, lines] = goods::logged(number);
        assert_eq!(line, "Ok(EAN13([7, 5, 0, 1, 0, 3, 1, 3, 1, 1, 3, 0]))");
        assert_eq!(line, format!("{shown:?}"));
        assert_eq!(lines, format!("{shown:#?}"));
    }
    assert_eq!(goods::logged("7501031311300")[0], "Err(Checksum)");
}
