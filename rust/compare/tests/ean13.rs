//! EAN-13: numbers and rows that are known, in the crate, the model and the library; the model's
//! rules; the list of differences.
use barcoders::sym::ean13 as crates;
use compare::ask::patterns;
use compare::check::Worker;
use compare::ean13::ask::{ask, checks, Crate};
use compare::ean13::model::{self, pattern, Set, BLOCKS, CELLS, DIGITS, END, MIDDLE, SETS};
use compare::ean13::{BY_HAND, LIST};
use compare::face::{Face, True};
use compare::model::Model;
use slatmonief::sym::ean13 as library;

/// Numbers that are printed in public: of goods and books, and two UPC-A numbers after a 0.
const NUMBERS: [&str; 8] = [
    "6291041500213",
    "4006381333931",
    "5901234123457",
    "4003994155486",
    "9780306406157",
    "9783161484100",
    "0036000291452",
    "0012345678905",
];

/// The cells of a row that is written as 0, 1 and blanks.
fn cells(written: &str) -> Vec<u8> {
    let digits = written.bytes().filter(|byte| byte.is_ascii_digit());
    digits.map(|digit| digit - b'0').collect()
}

/// The row that the library writes.
fn written(text: &[u8]) -> Vec<u8> {
    let mut row = vec![0xA7; CELLS];
    assert_eq!(True.ean13_write(text, &mut row), (0, CELLS));
    row
}

/// Each number is accepted with its check and without it, has one row in the crate, the model and
/// the library, and is read from it; every other check is refused by 32 with the right one.
#[test]
fn numbers_that_are_known() {
    let patterns = Model::new(patterns());
    let mut worker = Worker::new(&True, &patterns);
    for number in NUMBERS.map(str::as_bytes) {
        let row = model::row(&model::values(&number[..12]));
        for text in [number, &number[..12]] {
            assert_eq!(ask(text), Crate::Row(row.clone()));
            assert_eq!(written(text), row);
            worker.ean13_law(text).expect("no difference");
            worker.ean13_type(text).expect("no difference");
        }
        assert_eq!(checks(&number[..12]), number[12..]);
        assert_eq!(model::read(&row, DIGITS).front, number);
        let mut text = [0; DIGITS];
        assert_eq!(True.ean13_read(&row, &mut text), (0, DIGITS));
        assert_eq!(text, number);
        for check in (b'0'..=b'9').filter(|&check| check != number[12]) {
            let wrong = [&number[..12], &[check]].concat();
            let answer = (32, usize::from(number[12] - b'0'));
            assert_eq!(ask(&wrong), Crate::Checksum);
            assert_eq!(True.ean13_write(&wrong, &mut row.clone()), answer);
        }
    }
}

/// A row that is drawn by hand: 5 is ABBAAB.
#[test]
fn a_row_by_hand() {
    let row = cells(
        "101 0001011 0100111 0110011 0010011 0111101 0011101 01010 \
         1100110 1101100 1000010 1011100 1001110 1000100 101",
    );
    assert_eq!(model::row(&[5, 9, 0, 1, 2, 3, 4, 1, 2, 3, 4, 5]), row);
    assert_eq!(written(b"5901234123457"), row);
    assert_eq!(ask(b"590123412345"), Crate::Row(row));
}

/// Texts that are refused, by the crate's error and by number.
#[test]
fn texts_that_are_refused() {
    let texts: [(&[u8], Crate, (u32, usize)); 12] = [
        (b"", Crate::Length, (30, 0)),
        (b"x", Crate::Length, (30, 1)),
        (b"59012341234", Crate::Length, (30, 11)),
        (b"59012341234577", Crate::Length, (30, 14)),
        (b"59012341234x77", Crate::Length, (30, 14)),
        (b"5901234x234x", Crate::Character, (31, 7)),
        (b"590123412345x", Crate::Character, (31, 12)),
        (b"x901234123450", Crate::Character, (31, 0)),
        (b"5901234123450", Crate::Checksum, (32, 7)),
        ("590123412\u{663}3".as_bytes(), Crate::Character, (31, 9)),
        ("59012341234\u{663}".as_bytes(), Crate::Character, (31, 11)),
        (b"59012341234\xFF", Crate::NoText, (31, 11)),
    ];
    for (text, crates, answer) in texts {
        assert_eq!(ask(text), crates, "{text:?}");
        for room in [0, CELLS - 1, CELLS] {
            let said = model::write(text, room);
            assert_eq!((said.number, said.second), answer, "{text:?}");
            let mut row = vec![7; room];
            assert_eq!(True.ean13_write(text, &mut row), answer, "{text:?}");
            assert_eq!(row, vec![7; room]);
        }
    }
}

/// The model's cells are those of the crate's tables and of the library's.
#[test]
fn the_tables_of_the_crate() {
    for (side, set) in SETS.into_iter().enumerate() {
        for digit in 0..10 {
            let cells = pattern(set, digit);
            assert_eq!(cells, crates::ENCODINGS[side][usize::from(digit)]);
            assert_eq!(cells, library::ENCODINGS[side][usize::from(digit)]);
        }
    }
    let guards = (
        crates::LEFT_GUARD,
        crates::MIDDLE_GUARD,
        crates::RIGHT_GUARD,
    );
    assert_eq!(guards, (END, MIDDLE, END));
    let guards = (
        library::LEFT_GUARD,
        library::MIDDLE_GUARD,
        library::RIGHT_GUARD,
    );
    assert_eq!(guards, (END, MIDDLE, END));
}

/// The rules of the three sets: two bars and two spaces, the colours at the ends, the parity, and
/// no cells twice.
#[test]
fn rules_of_the_sets() {
    let mut all: Vec<[u8; 7]> = Vec::new();
    for (set, digit) in model::every() {
        let cells = pattern(set, digit);
        let bars = cells.iter().filter(|&&cell| cell == 1).count();
        let ends = if set == Set::C { (1, 0) } else { (0, 1) };
        assert_eq!((cells[0], cells[6]), ends);
        assert_eq!(bars % 2 == 1, set == Set::A);
        assert_eq!(cells.chunk_by(|a, b| a == b).count(), 4);
        assert!(!all.contains(&cells));
        all.push(cells);
    }
    assert_eq!(all.len(), 30);
}

/// The sets on the left: the first is A, none or three of the others are B, and the sets of two
/// leading digits differ at two places or more; so no one digit can be redrawn in the other set.
#[test]
fn rules_of_the_leading_digit() {
    let b = |leading: u8| model::sets(leading).map(|set| set == Set::B);
    for one in 0..10 {
        assert!(!b(one)[0] && !b(one)[6..].contains(&true));
        let count = b(one).iter().filter(|&&is_b| is_b).count();
        assert_eq!(count, if one == 0 { 0 } else { 3 });
        for two in (0..10).filter(|&two| two != one) {
            let differ = b(one).into_iter().zip(b(two)).filter(|(x, y)| x != y);
            assert!(differ.count() >= 2);
        }
    }
    assert_eq!(model::place(BLOCKS - 1) + 7 + END.len(), CELLS);
}

/// A UPC-A number with its check is twelve digits. The crate, and so the library, takes the check
/// for a digit of the number; after a 0 the row is that of the UPC-A number. The first such number
/// is the smallest.
#[test]
fn twelve_digits_of_upc_a() {
    for (number, taken_for) in [
        ("000000000017", "0000000000178"),
        ("036000291452", "0360002914522"),
        ("012345678905", "0123456789050"),
    ] {
        let right = written(format!("0{number}").as_bytes());
        let row = written(number.as_bytes());
        assert_ne!(row, right);
        assert_eq!(ask(number.as_bytes()), Crate::Row(row.clone()));
        assert_eq!(model::read(&row, DIGITS).front, taken_for.as_bytes());
    }
}

/// A row from right to left, a row of bars for spaces, and a row with a quiet zone are refused.
#[test]
fn rows_that_are_refused() {
    let row = written(b"5901234123457");
    let turned = row.iter().rev().copied().collect();
    let negative = row.iter().map(|cell| 1 - cell).collect();
    let quiet = [&[0; 11][..], &row, &[0; 7]].concat();
    for row in [
        turned,
        negative,
        quiet,
        Vec::new(),
        vec![0; 95],
        vec![1; 95],
    ] {
        assert_eq!(model::read(&row, DIGITS).number, 33);
        assert_eq!(True.ean13_read(&row, &mut [0; DIGITS]), (33, 0));
    }
}

/// Every name of the list is a row of the table of EAN-13 in docs/DIFFERENCES.md, and the list
/// leaves out no row.
#[test]
fn the_list_is_the_one_in_the_docs() {
    let path = concat!(env!("CARGO_MANIFEST_DIR"), "/../../docs/DIFFERENCES.md");
    let whole = std::fs::read_to_string(path).expect("docs/DIFFERENCES.md");
    let page = whole
        .split("\n## ")
        .find(|page| page.starts_with("EAN-13"))
        .expect("docs/DIFFERENCES.md has no heading '## EAN-13'");
    let names = LIST.iter().map(|&(_, name)| name).chain([BY_HAND]);
    for name in names {
        assert!(
            page.lines()
                .any(|line| line.starts_with(&format!("| {name} |"))),
            "docs/DIFFERENCES.md has no row '| {name} |' under '## EAN-13'"
        );
    }
    for (place, (listed, _)) in LIST.into_iter().enumerate() {
        assert_eq!(listed as usize, place);
    }
    let rows = page
        .lines()
        .filter(|line| line.starts_with("| ") && !line.starts_with("| Difference "));
    assert_eq!(rows.count(), LIST.len() + 1);
}

/// The crate takes the length for a number of 32 bits: it accepts 2^32 + 12 digits, and 2^32 + 13
/// whatever the last of them is. It takes 9 GiB of memory and some minutes. The library is asked
/// where it is linked itself; the bridge on Arm has no room for such a text.
#[test]
#[ignore = "takes 9 GiB of memory and some minutes"]
fn a_text_of_four_billion_digits() {
    let length = (1 << 32) + 12;
    let mut text = "0".repeat(length);
    for _ in 0..2 {
        let code = crates::EAN13::new(&text).expect("the crate accepts the text");
        assert_eq!(code.encode(), model::row(&[0; 12]));
        if cfg!(target_arch = "x86_64") {
            let answer = True.ean13_write(text.as_bytes(), &mut [0; CELLS]);
            assert_eq!(answer, (30, text.len()));
        }
        text.push('7');
    }
    text.push('0');
    assert!(crates::EAN13::new(&text).is_err());
}
