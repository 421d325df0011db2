//! EAN-13: what write and read answer, that a refusal leaves the buffer unchanged, the words of the
//! refusals, and the tables of `sym::ean13` beside the rows that the library writes.
use slatmonief::ean13::*;
use slatmonief::error::Error;
use slatmonief::sym::ean13::*;
use slatmonief::Refusal;

/// Public numbers of goods and books, the number in the documentation of barcoders (7501031311309)
/// and others, the least and the greatest; under each the row that barcoders draws.
const NUMBERS: &str = "\
4006381333931
10100011010100111010111101111010001001011001101010100001010000101000010111010010000101100110101
9783161484100
10101110110001001010000100110010000101001100101010101110010010001011100110011011100101110010101
9780201379624
10101110110001001010011100100110100111001100101010100001010001001110100101000011011001011100101
0036000291452
10100011010111101010111100011010001101000110101010110110011101001100110101110010011101101100101
4901234567894
10100010110100111001100100100110100001001110101010100111010100001000100100100011101001011100101
7501031311309
10101100010100111001100101001110111101011001101010100001011001101100110100001011100101110100101
0123456123458
10100110010010011011110101000110110001010111101010110011011011001000010101110010011101001000101
9783456123455
10101110110001001010000101000110111001010111101010110011011011001000010101110010011101001110101
4575678164126
10101100010010001011000101011110010001000100101010110011010100001011100110011011011001010000101
9534763245862
10101100010100001001110101110110000101011110101010110110010111001001110100100010100001101100101
0000000000000
10100011010001101000110100011010001101000110101010111001011100101110010111001011100101110010101
9999999999994
10100010110010111001011100010110010111000101101010111010011101001110100111010011101001011100101
";

/// For each first digit, which of the two tables each digit on the left side is drawn from: odd
/// parity (0) or even (1). They are those of the standard.
const PARITIES: [[usize; 6]; 10] = [
    [0, 0, 0, 0, 0, 0],
    [0, 0, 1, 0, 1, 1],
    [0, 0, 1, 1, 0, 1],
    [0, 0, 1, 1, 1, 0],
    [0, 1, 0, 0, 1, 1],
    [0, 1, 1, 0, 0, 1],
    [0, 1, 1, 1, 0, 0],
    [0, 1, 0, 1, 0, 1],
    [0, 1, 0, 1, 1, 0],
    [0, 1, 1, 0, 1, 0],
];

/// Where the twelve blocks of seven cells begin, one for each digit after the first.
const BLOCKS: [usize; 12] = [3, 10, 17, 24, 31, 38, 50, 57, 64, 71, 78, 85];

/// Each of the numbers with the cells of its row.
fn numbers() -> impl Iterator<Item = (&'static str, Vec<u8>)> {
    let cells = |row: &str| row.bytes().map(|byte| byte - b'0').collect();
    let lines = NUMBERS.lines();
    let rows = lines.clone().skip(1).step_by(2).map(cells);
    lines.step_by(2).zip(rows)
}

/// The first of the numbers, and the cells of its row.
fn first() -> (&'static str, Vec<u8>) {
    numbers().next().unwrap()
}

/// The digits of a number as a text.
fn text(digits: &[u8]) -> String {
    digits
        .iter()
        .map(|digit| char::from(b'0' + digit))
        .collect()
}

/// The check digit of these digits.
fn check(digits: &[u8]) -> u8 {
    let sum: u8 = digits[..12]
        .chunks(2)
        .map(|pair| pair[0] + 3 * pair[1])
        .sum();
    (10 - sum % 10) % 10
}

/// The row with these parities and these digits after the first, by the tables of `sym::ean13`.
fn drawn(parities: [usize; 6], digits: &[u8]) -> Vec<u8> {
    let left = parities.iter().zip(digits);
    let left = left.flat_map(|(&side, &digit)| ENCODINGS[side][usize::from(digit)]);
    let right = digits[6..12]
        .iter()
        .flat_map(|&digit| ENCODINGS[2][usize::from(digit)]);
    let row = LEFT_GUARD.into_iter().chain(left).chain(MIDDLE_GUARD);
    row.chain(right).chain(RIGHT_GUARD).collect()
}

/// The whole number of twelve digits, and its row by the tables of `sym::ean13`.
fn model(digits: &[u8]) -> (Vec<u8>, Vec<u8>) {
    let number = [&digits[..12], &[check(digits)]].concat();
    let row = drawn(PARITIES[usize::from(digits[0])], &number[1..]);
    (number, row)
}

/// Whether read accepts a row. If so, write gives it again; if not, it is by 33 with 0, whatever
/// the room, and the buffer is as it was lent.
fn accepts(row: &[u8]) -> bool {
    match read_row(row) {
        Ok(text) => {
            assert_eq!(write_str(&text).unwrap(), row);
            true
        }
        Err(_) => {
            for room in [0, 12, DIGITS, DIGITS + 7] {
                let mut buffer = vec![200; room];
                let refusal = read(row, &mut buffer).unwrap_err();
                assert_eq!((refusal.number(), refusal.second()), (33, 0), "{row:?}");
                assert_eq!(buffer, vec![200; room]);
            }
            false
        }
    }
}

/// What write refuses a text by, whatever the room; the buffer is as it was lent.
fn refused(text: &[u8]) -> (u32, usize) {
    let numbers = [0, CELLS - 1, CELLS, CELLS + 7].map(|room| {
        let mut row = vec![200; room];
        let refusal = write(text, &mut row).unwrap_err();
        assert_eq!(row, vec![200; room]);
        (refusal.number(), refusal.second())
    });
    assert!(numbers.iter().all(|&other| other == numbers[0]));
    numbers[0]
}

/// Random digits (SplitMix64), the same in each run.
struct Random(u64);

impl Random {
    fn digit(&mut self) -> u8 {
        self.0 = self.0.wrapping_add(0x9E37_79B9_7F4A_7C15);
        let a = (self.0 ^ (self.0 >> 30)).wrapping_mul(0xBF58_476D_1CE4_E5B9);
        let b = (a ^ (a >> 27)).wrapping_mul(0x94D0_49BB_1331_11EB);
        ((u128::from(b ^ (b >> 31)) * 10) >> 64) as u8
    }

    fn digits(&mut self) -> [u8; 12] {
        [0; 12].map(|_| self.digit())
    }
}

/// Twelve digits and thirteen give the same row, and it is read back to all thirteen.
#[test]
fn public_numbers() {
    assert_eq!(numbers().count(), 12);
    for (number, row) in numbers() {
        for text in [&number[..12], number] {
            assert_eq!(write_str(text).unwrap(), row, "{text}");
            let mut buffer = [200; CELLS];
            assert_eq!(write(text.as_bytes(), &mut buffer), Ok(95));
            assert_eq!(buffer[..], row);
            assert_eq!(EAN13::new(text).unwrap().encode(), row);
        }
        assert_eq!(read_row(&row).unwrap(), number);
        let mut buffer = [200; DIGITS];
        assert_eq!(read(&row, &mut buffer), Ok(13));
        assert_eq!(buffer, number.as_bytes());
    }
}

/// Every buffer length up to a little more than is needed: refused by 5 and the buffer unchanged,
/// or only its front filled.
#[test]
fn every_room() {
    fn at(room: usize, out: &[u8], job: impl Fn(&mut [u8]) -> Result<usize, Refusal>) {
        let mut buffer = vec![200; room];
        match job(&mut buffer) {
            Ok(written) => {
                assert_eq!(written, out.len());
                assert_eq!(buffer[..written], *out);
                assert_eq!(buffer[written..], vec![200; room - written]);
            }
            Err(refusal) => {
                assert!(room < out.len());
                assert_eq!((refusal.number(), refusal.second()), (5, out.len()));
                assert_eq!(buffer, vec![200; room]);
            }
        }
    }
    for (number, row) in numbers() {
        let number = number.as_bytes();
        for room in 0..CELLS + 5 {
            at(room, &row, |out| write(number, out));
            at(room, &row, |out| write(&number[..12], out));
            at(room, number, |out| read(&row, out));
        }
    }
}

/// The two numbers of a refusal, and its words.
fn says(answer: Result<usize, Refusal>, numbers: (u32, usize), words: &str) {
    let refusal = answer.unwrap_err();
    assert_eq!((refusal.number(), refusal.second()), numbers);
    let words = format!("refusal {}: {words}", numbers.0);
    assert_eq!(refusal.to_string(), words);
    let error: &dyn std::error::Error = &refusal;
    assert_eq!(error.to_string(), words);
}

#[test]
fn refusals_of_write_speak() {
    let mut row = [200; 94];
    let words = "the text's length in bytes is 1, and EAN-13 needs 12 or 13 digits";
    says(write(b"1", &mut row), (30, 1), words);
    let words = "`-` at place 3 is none of the digits 0 to 9";
    says(write(b"978-316148410", &mut row), (31, 3), words);
    let words = "the byte at place 12 is none of the digits 0 to 9";
    says(write(b"400638133393\xFF", &mut row), (31, 12), words);
    let words = "the check digit is wrong, 1 would be right";
    says(write(b"4006381333938", &mut row), (32, 1), words);
    let words = "the row's buffer is too short, 95 cells are needed";
    says(write(b"4006381333931", &mut row), (5, 95), words);
    assert_eq!(row, [200; 94]);
}

#[test]
fn refusals_of_read_speak() {
    let (_, row) = first();
    let mut text = [200; 12];
    let words = "the cells are no EAN-13 row";
    says(read(&row[1..], &mut text), (33, 0), words);
    let words = "the text's buffer is too short, 13 bytes are needed";
    says(read(&row, &mut text), (5, 13), words);
    assert_eq!(text, [200; 12]);
}

/// The error of barcoders for each refusal: 33 has none of its own, whatever is wrong with the row.
#[test]
fn errors_of_barcoders() {
    let (_, row) = first();
    let mut worn = row.clone();
    worn[90] ^= 1;
    for (refusal, number, error) in [
        (write_str("").unwrap_err(), 30, Error::Length),
        (write_str("40063813339-").unwrap_err(), 31, Error::Character),
        (write_str("4006381333930").unwrap_err(), 32, Error::Checksum),
        (read_row(&worn).unwrap_err(), 33, Error::Character),
        (read_row(&row[1..]).unwrap_err(), 33, Error::Character),
        (read(&row, &mut []).unwrap_err(), 5, Error::Length),
    ] {
        assert_eq!((refusal.number(), Error::from(refusal)), (number, error));
    }
}

/// Each test is made over the whole text before the next.
#[test]
fn refusals_come_in_order() {
    assert_eq!(refused(b"x006381333"), (30, 10));
    assert_eq!(refused(b"4006381333x30"), (31, 10));
    assert_eq!(refused(b"4006381333930"), (32, 1));
    let mut row = write_str("400638133393").unwrap();
    row[94] = 0;
    let refusal = read(&row, &mut []).unwrap_err();
    assert_eq!((refusal.number(), refusal.second()), (33, 0));
}

#[test]
fn lengths_of_texts() {
    let long = "4006381333931".repeat(1_000);
    for length in (0..12).chain(14..100).chain([255, 256, 268, 269, 13_000]) {
        let text = &long[..length];
        assert_eq!(refused(text.as_bytes()), (30, length));
        let refusal = write_str(text).unwrap_err();
        assert_eq!((refusal.number(), refusal.second()), (30, length));
        assert_eq!(EAN13::new(text).unwrap_err(), Error::Length);
    }
}

/// Every byte at every place: a digit is accepted, or the check digit is wrong; no other byte is.
#[test]
fn every_byte_at_every_place() {
    let (number, _) = first();
    for length in [12, 13] {
        for place in 0..length {
            for byte in 0..=255 {
                let mut text = number.as_bytes()[..length].to_vec();
                text[place] = byte;
                let digits: Vec<u8> = text.iter().map(|byte| byte.wrapping_sub(b'0')).collect();
                if !byte.is_ascii_digit() {
                    assert_eq!(refused(&text), (31, place));
                    text[length - 1] = b'x';
                    assert_eq!(refused(&text), (31, place));
                } else if length == 12 || text == number.as_bytes() {
                    let mut row = [200; CELLS];
                    assert_eq!(write(&text, &mut row), Ok(CELLS));
                    assert_eq!(row[..], model(&digits).1);
                } else {
                    assert_eq!(refused(&text), (32, usize::from(check(&digits))));
                }
            }
        }
    }
}

/// Of the ten last digits one is right, and the refusals of the others name it.
#[test]
fn every_check_digit() {
    for (number, row) in numbers() {
        let right = usize::from(number.as_bytes()[12] - b'0');
        for digit in 0..10 {
            let text = format!("{}{digit}", &number[..12]);
            if digit == right {
                assert_eq!(write_str(&text).unwrap(), row);
            } else {
                assert_eq!(refused(text.as_bytes()), (32, right));
                assert_eq!(EAN13::new(text).unwrap_err(), Error::Checksum);
            }
        }
    }
}

/// The place, the character and the words of refusal 31, by text and by bytes.
#[test]
fn characters_that_are_no_digits() {
    for (text, place, character, shown) in [
        ("978-316148410", 3, '-', "`-`"),
        ("40063813339é", 11, 'é', "`é`"),
        ("éééééé", 0, 'é', "`é`"),
        ("€006381333", 0, '€', "`€`"),
        ("４006381333", 0, '４', "U+FF14"),
        ("400638133\u{1F600}", 9, '\u{1F600}', "U+1F600"),
        ("400638133393\n", 12, '\n', "U+000A"),
        (" 400638133393", 0, ' ', "U+0020"),
        ("400638133393\0", 12, '\0', "U+0000"),
        ("40063813339\u{301}", 11, '\u{301}', "U+0301"),
    ] {
        let refusal = write_str(text).unwrap_err();
        assert_eq!((refusal.number(), refusal.second()), (31, place));
        assert_eq!(refusal.offset(), Some(place));
        assert_eq!(refusal.character(), Some(character));
        let words = format!("refusal 31: {shown} at place {place} is none of the digits 0 to 9");
        assert_eq!(refusal.to_string(), words);
        assert_eq!(EAN13::new(text).unwrap_err(), Error::Character);

        let refusal = write(text.as_bytes(), &mut []).unwrap_err();
        assert_eq!((refusal.number(), refusal.second()), (31, place));
        assert_eq!(refusal.offset(), Some(place));
        let ascii = Some(character).filter(char::is_ascii);
        assert_eq!(refusal.character(), ascii);
        let shown = ascii.map_or("the byte", |_| shown);
        let words = format!("refusal 31: {shown} at place {place} is none of the digits 0 to 9");
        assert_eq!(refusal.to_string(), words);
    }
}

/// The length of a text is that in bytes.
#[test]
fn texts_with_other_lengths_in_bytes() {
    for (text, length) in [("４００６３８１３３３９３", 36), ("400638133393é", 14)] {
        let refusal = write_str(text).unwrap_err();
        assert_eq!((refusal.number(), refusal.second()), (30, length));
        assert_eq!((refusal.offset(), refusal.character()), (None, None));
        assert_eq!(EAN13::new(text).unwrap_err(), Error::Length);
    }
}

/// Each of the 30 patterns and the three guards of `sym::ean13` is met in rows of the library, at
/// each place where it can stand.
#[test]
fn the_tables() {
    let mut met = [[0; 10]; 3];
    for first in 0..10 {
        for digit in 0..10 {
            let mut digits = [digit; 12];
            digits[0] = first;
            let row = write_str(&text(&digits)).unwrap();
            assert_eq!(row[..3], LEFT_GUARD);
            assert_eq!(row[45..50], MIDDLE_GUARD);
            assert_eq!(row[92..], RIGHT_GUARD);
            let sides = PARITIES[usize::from(first)].into_iter().chain([2; 6]);
            let drawn = [&digits[1..], &[check(&digits)]].concat();
            for ((side, digit), begin) in sides.zip(drawn).zip(BLOCKS) {
                let digit = usize::from(digit);
                assert_eq!(row[begin..begin + 7], ENCODINGS[side][digit]);
                met[side][digit] += 1;
            }
        }
    }
    assert_eq!(met, [[33; 10], [27; 10], [60; 10]]);
}

/// Random numbers, written beside the tables and read back.
#[test]
fn random_numbers() {
    let mut random = Random(13);
    for _ in 0..2_000 {
        let (number, row) = model(&random.digits());
        let number = text(&number);
        assert_eq!(write_str(&number[..12]).unwrap(), row, "{number}");
        assert_eq!(write_str(&number).unwrap(), row, "{number}");
        assert_eq!(read_row(&row).unwrap(), number);
    }
}

#[test]
fn one_worn_cell() {
    for (_, row) in numbers() {
        for place in 0..CELLS {
            let mut row = row.clone();
            row[place] ^= 1;
            assert!(!accepts(&row), "{place}");
        }
    }
}

#[test]
fn values_that_are_no_cells() {
    let (_, row) = first();
    for place in 0..CELLS {
        for value in [2, 3, b'0', b'1', 128, 254, 255] {
            let mut row = row.clone();
            row[place] = value;
            assert!(!accepts(&row), "{place}");
        }
    }
}

#[test]
fn lengths_of_rows() {
    let (_, row) = first();
    let long = row.repeat(12);
    for length in (0..CELLS).chain(CELLS + 1..4 * CELLS).chain([long.len()]) {
        assert!(!accepts(&long[..length]), "{length}");
    }
    assert!(accepts(&long[..CELLS]));
}

/// Every other filling of a block or of a guard is refused.
#[test]
fn every_block() {
    let (number, mut row) = first();
    let guards = [(0, 3), (45, 5), (92, 3)];
    for (begin, width) in BLOCKS.map(|begin| (begin, 7)).into_iter().chain(guards) {
        let there = row[begin..begin + width].to_vec();
        for filling in 0..1 << width {
            for (bit, cell) in row[begin..begin + width].iter_mut().enumerate() {
                *cell = filling >> bit & 1;
            }
            let same = row[begin..begin + width] == there;
            assert_eq!(accepts(&row), same, "{filling} at {begin}");
        }
        row[begin..begin + width].copy_from_slice(&there);
        assert_eq!(read_row(&row).unwrap(), number);
    }
}

/// All 64 parities of the left side: ten of them stand for a first digit, and with each of these
/// one check digit is right.
#[test]
fn every_parity() {
    let mut read = Vec::new();
    for bits in 0..64_usize {
        let parities = [5, 4, 3, 2, 1, 0].map(|bit| bits >> bit & 1);
        for check in 0..10 {
            let row = drawn(parities, &[0, 0, 6, 3, 8, 1, 3, 3, 3, 9, 3, check]);
            if accepts(&row) {
                let number = read_row(&row).unwrap();
                let first = usize::from(number.as_bytes()[0] - b'0');
                assert_eq!(parities, PARITIES[first]);
                read.push(number);
            }
        }
    }
    read.sort();
    let numbers = (0..10).map(|first| text(&model(&[first, 0, 0, 6, 3, 8, 1, 3, 3, 3, 9, 3]).0));
    assert_eq!(read, numbers.collect::<Vec<String>>());
}

#[test]
fn a_row_upside_down() {
    for (number, mut row) in numbers() {
        row.reverse();
        assert!(!accepts(&row));
        row.reverse();
        assert_eq!(read_row(&row).unwrap(), number);
    }
}

#[test]
fn the_signatures_of_barcoders() {
    let barcode = EAN13::new("750103131130").unwrap();
    let (_, row) = numbers().nth(5).unwrap();
    assert_eq!(barcode.encode(), row);
    assert_eq!(barcode, barcode.clone());
    assert_eq!(barcode, EAN13::new(String::from("7501031311309")).unwrap());
    assert_ne!(barcode, EAN13::new("750103131131").unwrap());
    let shown = "EAN13([7, 5, 0, 1, 0, 3, 1, 3, 1, 1, 3, 0])";
    assert_eq!(format!("{barcode:?}"), shown);
    let _: [EAN13; 3] = [
        UPCA::new("012312345678").unwrap(),
        Bookland::new("978456123456").unwrap(),
        JAN::new("490312345678").unwrap(),
    ];
    for (text, error) in [
        ("", Error::Length),
        ("1111112222222333333", Error::Length),
        ("1234er123412", Error::Character),
        ("8801051294881", Error::Checksum),
    ] {
        assert_eq!(EAN13::new(text).unwrap_err(), error);
    }
}
