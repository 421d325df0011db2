//! Where encode refuses a text and in which words, and the error of barcoders for each refusal. For
//! EAN-13 both are in tests/ean13.rs.
use slatmonief::{error::Error, *};

/// The code points of a text.
fn points(text: &str) -> Vec<u32> {
    text.chars().map(u32::from).collect()
}

/// Compares the refusal of a text by `encode_str` and by `encode` with these words, in which @ is
/// the place.
fn refused(text: &str, place: usize, offset: usize, character: Option<char>, words: &str) {
    let refusal = encode_str(text).unwrap_err();
    assert_eq!((refusal.second(), refusal.offset()), (place, Some(offset)));
    assert_eq!(refusal.character(), character, "{text:?}");
    let at = format!("place {place} (counted in code points; byte {offset})");
    assert_eq!(refusal.to_string(), words.replace('@', &at));
    assert_eq!(text[..offset].chars().count(), place);
    assert_eq!(text[offset..].chars().next(), character);

    let refusal = encode(&points(text), &mut []).unwrap_err();
    assert_eq!((refusal.second(), refusal.offset()), (place, None));
    assert_eq!(refusal.character(), character, "{text:?}");
    let at = format!("place {place}");
    assert_eq!(refusal.to_string(), words.replace('@', &at));
}

#[test]
fn no_start() {
    for (text, c) in [("Hello", 'H'), ("źƁ", 'ź'), ("€", '€'), ("1Ć", '1')] {
        let words = format!("refusal 3: no START: begin with À, Ɓ or Ć, not with `{c}`, at @");
        refused(text, 0, 0, Some(c), &words);
    }
}

#[test]
fn no_number_in_the_set() {
    for (text, place, offset, c, set) in [
        ("ÀHé", 2, 3, 'é', 'A'),
        ("ÀÀ", 1, 2, 'À', 'A'),
        ("ÀŽa", 2, 4, 'a', 'A'),
        ("ƁźĆ12Àé", 6, 10, 'é', 'A'),
        ("ƁAż€1", 3, 5, '€', 'B'),
        ("ÀżĆŹ12Ɓ1Ɓ", 8, 13, 'Ɓ', 'B'),
        ("Ć12A", 3, 4, 'A', 'C'),
        ("Ć12ŹĆ", 4, 6, 'Ć', 'C'),
        ("Ć1234ź", 5, 6, 'ź', 'C'),
    ] {
        let words = format!("refusal 3: `{c}` has no number in set {set}, at @");
        refused(text, place, offset, Some(c), &words);
    }
}

#[test]
fn a_digit_without_its_second() {
    for (text, place, offset, c) in [
        ("Ć12345Ɓ", 6, 7, 'Ɓ'),
        ("Ć1ŹA2", 3, 5, 'A'),
        ("Ɓ1Ć1ź", 4, 6, 'ź'),
    ] {
        let words = format!(
            "refusal 3: a digit is waiting for the second of its pair, and `{c}` is no digit, at @"
        );
        refused(text, place, offset, Some(c), &words);
    }
    for (text, place, offset) in [("Ć1", 2, 3), ("Ɓ1Ć123ŹŹ", 8, 12)] {
        let words = "refusal 3: a digit is left over at the text's end, @";
        refused(text, place, offset, None, words);
    }
}

#[test]
fn a_retired_character() {
    for (text, place, offset) in [("Ɓź", 1, 2), ("Ć97ƁŽaźAź", 6, 9), ("ÀŹźźĆ1Ź2", 2, 4)]
    {
        let words = "refusal 19: ź (FNC2) at @ is retired";
        refused(text, place, offset, Some('ź'), words);
    }
}

/// A character that could break the line, hide or join the next is named by its number, and the
/// rest as it is.
#[test]
fn the_words_are_one_clean_line() {
    let named =
        "\n\r\t\0\u{1B}\u{7F}\u{85}\u{A0}\u{AD}\u{301}\u{308}\u{903}\u{200B}\u{200D}\u{202E}\
                 \u{2028}\u{2029}\u{20DD}\u{FE0F}\u{FEFF}\u{E000}\u{1F600}\u{10FFFF} `";
    for c in named.chars() {
        let words = encode_str(&format!("Ć{c}")).unwrap_err().to_string();
        let shown = format!("refusal 3: U+{:04X} has no number", u32::from(c));
        assert!(words.starts_with(&shown), "{words:?}");
    }
    for c in "!\"'\\_az~¡éßźžƀɏ€".chars() {
        let words = encode_str(&format!("Ć{c}")).unwrap_err().to_string();
        let shown = format!("refusal 3: `{c}` has no number");
        assert!(words.starts_with(&shown), "{words:?}");
    }
    for c in '\0'..'\u{3000}' {
        if let Err(refusal) = encode(&[0x106, u32::from(c)], &mut [0; 46]) {
            assert!(!refusal.to_string().contains(char::is_control), "{c:?}");
        }
    }
}

/// A refusal about no place of a text has neither offset nor character.
#[test]
fn no_place_in_a_text() {
    let long = format!("Ɓ{}", "A".repeat(4000));
    for refusal in [
        encode(&[0xC0, 0xD800], &mut []).unwrap_err(),
        encode(&[0xC0], &mut []).unwrap_err(),
        encode_str("A").unwrap_err(),
        encode_str(&long).unwrap_err(),
        encode_str(&long.repeat(2).replacen("AƁ", "AA", 1)).unwrap_err(),
        draw_symbols(&[104, 104]).unwrap_err(),
        unpack_record(&[3, 9]).unwrap_err(),
        ean13::write_str("é").unwrap_err(),
        ean13::write_str("4006381333930").unwrap_err(),
        ean13::write(b"4006381333931", &mut []).unwrap_err(),
        ean13::read_row(b"4006381333931").unwrap_err(),
    ] {
        assert_eq!((refusal.offset(), refusal.character()), (None, None));
    }
    assert!(std::mem::size_of::<Refusal>() <= 40);
}

/// The error of barcoders for every refusal of every job of Code 128.
#[test]
fn errors_of_barcoders() {
    let row = encode_str("ƁAIM").unwrap();
    let with = |places: &[usize]| {
        let mut row = row.clone();
        places.iter().for_each(|&place| row[place] ^= 1);
        read_row(&row).unwrap_err()
    };
    let mut seen = Vec::new();
    for (refusal, number, error) in [
        (
            encode(&[0xC0, 0xD800], &mut []).unwrap_err(),
            1,
            Error::Character,
        ),
        (encode_str("A").unwrap_err(), 2, Error::Length),
        (encode_str("ÀŽa").unwrap_err(), 3, Error::Character),
        (
            encode_str(&format!("Ɓ{}", "A".repeat(4000))).unwrap_err(),
            4,
            Error::Length,
        ),
        (encode(&[0xC0], &mut []).unwrap_err(), 5, Error::Length),
        (draw_symbols(&[]).unwrap_err(), 10, Error::Length),
        (pack_row(&[2; 35]).unwrap_err(), 11, Error::Character),
        (with(&[12, 14]), 12, Error::Character),
        (draw_symbols(&[104, 104]).unwrap_err(), 13, Error::Character),
        (with(&[19, 20]), 14, Error::Checksum),
        (with(&[67]), 15, Error::Character),
        (with(&[12]), 16, Error::Character),
        (encode_str("Ɓź").unwrap_err(), 19, Error::Character),
        (unpack_record(&[1]).unwrap_err(), 20, Error::Length),
        (unpack_record(&[3, 9]).unwrap_err(), 21, Error::Character),
        (unpack_record(&[2, 1]).unwrap_err(), 22, Error::Length),
        (
            unpack_record(&[1, 1, 0, 0, 0, 0, 1]).unwrap_err(),
            23,
            Error::Character,
        ),
    ] {
        assert_eq!((refusal.number(), Error::from(refusal)), (number, error));
        seen.push(number);
    }
    assert_eq!(seen.len(), 17);
}
