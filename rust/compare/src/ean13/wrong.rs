//! Wrong answers of EAN-13 that can be planted in the library, to show that a run finds them.
use super::ask::Typed;
use super::model::{self, Set, BLOCKS, CELLS, DIGITS, MIDDLE};
use crate::face::{Answer, Face, True};

/// A wrong answer that can be planted.
#[derive(Clone, Copy, Debug, PartialEq, Eq)]
pub enum Plant {
    /// Write answers 31 before 30.
    CharacterFirst,
    /// Refusal 31 with the place of the last byte that is no digit.
    LastPlace,
    /// Write counts characters, not bytes.
    Characters,
    /// Write takes the length for a number of 16 bits.
    ShortLength,
    /// Write takes `:` for a digit.
    Colon,
    /// Refusal 32 with the digit that is given.
    GivenCheck,
    /// Write does not look at the thirteenth digit.
    AnyCheck,
    /// Write weighs the digits by 1 and 3, and not by 3 and 1.
    Weights,
    /// Write draws the sets of the leading digit 0 for 1.
    Leading,
    /// Write draws set C for B.
    CForB,
    /// Write draws one cell after the row.
    After,
    /// A refused call of write changes the first cell.
    Touched,
    /// Write answers a short buffer before a wrong check.
    RoomFirst,
    /// Write asks for room for one cell more.
    Room,
    /// Read does not test the check.
    CheckUnread,
    /// Read accepts a digit on the left that is redrawn in the other set.
    Redrawn,
    /// Read takes the leading digit 1 for 0.
    ReadLeading,
    /// Read does not test the guard in the middle.
    Guard,
    /// Read takes every cell but 0 for a bar.
    Cells,
    /// Read does not look at what stands after 95 cells.
    Longer,
    /// Read accepts a row from right to left.
    UpsideDown,
    /// Read writes the values of the digits.
    Values,
    /// Read leaves out the check.
    Twelve,
    /// Read writes one byte after the digits.
    ReadAfter,
    /// A refused call of read changes the first byte.
    ReadTouched,
    /// Read answers a short buffer before a row that is not written.
    ReadRoomFirst,
    /// Refusal 33 with the number of cells.
    Second,
    /// The type with the crate's signatures gives `Character` for `Checksum`.
    TypeError,
    /// The type with the crate's signatures shows thirteen digits.
    TypeShown,
}

/// Every plant and its name on the command line.
pub const PLANTS: [(&str, Plant); 29] = [
    ("ean13-character-first", Plant::CharacterFirst),
    ("ean13-last-place", Plant::LastPlace),
    ("ean13-characters", Plant::Characters),
    ("ean13-short-length", Plant::ShortLength),
    ("ean13-colon", Plant::Colon),
    ("ean13-given-check", Plant::GivenCheck),
    ("ean13-any-check", Plant::AnyCheck),
    ("ean13-weights", Plant::Weights),
    ("ean13-leading", Plant::Leading),
    ("ean13-c-for-b", Plant::CForB),
    ("ean13-after", Plant::After),
    ("ean13-touched", Plant::Touched),
    ("ean13-room-first", Plant::RoomFirst),
    ("ean13-room", Plant::Room),
    ("ean13-check-unread", Plant::CheckUnread),
    ("ean13-redrawn", Plant::Redrawn),
    ("ean13-read-leading", Plant::ReadLeading),
    ("ean13-guard", Plant::Guard),
    ("ean13-cells", Plant::Cells),
    ("ean13-longer", Plant::Longer),
    ("ean13-upside-down", Plant::UpsideDown),
    ("ean13-values", Plant::Values),
    ("ean13-twelve", Plant::Twelve),
    ("ean13-read-after", Plant::ReadAfter),
    ("ean13-read-touched", Plant::ReadTouched),
    ("ean13-read-room-first", Plant::ReadRoomFirst),
    ("ean13-second", Plant::Second),
    ("ean13-type-error", Plant::TypeError),
    ("ean13-type-shown", Plant::TypeShown),
];

/// The library with one wrong answer planted in it.
pub struct Wrong(pub Plant);

/// Changes an element, if it is there.
fn change(buffer: &mut [u8], place: usize) {
    if let Some(element) = buffer.get_mut(place) {
        *element ^= 1;
    }
}

/// The place of the first byte that is no digit, or of the last.
fn no_digit(text: &[u8], last: bool) -> Option<usize> {
    let none = |byte: &u8| !byte.is_ascii_digit();
    match last {
        false => text.iter().position(none),
        true => text.iter().rposition(none),
    }
}

/// The answer to a text if characters are counted, and not bytes.
fn by_characters(text: &[u8]) -> Option<Answer> {
    let count = std::str::from_utf8(text).ok()?.chars().count();
    match (count, no_digit(text, false)) {
        (12 | 13, Some(place)) => Some((31, place)),
        (12 | 13, None) => None,
        _ => Some((30, count)),
    }
}

/// The check of twelve digits that weigh 1 and 3 by turns, from right to left.
fn other_check(twelve: &[u8]) -> u8 {
    let sum: u32 = (0..)
        .zip(twelve)
        .map(|(place, &digit)| u32::from(digit) * [3, 1][place % 2])
        .sum();
    ((10 - sum % 10) % 10) as u8
}

impl Wrong {
    /// What write draws wrongly for twelve digits: their blocks with another set or check.
    fn drawn(&self, twelve: &[u8]) -> Vec<u8> {
        let mut blocks = model::blocks(twelve);
        match self.0 {
            Plant::Weights => blocks[BLOCKS - 1].1 = other_check(twelve),
            Plant::Leading if twelve[0] == 1 => {
                blocks.iter_mut().take(6).for_each(|block| block.0 = Set::A)
            }
            Plant::CForB => blocks
                .iter_mut()
                .filter(|block| block.0 == Set::B)
                .for_each(|block| block.0 = Set::C),
            _ => {}
        }
        model::drawn(&blocks)
    }

    /// What write does wrongly after the library has accepted a text.
    fn accepted(&self, text: &[u8], row: &mut [u8]) -> Answer {
        match self.0 {
            Plant::Weights | Plant::Leading | Plant::CForB => {
                row[..CELLS].copy_from_slice(&self.drawn(&model::values(&text[..12])));
            }
            Plant::After => change(row, CELLS),
            _ => {}
        }
        (0, CELLS)
    }

    /// What write answers wrongly to a text that the library refuses.
    fn refused(&self, text: &[u8], row: &mut [u8], answer: Answer) -> Answer {
        let short = text.len() % (1 << 16);
        match (self.0, answer.0) {
            (Plant::CharacterFirst, 30) => match no_digit(text, false) {
                Some(place) => (31, place),
                None => answer,
            },
            (Plant::LastPlace, 31) => (31, no_digit(text, true).unwrap_or(answer.1)),
            (Plant::Characters, 30 | 31) => by_characters(text).unwrap_or(answer),
            (Plant::ShortLength, 30) if short < text.len() => True.ean13_write(&text[..short], row),
            (Plant::Colon, 31) => {
                let zero = |&byte: &u8| if byte == b':' { b'0' } else { byte };
                True.ean13_write(&text.iter().map(zero).collect::<Vec<u8>>(), row)
            }
            (Plant::GivenCheck, 32) => (32, usize::from(text[12] - b'0')),
            (Plant::AnyCheck, 32) => True.ean13_write(&text[..12], row),
            (Plant::RoomFirst, 32) if row.len() < CELLS => (5, CELLS),
            (Plant::Touched, _) => {
                change(row, 0);
                answer
            }
            _ => answer,
        }
    }

    /// The row that this plant takes a refused one for.
    fn taken_for(&self, row: &[u8]) -> Option<Vec<u8>> {
        let accepted = |row: &Vec<u8>| True.ean13_read(row, &mut [0; DIGITS]).0 == 0;
        match self.0 {
            Plant::Redrawn => (0..6).filter_map(|block| turned(row, block)).find(accepted),
            Plant::Guard => with_cells(row, model::place(6) - MIDDLE.len(), &MIDDLE),
            Plant::Cells => Some(row.iter().map(|&cell| cell.min(1)).collect()),
            Plant::Longer => row.get(..CELLS).map(<[u8]>::to_vec),
            Plant::UpsideDown => Some(row.iter().rev().copied().collect()),
            _ => None,
        }
    }

    /// The digits that read takes a row for.
    fn digits(&self, row: &[u8]) -> Option<Vec<u8>> {
        let mut digits = [0; DIGITS];
        if True.ean13_read(row, &mut digits).0 == 0 {
            return Some(digits.to_vec());
        }
        if self.0 == Plant::CheckUnread {
            return model::unchecked(row).map(|digits| model::ascii(&digits));
        }
        let other = self.taken_for(row)?;
        (True.ean13_read(&other, &mut digits).0 == 0).then_some(digits.to_vec())
    }

    /// What read writes for these digits, and its answer.
    fn put(&self, mut digits: Vec<u8>, text: &mut [u8]) -> Answer {
        match self.0 {
            Plant::Values => digits = model::values(&digits),
            Plant::Twelve => digits.truncate(12),
            Plant::ReadLeading if digits[0] == b'1' => digits[0] = b'0',
            _ => {}
        }
        let Some(front) = text.get_mut(..digits.len()) else {
            return (5, digits.len());
        };
        front.copy_from_slice(&digits);
        if self.0 == Plant::ReadAfter {
            change(text, DIGITS);
        }
        (0, digits.len())
    }
}

/// The row with other cells from this place on.
fn with_cells(row: &[u8], place: usize, cells: &[u8]) -> Option<Vec<u8>> {
    let mut row = row.to_vec();
    row.get_mut(place..place + cells.len())?
        .copy_from_slice(cells);
    Some(row)
}

/// The row with a digit on the left in the other of the sets A and B.
fn turned(row: &[u8], block: usize) -> Option<Vec<u8>> {
    let place = model::place(block);
    let cells = row.get(place..place + 7)?;
    let (set, digit) = model::every().find(|&(set, digit)| model::pattern(set, digit) == cells)?;
    let other = match set {
        Set::A => Set::B,
        _ => Set::A,
    };
    with_cells(row, place, &model::pattern(other, digit))
}

impl Face for Wrong {
    fn ean13_write(&self, text: &[u8], row: &mut [u8]) -> Answer {
        if self.0 == Plant::Room && True.ean13_write(text, &mut []).0 == 5 && row.len() == CELLS {
            return (5, CELLS + 1);
        }
        match True.ean13_write(text, row) {
            (0, _) => self.accepted(text, row),
            answer => self.refused(text, row, answer),
        }
    }

    fn ean13_read(&self, row: &[u8], text: &mut [u8]) -> Answer {
        match (self.0, self.digits(row)) {
            (Plant::ReadRoomFirst, None) if text.len() < DIGITS => (5, DIGITS),
            (_, Some(digits)) => self.put(digits, text),
            (Plant::Second, None) => (33, row.len()),
            (Plant::ReadTouched, None) => {
                change(text, 0);
                (33, 0)
            }
            (_, None) => (33, 0),
        }
    }

    fn ean13_type(&self, text: &str) -> Typed {
        match (self.0, True.ean13_type(text)) {
            (Plant::TypeError, Err(error)) if error == "Checksum" => Err("Character".into()),
            (Plant::TypeShown, Ok((row, shown))) => Ok((row, shown.replace("])", ", 0])"))),
            (_, answer) => answer,
        }
    }
}
