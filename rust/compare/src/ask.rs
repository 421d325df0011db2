//! Asks the crate: its answers, its patterns, and the place of refusal 3, found from its answers
//! alone.
use crate::model::{cells, FNC1, SWITCH};
use barcoders::error::Error;
use barcoders::sym::code128::Code128;

/// The crate's answer to a list of code points.
#[derive(Clone, Debug, PartialEq, Eq)]
pub enum Crate {
    /// The value at this place is not a scalar value, so there is no text to ask with.
    NoText(usize),
    /// `Error::Length`.
    Length,
    /// `Error::Character`.
    Character,
    /// The row. For more than 6,000 symbols only its length is right.
    Row(Vec<u8>),
}

/// The text of these code points, or the place of the first one that is not a scalar value.
pub fn text_of(points: &[u32]) -> Result<String, usize> {
    let mut text = String::with_capacity(4 * points.len() + 4);
    for (place, &point) in points.iter().enumerate() {
        text.push(char::from_u32(point).ok_or(place)?);
    }
    Ok(text)
}

/// The most symbols of a text that the crate is asked to draw. For more than about 6,400 its sum
/// for the check does not fit in an `i32`.
pub const MOST_DRAWN: usize = 6000;

/// The number of symbols of a text that the crate accepts, counted in its debug output.
fn symbols(code: &Code128) -> usize {
    format!("{code:?}").matches("Unit {").count()
}

/// The crate's row of a text of this many code points, or as many cells as the row has, if the
/// crate is not asked to draw it. A text has no more symbols than code points.
fn drawn(code: &Code128, points: usize) -> Vec<u8> {
    match points {
        0..=MOST_DRAWN => code.encode(),
        _ => match symbols(code) {
            0..=MOST_DRAWN => code.encode(),
            n => vec![0; cells(n)],
        },
    }
}

/// Asks the crate.
pub fn ask(points: &[u32]) -> Crate {
    let text = match text_of(points) {
        Ok(text) => text,
        Err(place) => return Crate::NoText(place),
    };
    match Code128::new(&text) {
        Ok(code) => Crate::Row(drawn(&code, points.len())),
        Err(Error::Length) => Crate::Length,
        Err(Error::Character) => Crate::Character,
        Err(other) => panic!("the crate gives {other:?}, which it does not give for Code 128"),
    }
}

/// The crate's row, if it accepts the text.
pub fn row(points: &[u32]) -> Option<Vec<u8>> {
    match ask(points) {
        Crate::Row(row) => Some(row),
        _ => None,
    }
}

/// The code points of the numbers 96 to 102 in set B.
const FUNCTIONS_B: [u32; 7] = [0x17B, 0x17A, 0x17D, SWITCH[2], 0x17C, SWITCH[0], FNC1];

/// A text whose row has this number, and the block of the row where it is.
fn text_with(number: usize) -> (Vec<u32>, usize) {
    match number {
        0..=94 => (vec![SWITCH[1], 0x20 + number as u32], 1),
        95 => (vec![SWITCH[1], 0xF7], 1),
        96..=102 => (vec![SWITCH[1], FUNCTIONS_B[number - 96]], 1),
        _ => (vec![SWITCH[number - 103]], 0),
    }
}

/// The 106 patterns in the order of their numbers, cut out of the crate's rows.
pub fn patterns() -> [[u8; 11]; 106] {
    std::array::from_fn(|number| {
        let (text, block) = text_with(number);
        let row = row(&text).expect("the crate accepts the texts that show the patterns");
        row[11 * block..11 * block + 11]
            .try_into()
            .expect("eleven cells")
    })
}

/// Whether the crate accepts a text; no row is drawn.
fn accepts(text: &str) -> bool {
    Code128::new(text).is_ok()
}

/// The code points that are tried after a short beginning, one and two at a time.
const ENDINGS: [char; 10] = ['0', '9', 'A', 'a', ' ', '\u{1F}', 'À', 'Ɓ', 'Ć', 'Ź'];

/// What is tried after a beginning that the crate refuses.
#[derive(Clone, Copy, PartialEq, Eq)]
pub enum Tries {
    /// A digit.
    Digit,
    /// A digit, and then every text of one or two code points of a small set.
    Many,
}

/// Whether the crate accepts a beginning, alone or continued. The beginning is not empty.
pub fn continues(points: &[u32], tries: Tries) -> bool {
    let Ok(mut text) = text_of(points) else {
        return false;
    };
    if accepts(&text) {
        return true;
    }
    text.push('0');
    if accepts(&text) {
        return true;
    }
    text.pop();
    tries == Tries::Many && ENDINGS.iter().any(|&one| continued_by(&mut text, one))
}

/// Whether the crate accepts the text with this code point after it, alone or with one more of the
/// small set.
fn continued_by(text: &mut String, one: char) -> bool {
    text.push(one);
    let mut found = accepts(text);
    for &two in &ENDINGS {
        text.push(two);
        found |= accepts(text);
        text.pop();
    }
    text.pop();
    found
}

/// The first place where the beginning up to and including it cannot be continued, searched from
/// the left.
pub fn place_from_left(points: &[u32], tries: Tries) -> Option<usize> {
    (0..points.len()).find(|&place| !continues(&points[..=place], tries))
}

/// Up to this length, the place in a text is searched from the left, with many continuations.
const FROM_LEFT_UP_TO: usize = 6;

/// The place of refusal 3 in a text that the crate refuses by `Character`. If every beginning can
/// be continued, it is the length of the text.
pub fn place(points: &[u32]) -> usize {
    if points.len() <= FROM_LEFT_UP_TO {
        return place_from_left(points, Tries::Many).unwrap_or(points.len());
    }
    place_by_halving(points)
}

/// The same place, searched by halving: if a beginning can be continued, so can every shorter one.
pub fn place_by_halving(points: &[u32]) -> usize {
    let (mut low, mut high) = (0, points.len());
    while low < high {
        let middle = (low + high) / 2;
        if continues(&points[..=middle], Tries::Digit) {
            low = middle + 1;
        } else {
            high = middle;
        }
    }
    low
}
