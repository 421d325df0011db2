use crate::text::{Set, State};
use crate::MOST_SYMBOLS;
use core::fmt;

/// The job that refused: the words for refusals 5, 10 and 13 depend on it. The last two are those
/// of EAN-13.
#[derive(Clone, Copy, Debug, PartialEq, Eq, Hash)]
pub(crate) enum Job {
    Encode,
    Draw,
    Read,
    Spell,
    Scan,
    Pack,
    Unpack,
    WriteEan13,
    ReadEan13,
}

/// What stands at the place of refusal 3, 19 or 31.
#[derive(Clone, Copy, Debug, PartialEq, Eq, Hash)]
struct Spot {
    /// Nothing at the end of the text, and for a byte that alone is no character.
    character: Option<char>,
    /// Nothing if the text was given as code points.
    offset: Option<usize>,
}

/// Why a call was refused: the number of the refusal and a second number. The lent buffer is
/// unchanged.
///
/// The documentation of each function lists its refusals. The text of the error gives both numbers
/// in words.
///
/// A place in a text counts code points (`char`s) from 0, and not bytes: Ɓ is one code point and
/// two bytes. [`offset`](Refusal::offset) is the same place in bytes, as slices of a `&str` count,
/// and [`character`](Refusal::character) is what stands there. In a text for EAN-13 the two places
/// are the same, since there are digits alone before the refused one.
///
/// ```
/// let text = "ÀHello";
/// let refusal = slatmonief::encode_str(text).unwrap_err();
/// assert_eq!((refusal.number(), refusal.second()), (3, 2));
/// assert_eq!((refusal.offset(), refusal.character()), (Some(3), Some('e')));
/// assert_eq!(text[3..], *"ello");
/// assert_eq!(
///     refusal.to_string(),
///     "refusal 3: `e` has no number in set A, at place 2 (counted in code points; byte 3)"
/// );
/// ```
///
/// The words are always one line. A character that is no Latin letter, ASCII sign or currency sign
/// is named in them by its number, as U+0301, since it may be invisible or join what is beside it.
#[derive(Clone, Copy, Debug, PartialEq, Eq, Hash)]
pub struct Refusal {
    job: Job,
    number: u32,
    second: usize,
    /// The parser's state at the place of refusal 3 or 19.
    state: Option<State>,
    spot: Option<Spot>,
}

impl Refusal {
    /// The refusal of a job by these two numbers.
    pub(crate) fn new(job: Job, number: u32, second: usize) -> Refusal {
        Refusal {
            job,
            number,
            second,
            state: None,
            spot: None,
        }
    }

    /// Whether encode refused something at a place of its text.
    fn is_at_a_place(&self) -> bool {
        self.job == Job::Encode && matches!(self.number, 3 | 19)
    }

    /// The refusal of encode, with what stands at its place in this text.
    pub(crate) fn in_text(mut self, text: &str) -> Refusal {
        if self.is_at_a_place() {
            let mut rest = text.chars();
            self.state = Some(State::after(rest.by_ref().take(self.second)));
            self.spot = Some(Spot {
                offset: Some(text.len() - rest.as_str().len()),
                character: rest.next(),
            });
        }
        self
    }

    /// The refusal of encode, with what stands at its place in these code points. All of them are
    /// scalar values, since refusal 1 comes before.
    pub(crate) fn in_points(mut self, text: &[u32]) -> Refusal {
        if self.is_at_a_place() {
            let mut rest = text.iter().filter_map(|&point| char::from_u32(point));
            self.state = Some(State::after(rest.by_ref().take(self.second)));
            self.spot = Some(Spot {
                offset: None,
                character: rest.next(),
            });
        }
        self
    }

    /// The refusal of an EAN-13 text, with what stands at its place. There are digits alone before
    /// it, so that it is the same place in code points and in bytes.
    pub(crate) fn in_digits(mut self, text: &str) -> Refusal {
        if self.number == 31 {
            let rest = text.get(self.second..);
            self.spot = Some(Spot {
                offset: Some(self.second),
                character: rest.and_then(|rest| rest.chars().next()),
            });
        }
        self
    }

    /// The refusal of an EAN-13 text that was given in bytes, with what stands at its place.
    pub(crate) fn in_bytes(mut self, text: &[u8]) -> Refusal {
        if self.number == 31 {
            let byte = text.get(self.second).copied();
            self.spot = Some(Spot {
                offset: Some(self.second),
                character: byte.filter(u8::is_ascii).map(char::from),
            });
        }
        self
    }

    /// The number of the refusal, from 1 to 33.
    pub fn number(&self) -> u32 {
        self.number
    }

    /// The second number: a place, a block, a length, a version, a check, or what would be needed.
    /// A place in a text counts code points; in EAN-13 it counts bytes, which is the same place, since
    /// only digits stand before it.
    pub fn second(&self) -> usize {
        self.second
    }

    /// The byte of the text at which the refused place begins, for refusals 3 and 19 of
    /// [`encode_str`](crate::encode_str), and for refusal 31 of
    /// [`ean13::write_str`](crate::ean13::write_str) and [`ean13::write`](crate::ean13::write).
    /// In `encode_str` it is the length of the text in bytes if a digit is left over at its end.
    /// `None` for every other call, [`encode`](crate::encode) among them, whose text has no bytes,
    /// and for every other refusal.
    pub fn offset(&self) -> Option<usize> {
        self.spot?.offset
    }

    /// The character at the refused place, for refusals 3 and 19 of
    /// [`encode_str`](crate::encode_str) and [`encode`](crate::encode), and for refusal 31 of
    /// [`ean13::write_str`](crate::ean13::write_str) and [`ean13::write`](crate::ean13::write).
    /// `None` if a digit is left over at the end of the text, if `ean13::write` refuses a byte
    /// above 127, which alone is no character, for every other call and for every other refusal.
    pub fn character(&self) -> Option<char> {
        self.spot?.character
    }

    /// The words of refusal 3.
    fn stopped(&self, state: State, f: &mut fmt::Formatter<'_>) -> fmt::Result {
        let place = Place(self);
        match (state, self.character()) {
            (State::Start, Some(c)) => {
                let c = Shown(c);
                write!(
                    f,
                    "no START: begin with À, Ɓ or Ć, not with {c}, at {place}"
                )
            }
            (State::Free(set), Some(c)) => {
                let (c, set) = (Shown(c), letter(set));
                write!(f, "{c} has no number in set {set}, at {place}")
            }
            (State::Held, Some(c)) => {
                let c = Shown(c);
                write!(
                    f,
                    "a digit is waiting for the second of its pair, and {c} is no digit, at {place}"
                )
            }
            (_, None) => write!(f, "a digit is left over at the text's end, {place}"),
        }
    }
}

/// The name of a code set.
fn letter(set: Set) -> char {
    match set {
        Set::A => 'A',
        Set::B => 'B',
        Set::C => 'C',
    }
}

/// The place of a refusal, in words.
struct Place<'a>(&'a Refusal);

impl fmt::Display for Place<'_> {
    fn fmt(&self, f: &mut fmt::Formatter<'_>) -> fmt::Result {
        write!(f, "place {}", self.0.second)?;
        match self.0.offset() {
            Some(offset) => write!(f, " (counted in code points; byte {offset})"),
            None => Ok(()),
        }
    }
}

/// A character in words: Latin letters, ASCII signs but the backtick, and currency signs as they
/// are, any other by its number.
struct Shown(char);

impl fmt::Display for Shown {
    fn fmt(&self, f: &mut fmt::Formatter<'_>) -> fmt::Result {
        match self.0 {
            c @ ('!'..='_'
            | 'a'..='~'
            | '\u{A1}'..='\u{AC}'
            | '\u{AE}'..='\u{24F}'
            | '\u{20A0}'..='\u{20BF}') => write!(f, "`{c}`"),
            c => write!(f, "U+{:04X}", u32::from(c)),
        }
    }
}

impl fmt::Display for Refusal {
    fn fmt(&self, f: &mut fmt::Formatter<'_>) -> fmt::Result {
        let m = self.second;
        write!(f, "refusal {}: ", self.number)?;
        match (self.number, self.job) {
            (1, _) => write!(f, "the value at place {m} is no Unicode scalar value"),
            (2, _) => write!(f, "the text has fewer than two UTF-8 bytes"),
            (3, _) => match self.state {
                Some(state) => self.stopped(state, f),
                None => write!(f, "parsing stops at place {m}"),
            },
            (4, _) => write!(f, "{m} symbols are needed and {MOST_SYMBOLS} is the limit"),
            (5, job) => too_short(job, m, f),
            (10, Job::Read | Job::Pack) => write!(f, "no Code 128 row has {m} cells"),
            (10, _) => write!(f, "no symbol list has {m} symbols"),
            (13, Job::Read) => write!(f, "block {m} has a number that may not stand there"),
            (13, _) => write!(f, "the number at place {m} may not stand there"),
            (11 | 12 | 14..=16, _) => bad_row(self.number, m, f),
            (19, _) => write!(f, "ź (FNC2) at {} is retired", Place(self)),
            (20..=23, _) => bad_record(self.number, m, f),
            (30..=33, _) => bad_ean13(self, f),
            (_, _) => write!(f, "second number {m}"),
        }
    }
}

/// The words of refusal 5.
fn too_short(job: Job, m: usize, f: &mut fmt::Formatter<'_>) -> fmt::Result {
    let (buffer, elements) = match job {
        Job::Encode | Job::Draw | Job::Unpack | Job::WriteEan13 => ("the row's buffer", "cells"),
        Job::Read => ("the list's buffer", "symbols"),
        Job::Spell => ("the text's buffer", "code points"),
        Job::ReadEan13 => ("the text's buffer", "bytes"),
        Job::Scan | Job::Pack => ("the buffer", "bytes"),
    };
    write!(f, "{buffer} is too short, {m} {elements} are needed")
}

/// The words of the refusals that are about a row alone.
fn bad_row(number: u32, m: usize, f: &mut fmt::Formatter<'_>) -> fmt::Result {
    match number {
        11 => write!(f, "the cell at place {m} is neither 0 nor 1"),
        12 => write!(
            f,
            "block {m} is none of the 106 patterns and has an even number of bar cells: print again"
        ),
        14 => write!(f, "the check is wrong, {m} would be right"),
        15 => write!(f, "the cell at place {m} is not the stop's"),
        _ => write!(
            f,
            "block {m} is none of the 106 patterns and has an odd number of bar cells, as one worn \
             cell can leave it: photograph again"
        ),
    }
}

/// The words of the refusals that are about a record.
fn bad_record(number: u32, m: usize, f: &mut fmt::Formatter<'_>) -> fmt::Result {
    match number {
        20 => write!(f, "a record of {m} bytes has no head"),
        21 => write!(f, "the record's version is {m}, neither 1 nor 2"),
        22 if m == 0 => write!(
            f,
            "the record's count is missing, or none that its version has"
        ),
        22 => write!(
            f,
            "the record's length is not what its count needs, {m} bytes"
        ),
        _ => write!(f, "a spare bit is set in the last byte, at place {m}"),
    }
}

/// The words of the refusals that are about EAN-13.
fn bad_ean13(refusal: &Refusal, f: &mut fmt::Formatter<'_>) -> fmt::Result {
    let m = refusal.second;
    match (refusal.number, refusal.character()) {
        (30, _) => write!(
            f,
            "the text's length in bytes is {m}, and EAN-13 needs 12 or 13 digits"
        ),
        (31, Some(c)) => write!(f, "{} at place {m} is none of the digits 0 to 9", Shown(c)),
        (31, None) => write!(f, "the byte at place {m} is none of the digits 0 to 9"),
        (32, _) => write!(f, "the check digit is wrong, {m} would be right"),
        _ => write!(f, "the cells are no EAN-13 row"),
    }
}

#[cfg(feature = "std")]
impl std::error::Error for Refusal {}
