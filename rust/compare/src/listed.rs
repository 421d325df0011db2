//! The list of the differences that are known and allowed: the rows of docs/DIFFERENCES.md, to be
//! counted.
use crate::ask::Crate;
use crate::model::{self, FNC1};

/// A row of docs/DIFFERENCES.md. In the first four, encode differs from the crate. In the last four
/// the crate differs from the standard; there encode follows the crate and must answer as it does.
#[derive(Clone, Copy, Debug, PartialEq, Eq)]
pub enum Listed {
    /// A value is not a scalar value: the crate cannot be asked.
    NoScalar,
    /// The text has a ź: the crate writes its row.
    Retired,
    /// More than 4,000 symbols: the crate has no limit.
    TooMany,
    /// The buffer is too short: the crate makes a vector of its own.
    TooShort,
    /// ÷ is used for DEL.
    Divide,
    /// Ž is encoded and changes no set; only scan shifts.
    Shift,
    /// Ź is inside a pair.
    Held,
    /// There is nothing after the START.
    StartAlone,
}

/// Every row of the list, with its name in docs/DIFFERENCES.md.
pub const LIST: [(Listed, &str); 8] = [
    (Listed::NoScalar, "Refusal 1, no scalar value"),
    (Listed::Retired, "Refusal 19, ź (FNC2, 97) is retired"),
    (Listed::TooMany, "Refusal 4, more than 4,000 symbols"),
    (Listed::TooShort, "Refusal 5, output too short"),
    (Listed::Divide, "÷ for DEL: number 95 in set B"),
    (Listed::Shift, "Ž (Shift, 98) shifts nothing in encode"),
    (Listed::Held, "A digit held across Ź"),
    (Listed::StartAlone, "A START with no data"),
];

/// The row where our answer differs from the crate's, by the number of the refusal.
fn differs_from_crate(number: u32) -> Option<Listed> {
    match number {
        1 => Some(Listed::NoScalar),
        19 => Some(Listed::Retired),
        4 => Some(Listed::TooMany),
        5 => Some(Listed::TooShort),
        _ => None,
    }
}

/// The rows that an input of encode belongs to, from the crate's answer, the place of refusal 3 and
/// our answer number. After 19 encode does not follow the crate, so it is counted in its own row
/// alone.
pub fn rows_of(
    text: &[u32],
    said: &Crate,
    place: usize,
    number: u32,
) -> impl Iterator<Item = Listed> {
    let row = match said {
        Crate::Row(row) if number != 19 => Some(row),
        _ => None,
    };
    let stops_at = |what: u32| *said == Crate::Character && text.get(place) == Some(&what);
    let stops_after = |what: u32| {
        *said == Crate::Character && place > 0 && place < text.len() && text[place - 1] == what
    };
    let has = |what: u32| row.is_some() && text.contains(&what);
    [
        differs_from_crate(number),
        (has(0xF7) || stops_at(0x7F)).then_some(Listed::Divide),
        (has(0x17D) || stops_after(0x17D)).then_some(Listed::Shift),
        (has(FNC1) && model::moved(text) != text).then_some(Listed::Held),
        row.is_some_and(|row| row.len() == model::cells(1))
            .then_some(Listed::StartAlone),
    ]
    .into_iter()
    .flatten()
}
