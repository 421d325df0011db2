//! The comparison of EAN-13: its parts, its model, and the list of its differences.
//!
//! Write and the type with the crate's signatures are compared with the crate. Write and read are
//! compared with a model as well, which is written from what is known of the GS1 General
//! Specifications; it must answer as the crate does wherever the crate can be asked.
pub mod ask;
pub mod check;
pub mod model;
pub mod read;
pub mod write;
pub mod wrong;

use ask::Crate;

/// A row of the table of EAN-13 in docs/DIFFERENCES.md. In the first two, write differs from the
/// crate. In the last the crate differs from the specifications; there write follows the crate.
#[derive(Clone, Copy, Debug, PartialEq, Eq)]
pub enum Listed {
    /// The bytes are no UTF-8: the crate cannot be asked.
    NoText,
    /// The buffer is too short: the crate makes a vector of its own.
    TooShort,
    /// Eleven digits and the check of UPC-A: the check is taken for a digit of the number.
    UpcA,
}

/// Every row of the table that a run counts, with its name in docs/DIFFERENCES.md.
pub const LIST: [(Listed, &str); 3] = [
    (Listed::NoText, "A text that is no UTF-8"),
    (Listed::TooShort, "Refusal 5, output too short"),
    (Listed::UpcA, "Twelve digits of UPC-A, its check among them"),
];

/// The row of the table that no run meets: the crate takes the length for a number of 32 bits. A
/// test that is run by hand meets it.
pub const BY_HAND: &str = "A text of 2^32 + 12 digits";

/// Whether a text that is accepted is a UPC-A number of eleven digits and its check. Its symbol is
/// that of these twelve digits after a 0. The number 0 has the same row either way.
fn is_upc_a(text: &[u8]) -> bool {
    text.len() == 12
        && text.iter().any(|&byte| byte != b'0')
        && model::check(&model::values(&text[..11])) == text[11] - b'0'
}

/// The rows that a text belongs to, from the crate's answer and our answer number.
fn rows_of(text: &[u8], crates: &Crate, number: u32) -> impl Iterator<Item = Listed> {
    let upc_a = matches!(crates, Crate::Row(_)) && is_upc_a(text);
    [
        (*crates == Crate::NoText).then_some(Listed::NoText),
        (number == 5).then_some(Listed::TooShort),
        upc_a.then_some(Listed::UpcA),
    ]
    .into_iter()
    .flatten()
}
