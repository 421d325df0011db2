//! Compares the library with the crate barcoders (encode), and with a plain model of documents 01
//! and 02 (the other six jobs). [`ean13`] does the same for EAN-13, with a model of its own.
//!
//! Every call is compared in full: the answer number, the second number, and every element of the
//! lent buffer and of a fence around it. One function decides where encode may differ from the
//! crate: `encode_said` in [`check`] (for the type with the crate's signatures, `Worker::drop_in`).
//! The module [`listed`] only counts the calls for each row of docs/DIFFERENCES.md. Any other
//! difference ends the run, with its input made as small as possible.
//!
//! [`ask`] asks the crate. [`model`] is the model, and uses no other module; [`ask::patterns`]
//! gives it the bar patterns.
#![warn(missing_docs)]

pub mod ask;
pub mod check;
pub mod ean13;
pub mod encode;
pub mod exchanged;
pub mod face;
pub mod inputs;
pub mod laws;
pub mod listed;
pub mod lists;
pub mod model;
pub mod random;
pub mod read;
pub mod records;
pub mod report;
pub mod run;
pub mod shrink;
pub mod versions;

use check::{Fault, Tally, Worker, LONG};
use listed::LIST;
use run::Run;

/// What the inputs of a part are for.
#[derive(Clone, Copy, Debug, PartialEq, Eq)]
pub enum Kind {
    /// Encode.
    Encode,
    /// The other six jobs of Code 128.
    Rest,
    /// EAN-13.
    Ean13,
}

/// A part of the comparison.
pub struct Part {
    /// Its name on the command line.
    pub name: &'static str,
    /// What its inputs are for.
    pub kind: Kind,
    /// Does the work.
    pub work: fn(&Run) -> run::Result<Tally>,
}

/// Makes a part.
const fn part(name: &'static str, kind: Kind, work: fn(&Run) -> run::Result<Tally>) -> Part {
    Part { name, kind, work }
}

/// Every part, in the order of a run.
pub const PARTS: [Part; 34] = [
    part("encode-all", Kind::Encode, encode::all),
    part("encode-points", Kind::Encode, encode::points),
    part("encode-lengths", Kind::Encode, |run| {
        let mut tally = encode::lengths(run)?;
        tally.add(&encode::far(run)?);
        Ok(tally)
    }),
    part("encode-limit", Kind::Encode, encode::limit),
    part("encode-random", Kind::Encode, encode::random),
    part("encode-retired", Kind::Encode, |run| {
        let mut tally = encode::retired(run)?;
        tally.add(&encode::retired_random(run)?);
        Ok(tally)
    }),
    part("encode-shared", Kind::Encode, encode::shared),
    part("encode-moved", Kind::Encode, encode::moved),
    part("read-all", Kind::Rest, read::all),
    part("read-replaced", Kind::Rest, read::replaced),
    part("read-cells", Kind::Rest, read::cells),
    part("read-worn", Kind::Rest, |run| {
        let mut tally = read::beside(run)?;
        tally.add(&read::pairs(run)?);
        Ok(tally)
    }),
    part("read-exchanged", Kind::Rest, exchanged::all),
    part("read-lengths", Kind::Rest, read::lengths),
    part("read-random", Kind::Rest, read::random),
    part("rooms", Kind::Rest, read::rooms),
    part("lists-all", Kind::Rest, lists::all),
    part("lists-lengths", Kind::Rest, lists::lengths),
    part("lists-random", Kind::Rest, lists::random),
    part("lists-shift", Kind::Rest, lists::shift),
    part("lists-shift-random", Kind::Rest, lists::shift_random),
    part("lists-retired", Kind::Rest, |run| {
        let mut tally = lists::retired(run)?;
        tally.add(&lists::retired_random(run)?);
        Ok(tally)
    }),
    part("records-all", Kind::Rest, |run| {
        let mut tally = records::all(run)?;
        tally.add(&records::heads(run)?);
        tally.add(&records::lengths(run)?);
        Ok(tally)
    }),
    part("records-versions", Kind::Rest, |run| {
        let mut tally = versions::rows(run)?;
        tally.add(&versions::counts(run)?);
        Ok(tally)
    }),
    part("records-random", Kind::Rest, records::random),
    part("ean13-texts", Kind::Ean13, |run| {
        let mut tally = ean13::write::lengths(run)?;
        tally.add(&ean13::write::bytes(run)?);
        tally.add(&ean13::write::characters(run)?);
        Ok(tally)
    }),
    part("ean13-checks", Kind::Ean13, ean13::write::checks),
    part("ean13-random", Kind::Ean13, ean13::write::random),
    part("ean13-redrawn", Kind::Ean13, ean13::read::redrawn),
    part("ean13-words", Kind::Ean13, ean13::read::words),
    part("ean13-cells", Kind::Ean13, ean13::read::cells),
    part("ean13-lengths", Kind::Ean13, ean13::read::lengths),
    part("ean13-rows", Kind::Ean13, ean13::read::rows),
    part("ean13-rooms", Kind::Ean13, |run| {
        let mut tally = ean13::write::rooms(run)?;
        tally.add(&ean13::read::rooms(run)?);
        Ok(tally)
    }),
];

/// The numbers of the refusals in documents 01 and 02, and of those of EAN-13.
const REFUSALS: [usize; 21] = [
    1, 2, 3, 4, 5, 10, 11, 12, 13, 14, 15, 16, 19, 20, 21, 22, 23, 30, 31, 32, 33,
];

/// What a whole run must come across and this tally has not: an accepted call, each of the calls
/// with more than 255 symbols, each refusal, each row of the two lists, the types with the crate's
/// signatures.
pub fn unmet(tally: &Tally) -> Vec<String> {
    let [written, read] = tally.ean13_accepted;
    let kinds = [
        ("an accepted call", tally.accepted),
        ("the type with the crate's signatures", tally.drop_in),
        ("an accepted call of EAN-13's write", written),
        ("an accepted call of EAN-13's read", read),
        (
            "EAN-13's type with the crate's signatures",
            tally.ean13_types,
        ),
    ]
    .map(|(what, count)| (what.to_string(), count));
    let long = LONG
        .iter()
        .zip(tally.long)
        .map(|((_, name), count)| (format!("an accepted call of {name}"), count));
    let refused = REFUSALS
        .iter()
        .map(|&number| (format!("refusal {number}"), tally.refused[number]));
    let listed = LIST
        .iter()
        .map(|&(listed, name)| (format!("the row '{name}'"), tally.listed[listed as usize]));
    let of_ean13 = ean13::LIST.iter().map(|&(listed, name)| {
        let count = tally.ean13_listed[listed as usize];
        (format!("the row '{name}' of EAN-13"), count)
    });
    kinds
        .into_iter()
        .chain(long)
        .chain(refused)
        .chain(listed)
        .chain(of_ean13)
        .filter(|(_, count)| *count == 0)
        .map(|(what, _)| what)
        .collect()
}

/// Does one part. A difference is returned twice: as it was found, and made small.
pub fn compare(part: &Part, run: &Run) -> Result<Tally, Box<(Fault, Fault)>> {
    (part.work)(run).map_err(|met| {
        let small = shrink::shrink(&mut Worker::new(run.face, run.model), (*met).clone());
        Box::new((*met, small))
    })
}
