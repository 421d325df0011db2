//! Wrong answers of EAN-13 are planted here, and the runs must find them and make their inputs
//! small.
use compare::ask;
use compare::check::{Fault, Subject, Tally, NUMBERS};
use compare::ean13::model;
use compare::ean13::wrong::{Plant, Wrong, PLANTS};
use compare::face::{Face, True};
use compare::model::Model;
use compare::run::Run;
use compare::{unmet, Kind, PARTS};

/// Does some work with few random inputs.
fn with_run<T>(face: &dyn Face, work: impl FnOnce(&Run) -> T) -> T {
    let model = Model::new(ask::patterns());
    work(&Run {
        face,
        model: &model,
        seed: 1,
        random: 4000,
        threads: 2,
    })
}

/// The difference, made small, that a part finds in the library with this wrong answer.
fn found(plant: Plant, name: &str) -> Fault {
    let part = PARTS
        .iter()
        .find(|part| part.name == name)
        .expect("a part of this name");
    let tally = with_run(&Wrong(plant), |run| compare::compare(part, run));
    tally.expect_err("the planted answer is found").1
}

/// The elements in order: which of the digits are left over depends on the seed.
fn sorted(input: impl Iterator<Item = u32>) -> Vec<u32> {
    let mut input: Vec<u32> = input.collect();
    input.sort_unstable();
    input
}

/// Asserts that the answers of a difference begin so.
fn begin(fault: &Fault, right: &str, wrong: &str) {
    let (expected, got) = (&fault.expected, &fault.got);
    assert!(
        expected.starts_with(right) && got.starts_with(wrong) && expected != got,
        "{expected} and {got}"
    );
}

/// Asserts that the smallest difference that a part finds has this room and the elements of this
/// input, in any order, and answers that begin so.
fn is_found(plant: Plant, part: &str, input: &[u8], room: usize, right: &str, wrong: &str) {
    let fault = found(plant, part);
    let elements = sorted(fault.input.iter().copied());
    let wanted = sorted(input.iter().map(|&byte| u32::from(byte)));
    assert_eq!((elements, fault.room), (wanted, room), "{plant:?} {part}");
    begin(&fault, right, wrong);
}

/// A wrong answer of write: the part that finds it, the smallest text and room, and both answers.
type Written = (
    Plant,
    &'static str,
    &'static [u8],
    usize,
    &'static str,
    &'static str,
);

/// Wrong answers of write to texts that are refused.
const REFUSED: [Written; 10] = [
    (
        Plant::CharacterFirst,
        "ean13-texts",
        &[0],
        0,
        "30 1, ",
        "31 0, ",
    ),
    (
        Plant::LastPlace,
        "ean13-texts",
        &[0; 12],
        0,
        "31 0, ",
        "31 11, ",
    ),
    (
        Plant::Characters,
        "ean13-texts",
        b"\xC2\x80",
        0,
        "30 2, ",
        "30 1, ",
    ),
    (
        Plant::Colon,
        "ean13-texts",
        b":\0\0\0\0\0\0\0\0\0\0\0",
        0,
        "31 0, ",
        "31 1, ",
    ),
    (
        Plant::GivenCheck,
        "ean13-checks",
        b"0000000000010",
        0,
        "32 ",
        "32 ",
    ),
    (
        Plant::GivenCheck,
        "ean13-random",
        b"0000000000010",
        0,
        "32 ",
        "32 ",
    ),
    (
        Plant::AnyCheck,
        "ean13-checks",
        b"0000000000010",
        0,
        "32 ",
        "5 95, ",
    ),
    (
        Plant::RoomFirst,
        "ean13-rooms",
        b"0000000000010",
        0,
        "32 ",
        "5 95, ",
    ),
    (
        Plant::Touched,
        "ean13-random",
        b"",
        1,
        "30 0, the 1 elements of the buffer as lent",
        "30 0, buffer [166]",
    ),
    (
        Plant::Room,
        "ean13-rooms",
        b"000000000000",
        95,
        "0 95, ",
        "5 96, ",
    ),
];

/// Wrong rows.
const DRAWN: [Written; 5] = [
    (
        Plant::Weights,
        "ean13-checks",
        b"000000000001",
        95,
        "0 95, ",
        "0 95, ",
    ),
    (
        Plant::Leading,
        "ean13-random",
        b"100000000000",
        95,
        "0 95, ",
        "0 95, ",
    ),
    (
        Plant::Leading,
        "ean13-checks",
        b"100000000000",
        95,
        "0 95, ",
        "0 95, ",
    ),
    (
        Plant::CForB,
        "ean13-random",
        b"100000000000",
        95,
        "0 95, ",
        "0 95, ",
    ),
    (
        Plant::After,
        "ean13-random",
        b"000000000000",
        96,
        "0 95, ",
        "0 95, ",
    ),
];

#[test]
fn texts_answered_wrongly() {
    for (plant, part, input, room, right, wrong) in REFUSED {
        is_found(plant, part, input, room, right, wrong);
    }
}

#[test]
fn rows_written_wrongly() {
    for (plant, part, input, room, right, wrong) in DRAWN {
        is_found(plant, part, input, room, right, wrong);
    }
}

/// A length that is taken for a number of 16 bits.
#[test]
fn a_length_of_sixteen_bits() {
    let fault = found(Plant::ShortLength, "ean13-texts");
    assert_eq!(
        (fault.subject, fault.input.len()),
        (Subject::Ean13Write, 65_536)
    );
    begin(&fault, "30 65536, ", "30 0, ");
}

/// A check that is not read, and a digit that is redrawn in the other set: each is found among the
/// redrawn digits and among random rows.
#[test]
fn redrawn_digits_that_are_accepted() {
    for part in ["ean13-redrawn", "ean13-words", "ean13-rows"] {
        let fault = found(Plant::CheckUnread, part);
        let cells: Vec<u8> = fault.input.iter().map(|&cell| cell as u8).collect();
        let digits = model::unchecked(&cells).expect("thirteen digits");
        assert_eq!(digits[1..12], [0; 11], "{part}");
        begin(&fault, "33 0, ", "5 13, ");
        assert_ne!(digits[12], model::check(&digits[..12]));
    }
    for part in ["ean13-redrawn", "ean13-words", "ean13-rows"] {
        let fault = found(Plant::Redrawn, part);
        assert_eq!((fault.subject, fault.input.len()), (Subject::Ean13Read, 95));
        begin(&fault, "33 0, ", "5 13, ");
    }
}

/// Rows that are no written rows and are read.
#[test]
fn other_rows_that_are_accepted() {
    for (plant, part, cells) in [
        (Plant::Guard, "ean13-cells", 95),
        (Plant::Cells, "ean13-cells", 95),
        (Plant::Longer, "ean13-lengths", 96),
        (Plant::UpsideDown, "ean13-rows", 95),
    ] {
        let fault = found(plant, part);
        assert_eq!(
            (fault.subject, fault.input.len()),
            (Subject::Ean13Read, cells)
        );
        begin(&fault, "33 0, ", "5 13, ");
    }
}

/// Digits that are read wrongly from a written row.
#[test]
fn digits_read_wrongly() {
    for (plant, room, right, wrong) in [
        (Plant::Values, 13, "0 13, buffer [", "0 13, buffer ["),
        (Plant::Twelve, 0, "5 13, ", "5 12, "),
        (
            Plant::ReadLeading,
            13,
            "0 13, buffer [49, ",
            "0 13, buffer [48, ",
        ),
        (Plant::ReadAfter, 14, "0 13, buffer [", "0 13, buffer ["),
    ] {
        let fault = found(plant, "ean13-rows");
        assert_eq!((fault.subject, fault.room), (Subject::Ean13Read, room));
        begin(&fault, right, wrong);
        let cells: Vec<u8> = fault.input.iter().map(|&cell| cell as u8).collect();
        let digits = model::digits(&cells).expect("a written row");
        assert_eq!(digits[1..12], [0; 11], "{plant:?}");
    }
}

/// Wrong answers to rows that are refused.
#[test]
fn rows_answered_wrongly() {
    is_found(
        Plant::ReadTouched,
        "ean13-rows",
        &[],
        1,
        "33 0, the 1 elements of the buffer as lent",
        "33 0, buffer [166]",
    );
    is_found(
        Plant::ReadRoomFirst,
        "ean13-rooms",
        &[],
        0,
        "33 0, ",
        "5 13, ",
    );
    is_found(Plant::Second, "ean13-lengths", &[0], 0, "33 0, ", "33 1, ");
}

/// The type with the crate's signatures: a wrong error, and a wrong debug output.
#[test]
fn the_type_answers_wrongly() {
    for (plant, input, right, wrong) in [
        (
            Plant::TypeError,
            &b"0000000000010"[..],
            "Err(\"Checksum\")",
            "Err(\"Character\")",
        ),
        (
            Plant::TypeShown,
            b"000000000000",
            "Ok(([1, 0, 1, ",
            "Ok(([1, 0, 1, ",
        ),
    ] {
        let fault = found(plant, "ean13-checks");
        assert_eq!(fault.subject, Subject::Ean13Type);
        is_found(plant, "ean13-checks", input, 0, right, wrong);
    }
}

/// A law is broken by a digit that is read wrongly.
#[test]
fn a_law_that_does_not_hold() {
    let fault = found(Plant::ReadLeading, "ean13-checks");
    assert_eq!(fault.subject, Subject::Ean13Law);
    assert_eq!(fault.input, b"100000000000".map(u32::from));
}

/// Every plant is found by some part, and nothing in the library itself.
#[test]
fn every_plant_is_found() {
    let parts = || PARTS.iter().filter(|part| part.kind == Kind::Ean13);
    for (name, plant) in PLANTS {
        let differs = |run: &Run| parts().any(|part| (part.work)(run).is_err());
        assert!(with_run(&Wrong(plant), differs), "{name}");
    }
    for part in parts() {
        let tally = with_run(&True, part.work).expect("no difference");
        assert!(tally.inputs > 0, "{}", part.name);
    }
}

/// Each kind of answer of EAN-13 that a run did not come across is named.
#[test]
fn kinds_that_did_not_occur() {
    let mut tally = Tally {
        accepted: 1,
        refused: [1; NUMBERS],
        long: [1; 4],
        drop_in: 1,
        listed: [1; 8],
        ..Tally::default()
    };
    tally.refused[32] = 0;
    assert_eq!(
        unmet(&tally),
        [
            "an accepted call of EAN-13's write",
            "an accepted call of EAN-13's read",
            "EAN-13's type with the crate's signatures",
            "refusal 32",
            "the row 'A text that is no UTF-8' of EAN-13",
            "the row 'Refusal 5, output too short' of EAN-13",
            "the row 'Twelve digits of UPC-A, its check among them' of EAN-13"
        ]
    );
}
