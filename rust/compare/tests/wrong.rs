//! A run must stop at a wrong answer and make its input small. Wrong answers are planted here, and
//! the runs must find them.
use compare::ask;
use compare::check::{Fault, Subject, Tally, NUMBERS};
use compare::exchanged;
use compare::face::{Face, Plant, True, Wrong};
use compare::model::{cells, Model, LIMIT};
use compare::read;
use compare::run::Run;
use compare::{report, unmet, PARTS};
use std::process::Command;

/// Does one part with few random inputs; returns the difference, made small, if there is one.
fn part_of(face: &dyn Face, name: &str, seed: u64, threads: usize) -> Result<String, Box<Fault>> {
    let model = Model::new(ask::patterns());
    let run = Run {
        face,
        model: &model,
        seed,
        random: 4000,
        threads,
    };
    let part = PARTS
        .iter()
        .find(|part| part.name == name)
        .expect("a part of this name");
    let tally = compare::compare(part, &run).map_err(|faults| Box::new(faults.1))?;
    Ok(format!("{tally:?}"))
}

/// The difference that a part finds in the library with this wrong answer, as it is met.
fn met(plant: Plant, name: &str) -> Fault {
    let (model, face) = (Model::new(ask::patterns()), Wrong::new(plant));
    let run = Run {
        face: &face,
        model: &model,
        seed: 1,
        random: 0,
        threads: 2,
    };
    let part = PARTS.iter().find(|part| part.name == name);
    let tally = (part.expect("a part of this name").work)(&run);
    *tally.expect_err("the planted answer is found")
}

/// The difference, made small, that a part finds in the library with this wrong answer.
fn found(plant: Plant, part: &str) -> (Subject, Vec<u32>, usize, String, String) {
    let fault = part_of(&Wrong::new(plant), part, 1, 2).expect_err("the planted answer is found");
    (
        fault.subject,
        fault.input,
        fault.room,
        fault.expected,
        fault.got,
    )
}

#[test]
fn a_wrong_place_of_refusal_3() {
    let (subject, input, _, expected, got) = found(Plant::Place, "encode-all");
    assert_eq!((subject, &input[..]), (Subject::Encode, &[0x106, 0x30][..]));
    assert!(expected.starts_with("3 2, ") && got.starts_with("3 3, "));
}

#[test]
fn a_wrong_place_in_random_texts() {
    let (subject, input, _, expected, got) = found(Plant::Place, "encode-random");
    assert!(subject == Subject::Encode && input.len() <= 3, "{input:X?}");
    assert!(expected.starts_with("3 2, ") && got.starts_with("3 3, "));
}

#[test]
fn a_wrong_weight_in_the_check() {
    let fault = part_of(&Wrong::new(Plant::Weight), "encode-random", 2, 2)
        .expect_err("the planted answer is found");
    assert_eq!(
        (fault.subject, fault.input, fault.room),
        (Subject::Encode, vec![0x106, 0x30, 0x31], 46)
    );
    assert!(
        fault.expected.starts_with("0 2, buffer [1, ")
            && fault.got.starts_with("0 2, buffer [1, ")
            && fault.expected != fault.got
    );
}

#[test]
fn a_buffer_touched_by_a_refusal() {
    let (subject, input, room, expected, got) = found(Plant::Touched, "encode-all");
    assert_eq!((subject, input, room), (Subject::Encode, vec![], 1));
    assert_eq!(
        (expected.as_str(), got.as_str()),
        (
            "2 0, the 1 elements of the buffer as lent",
            "2 0, buffer [166]"
        )
    );
}

#[test]
fn a_wrong_count() {
    let (subject, input, room, expected, got) = found(Plant::Count, "encode-random");
    assert!(
        subject == Subject::Encode && input.len() <= 17 && room == 11 * 10 + 13,
        "{input:X?}"
    );
    assert!(expected.starts_with("0 9, ") && got.starts_with("0 10, "));
}

#[test]
fn a_replaced_symbol_that_is_accepted() {
    let (subject, input, ..) = found(Plant::Replaced, "read-random");
    assert_eq!((subject, input.len()), (Subject::Read, 35));
    let (subject, input, ..) = found(Plant::Replaced, "read-replaced");
    assert_eq!((subject, input.len()), (Subject::Read, 35));
}

/// Wrong answers to rows in which two symbols changed places are found, each with the smallest
/// number of symbols that shows it.
#[test]
fn exchanged_symbols_answered_wrongly() {
    let cases = [
        (Plant::SameWeight, 105, "14 ", "5 105, "),
        (Plant::FarRefused, 105, "5 105, ", "14 "),
        (Plant::DrawnCheck, 1, "14 ", "14 "),
        (Plant::Replaced, 1, "14 ", "5 1, "),
    ];
    for (plant, n, right, wrong) in cases {
        let (subject, input, _, expected, got) = found(plant, "read-exchanged");
        assert_eq!((subject, input.len()), (Subject::Read, cells(n)));
        assert!(
            expected.starts_with(right) && got.starts_with(wrong) && expected != got,
            "{plant:?}: {expected} and {got}"
        );
    }
}

/// A replaced symbol that the part must meet and does not is named.
#[test]
fn replacements_that_did_not_occur() {
    let model = Model::new(ask::patterns());
    let run = Run {
        face: &True,
        model: &model,
        seed: 1,
        random: 0,
        threads: 2,
    };
    let rows = [(LIMIT, vec![102, 103]), (103, vec![103]), (104, vec![103])];
    let list = |n| [&[103][..], &vec![0; n - 1]].concat();
    let lists = rows.map(|(n, blocks)| (list(n), blocks));
    let fault = read::replaced_among(&run, &lists).expect_err("not all can be met");
    let unmet: Vec<&str> = fault.expected.split(", ").collect();
    assert_eq!(
        (fault.subject, unmet.len(), fault.got.as_str()),
        (Subject::Count, 1 + 37 * 5, "not met")
    );
    assert_eq!(
        unmet[..6],
        [
            "block 104 of 4000 refused",
            "block 205 of 4000 refused",
            "block 206 of 4000 accepted",
            "block 207 of 4000 refused",
            "block 206 of 206 refused",
            "block 206 of 207 accepted"
        ]
    );
    assert_eq!(unmet[185], "block 3914 of 3915 accepted");
}

/// An exchange that the part must meet and does not is named.
#[test]
fn exchanges_that_did_not_occur() {
    let model = Model::new(ask::patterns());
    let run = Run {
        face: &True,
        model: &model,
        seed: 1,
        random: 0,
        threads: 2,
    };
    let fault = exchanged::among(&run, &[206]).expect_err("not all can be met");
    assert_eq!(
        (fault.subject, fault.expected.as_str(), fault.got.as_str()),
        (
            Subject::Count,
            "neighbours at 205 and 206, neighbours at 206 and 207, neighbours at 3913 and 3914, \
             neighbours at 3914 and 3915, 206 apart and accepted, 3914 apart and accepted, \
             check of 103 accepted, check of 3914 accepted",
            "not met"
        )
    );
}

#[test]
fn a_held_digit_that_is_refused() {
    let (subject, input, ..) = found(Plant::Held, "encode-random");
    assert_eq!(
        (subject, input),
        (Subject::Encode, vec![0x106, 0x30, 0x179, 0x30])
    );
    assert_eq!(found(Plant::Held, "encode-moved").0, Subject::TextLaw);
}

#[test]
fn a_cell_written_after_the_row() {
    let (subject, input, room, ..) = found(Plant::After, "lists-random");
    assert_eq!((subject, input, room), (Subject::Draw, vec![103], 36));
}

#[test]
fn spare_bits_that_are_not_tested() {
    let (subject, input, ..) = found(Plant::Spare, "records-random");
    assert_eq!(
        (subject, input),
        (Subject::Unpack, vec![1, 1, 0, 0, 0, 0, 1])
    );
}

#[test]
fn pair_99_taken_for_a_switch() {
    let (subject, input, ..) = found(Plant::Pair99, "lists-all");
    assert_eq!((subject, input), (Subject::Scan, vec![105, 99]));
}

/// Each wrong reading of a Shift is found among all short lists and among random ones, and made as
/// small as it can be.
#[test]
fn a_shift_read_wrongly() {
    let cases: [(Plant, &[&[u32]], &str, &str); 5] = [
        (Plant::Pair98, &[&[105, 98]], "5 2, ", "0 0, "),
        (Plant::Unshifted, &[&[103, 98, 64]], "0 1, ", "0 1, "),
        (Plant::ShiftsTwo, &[&[103, 98, 0, 64]], "0 2, ", "0 2, "),
        (
            Plant::ShiftsSwitch,
            &[&[103, 98, 100, 64], &[104, 98, 101, 64]],
            "0 1, ",
            "0 1, ",
        ),
        (Plant::ShiftEnds, &[&[103, 98, 98, 64]], "0 1, ", "0 1, "),
    ];
    for (plant, smallest, right, wrong) in cases {
        for part in ["lists-shift", "lists-shift-random"] {
            let (subject, input, _, expected, got) = found(plant, part);
            assert_eq!(subject, Subject::Scan, "{part}");
            assert!(smallest.contains(&&input[..]), "{part}: {input:?}");
            assert!(
                expected.starts_with(right) && got.starts_with(wrong) && expected != got,
                "{expected} and {got}"
            );
        }
    }
}

/// Wrong answers of encode about ź, each with its smallest input and room, and both answers.
const ENCODED_WRONGLY: [(Plant, &[u32], usize, &str, &str); 9] = [
    (
        Plant::RetiredFirst,
        &[0xC0, 0x17A, 0x60],
        0,
        "3 2, ",
        "19 1, ",
    ),
    (Plant::RetiredInC, &[0x106, 0x17A], 0, "3 1, ", "19 1, "),
    (
        Plant::RetiredLast,
        &[0xC0, 0x17A, 0x17A],
        0,
        "19 1, ",
        "19 2, ",
    ),
    (
        Plant::RetiredSymbol,
        &[0x106, 0x30, 0x30, 0xC0, 0x17A],
        0,
        "19 4, ",
        "19 3, ",
    ),
    (Plant::TooShortFirst, &[0xC0, 0x17A], 0, "19 1, ", "5 46, "),
    (Plant::KeptInA, &[0xC0, 0x17A], 46, "19 1, ", "0 2, "),
    (Plant::KeptInB, &[0x181, 0x17A], 46, "19 1, ", "0 2, "),
    (Plant::Pair97, &[0x106, 0x39, 0x37], 0, "5 46, ", "19 1, "),
    (
        Plant::RetiredTouched,
        &[0xC0, 0x17A],
        1,
        "19 1, the 1 elements of the buffer as lent",
        "19 1, buffer [166]",
    ),
];

/// Each wrong answer of encode about ź is found among the texts with ź and made as small as it can
/// be; and so is refusal 19 for a pair of 97 or a check of 97.
#[test]
fn fnc2_encoded_wrongly() {
    for (plant, smallest, least, right, wrong) in ENCODED_WRONGLY {
        let (subject, input, room, expected, got) = found(plant, "encode-retired");
        assert_eq!(
            (subject, &input[..], room),
            (Subject::Encode, smallest, least)
        );
        assert!(
            expected.starts_with(right) && got.starts_with(wrong),
            "{expected} and {got}"
        );
    }
    let (subject, input, _, expected, got) = found(Plant::Check97, "encode-all");
    assert_eq!((subject, input), (Subject::Encode, vec![0x181, 0x17B]));
    assert!(expected.starts_with("5 46, ") && got.starts_with("19 2, "));
}

/// The wrong answers that random texts can show are found there too.
#[test]
fn fnc2_encoded_wrongly_in_random_texts() {
    for plant in [
        Plant::RetiredFirst,
        Plant::RetiredInC,
        Plant::RetiredLast,
        Plant::RetiredSymbol,
        Plant::TooShortFirst,
        Plant::KeptInA,
        Plant::KeptInB,
        Plant::Pair97,
        Plant::RetiredTouched,
    ] {
        let (subject, input, ..) = found(plant, "encode-random");
        assert!(
            subject == Subject::Encode && input.len() <= 5,
            "{plant:?}: {input:X?}"
        );
    }
}

#[test]
fn too_many_symbols_answered_before_fnc2() {
    let (subject, input, _, expected, got) = found(Plant::TooManyFirst, "encode-limit");
    assert_eq!((subject, input.len()), (Subject::Encode, 4001));
    assert_eq!(input.iter().filter(|&&point| point == 0x17A).count(), 1);
    assert!(
        expected.starts_with("19 ") && got.starts_with("4 4001, "),
        "{expected} and {got}"
    );
}

#[test]
fn a_wrong_error_of_the_drop_in_type_for_fnc2() {
    let (subject, input, _, expected, got) = found(Plant::RetiredDropIn, "encode-retired");
    assert_eq!((subject, input), (Subject::DropIn, vec![0xC0, 0x17A]));
    assert_eq!(
        (expected.as_str(), got.as_str()),
        ("Err(Character)", "Err(Length)")
    );
}

/// Wrong answers about lists with 97, each with its smallest list, the subject and both answers.
const ARCHIVED_WRONGLY: [(Plant, &[u32], Subject, &str, &str); 7] = [
    (Plant::Draw97, &[103, 97], Subject::Draw, "5 46, ", "13 1, "),
    (
        Plant::Spell97,
        &[103, 97],
        Subject::Spell,
        "5 2, ",
        "13 1, ",
    ),
    (
        Plant::Without97,
        &[103, 97],
        Subject::Spell,
        "5 2, ",
        "5 1, ",
    ),
    (Plant::Scan97, &[103, 97], Subject::Scan, "0 0, ", "13 1, "),
    (
        Plant::Read97,
        &[104, 97],
        Subject::ListLaw,
        "the list read from its row: Ok([104, 97])",
        "Err((13, 1))",
    ),
    (
        Plant::KeptInA,
        &[103, 97],
        Subject::ListLaw,
        "encode of the spelling: Err((19, 1))",
        "Ok([1, ",
    ),
    (
        Plant::KeptInB,
        &[104, 97],
        Subject::ListLaw,
        "encode of the spelling: Err((19, 1))",
        "Ok([1, ",
    ),
];

/// 97 in set A or B that is refused or left out is found, and made small. Encode that takes ź is
/// found by the spelling of such a list.
#[test]
fn archived_rows_that_are_refused() {
    for (plant, smallest, law, right, wrong) in ARCHIVED_WRONGLY {
        let (subject, input, _, expected, got) = found(plant, "lists-retired");
        assert_eq!((subject, &input[..]), (law, smallest), "{plant:?}");
        assert!(
            expected.starts_with(right) && got.starts_with(wrong),
            "{expected} and {got}"
        );
    }
    let (subject, ..) = found(Plant::Read97, "read-random");
    assert_eq!(subject, Subject::Read);
}

#[test]
fn code_points_counted_for_bytes() {
    let (subject, input, ..) = found(Plant::Points, "encode-all");
    assert_eq!((subject, input), (Subject::Encode, vec![0x80]));
    let (subject, input, _, expected, got) = found(Plant::LoneStart, "encode-all");
    assert_eq!((subject, input), (Subject::Encode, vec![0xC0]));
    assert!(
        expected.starts_with("0 1, ") && got.starts_with("2 0, "),
        "{expected} and {got}"
    );
}

#[test]
fn a_room_that_is_enough_and_refused() {
    let (subject, input, room, ..) = found(Plant::Room, "lists-random");
    assert_eq!((subject, input, room), (Subject::Spell, vec![103], 1));
}

#[test]
fn a_check_answered_before_the_stop() {
    let (subject, input, _, expected, got) = found(Plant::CheckFirst, "read-random");
    assert_eq!((subject, input.len()), (Subject::Read, 35));
    assert!(
        expected.starts_with("15 ") && got.starts_with("14 "),
        "{expected} and {got}"
    );
}

#[test]
fn a_worn_block_answered_as_unknown() {
    for part in ["read-cells", "read-worn", "read-random"] {
        let (subject, input, _, expected, got) = found(Plant::Worn, part);
        assert_eq!((subject, input.len()), (Subject::Read, 35));
        assert!(
            expected.starts_with("16 0, ") && got.starts_with("12 0, "),
            "{expected} and {got}"
        );
    }
}

#[test]
fn an_unknown_block_answered_as_worn() {
    let (subject, input, _, expected, got) = found(Plant::Unknown, "read-worn");
    assert_eq!((subject, input.len()), (Subject::Read, 35));
    assert!(
        expected.starts_with("12 0, ") && got.starts_with("16 0, "),
        "{expected} and {got}"
    );
}

#[test]
fn a_worn_block_with_the_place_of_a_cell() {
    let (subject, input, _, expected, got) = found(Plant::WornPlace, "read-cells");
    assert_eq!((subject, input.len()), (Subject::Read, 35));
    assert!(
        expected.starts_with("16 1, ") && got.starts_with("16 11, "),
        "{expected} and {got}"
    );
}

#[test]
fn a_worn_block_answered_after_a_later_one() {
    let (subject, input, _, expected, got) = found(Plant::WornLast, "read-worn");
    assert_eq!((subject, input.len()), (Subject::Read, 35));
    assert!(
        expected.starts_with("16 0, ") && got.starts_with("12 1, "),
        "{expected} and {got}"
    );
}

#[test]
fn a_length_answered_before_the_version() {
    let (subject, input, _, expected, got) = found(Plant::VersionLast, "records-random");
    assert_eq!((subject, input), (Subject::Unpack, vec![0, 0]));
    assert!(
        expected.starts_with("21 0, ") && got.starts_with("22 0, "),
        "{expected} and {got}"
    );
}

#[test]
fn a_room_asked_before_the_list() {
    let (subject, input, room, expected, got) = found(Plant::RoomFirst, "lists-random");
    assert_eq!((subject, input, room), (Subject::Draw, vec![0], 0));
    assert!(
        expected.starts_with("13 0, ") && got.starts_with("5 35, "),
        "{expected} and {got}"
    );
}

#[test]
fn a_character_answered_before_a_value_that_is_not_a_scalar() {
    let (subject, input, _, expected, got) = found(Plant::CharacterFirst, "encode-random");
    assert_eq!((subject, input), (Subject::Encode, vec![0x80, 0xD800]));
    assert!(
        expected.starts_with("1 1, ") && got.starts_with("3 0, "),
        "{expected} and {got}"
    );
}

#[test]
fn a_wrong_place_of_refusal_1() {
    let (subject, input, _, expected, got) = found(Plant::LastScalar, "encode-all");
    assert_eq!((subject, input), (Subject::Encode, vec![0xD800, 0xD800]));
    assert!(
        expected.starts_with("1 0, ") && got.starts_with("1 1, "),
        "{expected} and {got}"
    );
}

#[test]
fn a_wrong_number_of_symbols_needed() {
    let (subject, input, _, expected, got) = found(Plant::Needed, "encode-limit");
    assert_eq!((subject, &input[1..]), (Subject::Encode, &[0; 4001][..]));
    assert!(
        expected.starts_with("4 4002, ") && got.starts_with("4 4001, "),
        "{expected} and {got}"
    );
}

/// A limit that is one off, found in encode, draw, read and pack by the smallest input that shows
/// it: how many elements it has, and both answers.
const LIMIT_OFF: [(Plant, &str, Subject, usize, &str, &str); 7] = [
    (
        Plant::LimitLess,
        "encode-limit",
        Subject::Encode,
        LIMIT,
        "5 44024, ",
        "4 4000, ",
    ),
    (
        Plant::LimitLess,
        "lists-lengths",
        Subject::Draw,
        LIMIT,
        "5 44024, ",
        "10 4000, ",
    ),
    (
        Plant::LimitLess,
        "read-lengths",
        Subject::Read,
        44_024,
        "12 0, ",
        "10 44024, ",
    ),
    (
        Plant::LimitLess,
        "records-versions",
        Subject::Pack,
        44_024,
        "5 5506, ",
        "10 44024, ",
    ),
    (
        Plant::LimitMore,
        "encode-limit",
        Subject::Encode,
        LIMIT + 1,
        "4 4001, ",
        "5 44035, ",
    ),
    (
        Plant::LimitMore,
        "lists-lengths",
        Subject::Draw,
        LIMIT + 1,
        "10 4001, ",
        "5 44035, ",
    ),
    (
        Plant::LimitMore,
        "read-lengths",
        Subject::Read,
        44_035,
        "10 44035, ",
        "5 4001, ",
    ),
];

#[test]
fn a_limit_that_is_one_off() {
    for (plant, part, job, elements, right, wrong) in LIMIT_OFF {
        let (subject, input, _, expected, got) = found(plant, part);
        assert_eq!((subject, input.len()), (job, elements), "{plant:?} {part}");
        assert!(
            expected.starts_with(right) && got.starts_with(wrong),
            "{plant:?} {part}: {expected} and {got}"
        );
    }
}

/// A record of 4,001 symbols, of the right length for them, that unpack does not refuse by 22.
#[test]
fn a_record_above_the_limit() {
    let (subject, input, room, expected, got) = found(Plant::LimitMore, "records-versions");
    assert_eq!((subject, room), (Subject::Unpack, 0));
    assert_eq!(input, [&[2, 15, 161][..], &[0; 5505]].concat());
    assert_eq!(
        (expected.as_str(), got.as_str()),
        (
            "22 0, the 0 elements of the buffer as lent",
            "5 44035, the 0 elements of the buffer as lent"
        )
    );
}

#[test]
fn a_weight_of_one_byte() {
    let fault = met(Plant::ByteWeight, "encode-limit");
    assert_eq!(fault.subject, Subject::Encode);
    assert!(
        fault.expected.starts_with("0 4000, buffer [1, ")
            && fault.got.starts_with("0 4000, buffer [1, ")
            && fault.expected != fault.got
    );
}

/// Wrong records of pack, each with the cells of the smallest row that shows it, and both answers.
#[test]
fn records_packed_wrongly() {
    for (plant, n, right, wrong) in [
        (Plant::Early2, 255, "5 356, ", "5 357, "),
        (Plant::Late1, 256, "5 358, ", "5 357, "),
        (
            Plant::LittleEndian,
            256,
            "0 358, buffer [2, 1, 0, ",
            "0 358, buffer [2, 0, 1, ",
        ),
    ] {
        let (subject, input, _, expected, got) = found(plant, "records-versions");
        assert_eq!((subject, input.len()), (Subject::Pack, cells(n)));
        assert!(
            expected.starts_with(right) && got.starts_with(wrong),
            "{plant:?}: {expected} and {got}"
        );
    }
}

/// Wrong answers of unpack to version 2 records, each with its smallest record and both answers.
#[test]
fn records_of_version_2_read_wrongly() {
    let cases: [(Plant, &[u32], &str, &str); 3] = [
        (
            Plant::SmallCount,
            &[2, 0, 1, 0, 0, 0, 0, 0],
            "22 0, ",
            "5 35, ",
        ),
        (Plant::LargeCount, &[2, 16, 0], "22 0, ", "22 5638, "),
        (Plant::TwoBytes, &[2, 0], "22 0, ", "20 2, "),
    ];
    for (plant, smallest, right, wrong) in cases {
        let (subject, input, _, expected, got) = found(plant, "records-versions");
        assert_eq!((subject, &input[..]), (Subject::Unpack, smallest));
        assert!(
            expected.starts_with(right) && got.starts_with(wrong),
            "{plant:?}: {expected} and {got}"
        );
    }
}

#[test]
fn a_wrong_number_of_bytes_packed() {
    let (subject, input, room, expected, got) = found(Plant::Packed, "read-random");
    assert_eq!((subject, input.len(), room), (Subject::Pack, 35, 7));
    assert!(
        expected.starts_with("0 7, ") && got.starts_with("0 35, "),
        "{expected} and {got}"
    );
}

#[test]
fn a_wrong_error_of_the_drop_in_type() {
    let (subject, input, _, expected, got) = found(Plant::DropIn, "encode-random");
    assert_eq!((subject, input), (Subject::DropIn, vec![0x80]));
    assert_eq!(
        (expected.as_str(), got.as_str()),
        ("Err(Character)", "Err(Length)")
    );
}

/// A part with no input ends the run with status 1.
#[test]
fn a_part_with_nothing_in_it() {
    let words = ["--random", "19", "encode-random", "encode-moved"];
    let run = Command::new(env!("CARGO_BIN_EXE_compare"))
        .args(words)
        .output()
        .expect("the command runs");
    let printed = String::from_utf8(run.stdout).expect("text");
    assert!(
        run.status.code() == Some(1)
            && printed.ends_with("part encode-moved compared no input (--random 19)\n"),
        "{printed}"
    );
}

/// Each kind of answer that a run did not come across is named.
#[test]
fn kinds_that_did_not_occur() {
    let mut tally = Tally {
        accepted: 1,
        long: [1; 4],
        drop_in: 1,
        refused: [1; NUMBERS],
        listed: [1; 8],
        ean13_accepted: [1; 2],
        ean13_types: 1,
        ean13_listed: [1; 3],
        ..Tally::default()
    };
    assert_eq!(unmet(&tally), [""; 0]);
    (tally.refused[23], tally.listed[4]) = (0, 0);
    assert_eq!(
        unmet(&tally),
        ["refusal 23", "the row '÷ for DEL: number 95 in set B'"]
    );
    (tally.refused, tally.listed, tally.long) = ([1; NUMBERS], [1; 8], [0; 4]);
    assert_eq!(
        unmet(&tally),
        [
            "an accepted call of encode with more than 255 symbols",
            "an accepted call of read with more than 255 symbols",
            "an accepted call of pack to version 2",
            "an accepted call of unpack from version 2"
        ]
    );
    assert_eq!(unmet(&Tally::default()).len(), 2 + 3 + 4 + 21 + 8 + 3);
}

/// The report of a claim about a whole part says that its input was not made smaller.
#[test]
fn a_claim_over_a_whole_part() {
    let fault = compare::check::broken(Subject::Count, vec![0xC0], "one".into(), "none".into());
    let lines = report::fault_lines("read-all", &fault, &fault, "", 1, 20);
    assert!(
        lines.contains("not made smaller") && !lines.contains("--case"),
        "{lines}"
    );
}

#[test]
fn the_true_face_passes_and_the_seed_alone_decides() {
    for part in [
        "encode-random",
        "encode-retired",
        "read-random",
        "lists-random",
        "lists-shift-random",
        "lists-retired",
        "records-random",
        "ean13-random",
        "ean13-rows",
    ] {
        let once = part_of(&True, part, 7, 1).expect("no difference");
        assert_eq!(once, part_of(&True, part, 7, 2).expect("no difference"));
        assert_ne!(once, part_of(&True, part, 10, 2).expect("no difference"));
    }
    // This one counts each text once, so its counts do not show the seed.
    part_of(&True, "encode-moved", 7, 2).expect("no difference");
}
