//! The labels and records of documents 01 and 02 in the crate, the model and the library; the list
//! of differences; the word of a case.
use compare::ask::{ask, patterns, place_by_halving, place_from_left, Crate, Tries, MOST_DRAWN};
use compare::check::{Fault, Subject, Worker};
use compare::face::{Face, True};
use compare::listed::LIST;
use compare::lists::{SHIFTED, WITH_97};
use compare::model::{cells, check, moved, retired, unshifted, Model, LIMIT, STOP};
use compare::report::{case_of, case_word};

/// The cells of the longest row, which are room enough for every job.
const MOST_CELLS: usize = 44_024;

/// The code points of a text.
fn points(text: &str) -> Vec<u32> {
    text.chars().map(u32::from).collect()
}

/// What the library answers to a text with room enough.
fn encoded(points: &[u32]) -> (u32, usize) {
    True.encode(points, &mut vec![0; MOST_CELLS])
}

/// The symbols and the checks in document 01 are those of the crate's row and of the model.
#[test]
fn labels_that_are_accepted() {
    let model = Model::new(patterns());
    let labels: [(&str, &[u8], u8); 8] = [
        ("À", &[103], 0),
        ("Ć12", &[105, 12], 14),
        ("Ć1Ź2", &[105, 102, 12], 25),
        ("ĆŹ12", &[105, 102, 12], 25),
        ("ÀĆ12", &[103, 99, 12], 20),
        ("ƁŽ", &[104, 98], 99),
        ("Ɓ÷", &[104, 95], 96),
        ("Ć99", &[105, 99], 101),
    ];
    for (text, list, right) in labels {
        assert_eq!(
            ask(&points(text)),
            Crate::Row(model.row_of_list(list)),
            "{text}"
        );
        assert_eq!(check(list), right, "{text}");
        assert_eq!(model.spell(list, 600).front, moved(&points(text)), "{text}");
        let mut worker = Worker::new(&True, &model);
        assert_eq!(
            worker
                .encode(&points(text), MOST_CELLS, 0xA7)
                .expect("no difference"),
            0,
            "{text}"
        );
        worker.text_law(&points(text)).expect("no difference");
        worker.list_law(list).expect("no difference");
    }
}

/// The places of refusal 3 in document 01 are found from the crate alone.
#[test]
fn places_of_refusal_3() {
    let long = format!("Ɓ{}€", "A".repeat(300));
    for (text, place) in [
        ("€", 0),
        ("Ć1", 2),
        ("Ć1À", 2),
        ("ÀÀ", 1),
        ("ÀŽa", 2),
        ("Ɓ\u{7F}", 1),
        (&long, 301),
        ("Ć1ŹŹ", 4),
        ("ĆĆ", 1),
    ] {
        let points = points(text);
        assert_eq!(ask(&points), Crate::Character, "{text}");
        assert_eq!(place_by_halving(&points), place, "{text}");
        assert_eq!(
            place_from_left(&points, Tries::Many).unwrap_or(points.len()),
            place,
            "{text}"
        );
    }
}

/// The labels of document 01 on each side of its limit, as request 4 has them, and others on each
/// side of 4,000 symbols: the library's answer, held to the crate with less room, enough and more.
#[test]
fn labels_on_each_side_of_the_limit() {
    let model = Model::new(patterns());
    let mut worker = Worker::new(&True, &model);
    for (text, answer) in [
        (format!("Ɓ{}", "A".repeat(254)), (0, 255)),
        (format!("Ɓ{}", "A".repeat(255)), (0, 256)),
        (format!("Ɓ{}", "A".repeat(3999)), (0, 4000)),
        (format!("Ɓ{}", "A".repeat(4000)), (4, 4001)),
        (format!("Ɓ{}", "A".repeat(4300)), (4, 4301)),
        (format!("Ɓ{}€", "A".repeat(300)), (3, 301)),
        (format!("Ɓ{}€", "A".repeat(4300)), (3, 4301)),
        (format!("Ć{}", "12".repeat(254)), (0, 255)),
        (format!("Ć{}", "12".repeat(255)), (0, 256)),
        (format!("Ć{}", "12".repeat(3999)), (0, 4000)),
        (format!("Ć{}", "12".repeat(4000)), (4, 4001)),
        (format!("Ć{}1", "12".repeat(4000)), (3, 8002)),
    ] {
        let points = points(&text);
        assert_eq!(encoded(&points), answer, "{} code points", points.len());
        let need = cells(answer.1.min(LIMIT));
        for room in [0, need - 1, need, need + 1] {
            worker.encode(&points, room, 0xA7).expect("no difference");
        }
        worker.text_law(&points).expect("no difference");
        worker
            .drop_in(&points, &ask(&points))
            .expect("no difference");
    }
    assert_eq!((cells(LIMIT), LIMIT), (MOST_CELLS, 4000));
}

/// What unpack answers to records of document 01 and of request 4, as the documents give it.
#[test]
fn records_that_are_refused() {
    let model = Model::new(patterns());
    let mut worker = Worker::new(&True, &model);
    let records: [(&[u8], (u32, usize)); 17] = [
        (&[], (20, 0)),
        (&[1], (20, 1)),
        (&[2], (20, 1)),
        (&[0, 1], (21, 0)),
        (&[3, 9], (21, 3)),
        (&[255, 0, 0], (21, 255)),
        (&[1, 0], (22, 0)),
        (&[1, 1], (22, 7)),
        (&[1, 255], (22, 356)),
        (&[2, 1], (22, 0)),
        (&[2, 0, 0], (22, 0)),
        (&[2, 0, 255], (22, 0)),
        (&[2, 1, 0], (22, 358)),
        (&[2, 15, 160], (22, 5506)),
        (&[2, 15, 161], (22, 0)),
        (&[2, 255, 255], (22, 0)),
        (&[1, 1, 0, 0, 0, 0, 1], (23, 6)),
    ];
    for (record, answer) in records {
        let said = model.unpack(record, MOST_CELLS);
        assert_eq!((said.number, said.second), answer, "{record:?}");
        assert_eq!(True.unpack(record, &mut [0; 35]), answer, "{record:?}");
        worker.unpack(record, 35, 0xA7).expect("no difference");
    }
}

/// The heads and lengths of records that the documents give, in the model and in the library.
#[test]
fn records_of_both_versions() {
    let model = Model::new(patterns());
    let mut worker = Worker::new(&True, &model);
    let records: [(usize, &[u8], usize); 5] = [
        (1, &[1, 1], 7),
        (255, &[1, 255], 356),
        (256, &[2, 1, 0], 358),
        (300, &[2, 1, 44], 3 + 416),
        (4000, &[2, 15, 160], 5506),
    ];
    for (n, head, bytes) in records {
        let row = vec![1; cells(n)];
        let mut record = vec![0; 5506];
        assert_eq!(True.pack(&row, &mut record), (0, bytes), "{n}");
        assert_eq!(record[..head.len()], *head);
        assert_eq!(record[..bytes], model.pack(&row, bytes).front);
        worker.row_law(&row).expect("no difference");
        worker.record_law(&record[..bytes]).expect("no difference");
    }
}

/// Of the calls with 255 and 256 symbols only the accepted ones with 256 are counted as long.
#[test]
fn calls_that_are_long() {
    let model = Model::new(patterns());
    let mut worker = Worker::new(&True, &model);
    for (n, counts) in [(255, [0; 4]), (256, [1; 4])] {
        let text = points(&format!("Ɓ{}", "A".repeat(n - 1)));
        let row = model.row_of_list(&[&[104][..], &vec![33; n - 1]].concat());
        let record = model.pack(&row, usize::MAX).front;
        for less in [0, 1] {
            let answers = [
                worker.encode(&text, row.len() - less, 0xA7),
                worker.read(&row, n - less, 0xA7),
                worker.pack(&row, record.len() - less, 0xA7),
                worker.unpack(&record, row.len() - less, 0xA7),
            ];
            let numbers = answers.map(|answer| answer.expect("no difference"));
            assert_eq!(numbers, [5 * less as u32; 4]);
        }
        assert_eq!(worker.tally.long, counts);
    }
}

/// The cell at a place of a row of n symbols that stands for any row of that length.
fn cell(n: usize, place: usize) -> u8 {
    ((place * place + 7 * n * place) / 13 + place / 3) as u8 % 2
}

/// A digest of bytes (FNV-1a).
fn digest(bytes: impl Iterator<Item = u8>) -> u64 {
    bytes.fold(0xCBF2_9CE4_8422_2325, |digest, byte| {
        (digest ^ u64::from(byte)).wrapping_mul(0x100_0000_01B3)
    })
}

/// The digest of the 255 records that pack of version 1.3.1, before request 4, wrote for such rows.
const BEFORE: u64 = 0xC4FB_5C4B_376F_23B4;

/// Up to 255 symbols the library writes the records of before request 4, byte for byte, and so does
/// the model; and the library takes them.
#[test]
fn records_as_before() {
    let model = Model::new(patterns());
    let (mut library, mut plain) = (Vec::new(), Vec::new());
    for n in 1..=255 {
        let row: Vec<u8> = (0..cells(n)).map(|place| cell(n, place)).collect();
        let (mut record, mut back) = ([0; 356], vec![0; row.len()]);
        let (number, bytes) = True.pack(&row, &mut record);
        assert_eq!(number, 0);
        assert_eq!(True.unpack(&record[..bytes], &mut back), (0, row.len()));
        assert_eq!(back, row);
        library.extend_from_slice(&record[..bytes]);
        plain.extend(model.pack(&row, 356).front);
    }
    assert_eq!(library, plain);
    assert_eq!(library.len(), 46_267);
    assert_eq!(digest(library.into_iter()), BEFORE);
}

/// The crate's patterns follow the rule in document 01.
#[test]
fn patterns_follow_their_rule() {
    let model = Model::new(patterns());
    for number in 0..106 {
        let pattern = model.pattern(number);
        let changes = pattern.windows(2).filter(|two| two[0] != two[1]).count();
        let longest = pattern.chunk_by(|a, b| a == b).map(<[u8]>::len).max();
        assert!(pattern[0] == 1 && pattern[10] == 0 && changes == 5 && longest <= Some(4));
        assert!(pattern.iter().sum::<u8>() % 2 == 0 && pattern[..] != STOP[..11]);
        assert_eq!(model.number(pattern), Some(number));
    }
}

/// A block that is no pattern is worn (16) if it has an odd number of bar cells, and unknown (12)
/// if it has an even number; the stop has its own refusal, 15.
#[test]
fn blocks_worn_and_unknown() {
    let model = Model::new(patterns());
    let row = model.row_of_list(&[104, 33, 41, 45, 99, 12, 34]);
    let cases: [(&[usize], (u32, usize)); 6] = [
        (&[19], (16, 1)),
        (&[12, 19], (12, 1)),
        (&[12, 19, 22], (12, 1)),
        (&[12, 22, 23], (16, 1)),
        (&[80], (16, 7)),
        (&[88], (15, 88)),
    ];
    for (places, expected) in cases {
        let mut row = row.clone();
        places.iter().for_each(|&place| row[place] ^= 1);
        let said = model.read(&row, LIMIT);
        assert_eq!((said.number, said.second), expected, "{places:?}");
    }
    for (cell, number) in [(0, 12), (1, 16)] {
        assert_eq!(model.read(&[cell; 35], 0).number, number);
    }
}

/// The bytes that request 1 gives for a Shift are the model's and the library's; document 01 had
/// others, in the same number.
#[test]
fn labels_with_a_shift() {
    let model = Model::new(patterns());
    let mut worker = Worker::new(&True, &model);
    for (list, bytes) in SHIFTED {
        assert_eq!(model.scan(list, 7998).front, bytes, "{list:?}");
        assert_eq!(unshifted(list).0.len(), bytes.len(), "{list:?}");
        worker.scan(list, 7998, 0xA7).expect("no difference");
        worker.shift_law(list).expect("no difference");
    }
    for (list, bytes, any) in [
        (&[103, 98, 65][..], &[1][..], true),
        (&[104, 98, 65], &[0x61], true),
        (&[105, 98], &[0x39, 0x38], false),
        (&[105, 98, 101, 65], &[0x39, 0x38, 1], false),
    ] {
        assert_eq!(unshifted(list), (bytes.to_vec(), any), "{list:?}");
    }
}

/// The texts with ź of request 12: what the crate writes for each, if it accepts it, and what the
/// library answers, with every room that is tried.
#[test]
fn labels_with_fnc2() {
    let model = Model::new(patterns());
    let labels: [(&str, &[u8], (u32, usize)); 15] = [
        ("Ɓź", &[104, 97], (19, 1)),
        ("Àź", &[103, 97], (19, 1)),
        ("ƁAźź", &[104, 33, 97, 97], (19, 2)),
        ("ÀƁź", &[103, 100, 97], (19, 2)),
        ("Ć97Ɓź", &[105, 97, 100, 97], (19, 4)),
        ("Ć9Ź7Àź", &[105, 102, 97, 101, 97], (19, 5)),
        ("ƁźĆ97", &[104, 97, 99, 97], (19, 1)),
        ("Ɓź€", &[], (3, 2)),
        ("Ɓ€ź", &[], (3, 1)),
        ("ƁźĆ9", &[], (3, 4)),
        ("ƁźĆź", &[], (3, 3)),
        ("Ćź", &[], (3, 1)),
        ("Ć9ź", &[], (3, 2)),
        ("ź", &[], (3, 0)),
        ("źƁ", &[], (3, 0)),
    ];
    let mut worker = Worker::new(&True, &model);
    for (text, list, answer) in labels {
        let points = points(text);
        let said = match list {
            [] => Crate::Character,
            _ => Crate::Row(model.row_of_list(list)),
        };
        assert_eq!(ask(&points), said, "{text}");
        for room in [0, 34, 35, 46, MOST_CELLS] {
            assert_eq!(True.encode(&points, &mut vec![0; room]), answer, "{text}");
            let number = worker.encode(&points, room, 0xA7).expect("no difference");
            assert_eq!(number, answer.0, "{text}");
        }
        worker.drop_in(&points, &said).expect("no difference");
        worker.text_law(&points).expect("no difference");
    }
    assert_eq!(check(&[104, 97]), 98);
}

/// ź among more than 4,000 symbols is 19, and a code point without a number after it is 3. 97 as a
/// pair and as a check is accepted.
#[test]
fn fnc2_and_the_limit() {
    let model = Model::new(patterns());
    let mut worker = Worker::new(&True, &model);
    for (text, answer) in [
        (format!("Ɓ{}ź", "A".repeat(254)), (19, 255)),
        (format!("Ɓ{}ź", "A".repeat(255)), (19, 256)),
        (format!("Ɓ{}ź", "A".repeat(3998)), (19, 3999)),
        (format!("Ɓ{}ź", "A".repeat(3999)), (19, 4000)),
        (format!("Ć{}Ɓź", "97".repeat(4300)), (19, 8602)),
        (format!("Ɓź{}€", "A".repeat(4300)), (3, 4302)),
        ("ƁŻ".into(), (0, 2)),
        ("Ć97".into(), (0, 2)),
        (format!("Ć{}", "97".repeat(254)), (0, 255)),
        (format!("Ć{}", "97".repeat(3999)), (0, 4000)),
    ] {
        let points = points(&text);
        assert_eq!(encoded(&points), answer, "{} code points", points.len());
        for room in [0, 46, MOST_CELLS] {
            worker.encode(&points, room, 0xA7).expect("no difference");
        }
        worker
            .drop_in(&points, &ask(&points))
            .expect("no difference");
    }
    assert_eq!(check(&[104, 96]), 97);
}

/// The texts and bytes that the documents give for lists with 97 are the model's and the library's;
/// the crate writes the row of each text, and the library refuses it by 19 if it has a ź.
#[test]
fn lists_with_97() {
    let model = Model::new(patterns());
    let mut worker = Worker::new(&True, &model);
    for (list, text, bytes) in WITH_97 {
        let points = points(text);
        assert_eq!(model.spell(list, 600).front, points, "{list:?}");
        assert_eq!(model.scan(list, 7998).front, bytes, "{list:?}");
        assert_eq!(ask(&points), Crate::Row(model.row_of_list(list)), "{text}");
        let answer = match retired(&points) {
            Some(place) => (19, place),
            None => (0, list.len()),
        };
        assert_eq!(encoded(&points), answer, "{text}");
        worker.list_law(list).expect("no difference");
    }
    assert_eq!(
        WITH_97.map(|(_, text, _)| retired(&points(text))),
        [
            Some(1),
            Some(1),
            None,
            Some(2),
            Some(4),
            Some(1),
            Some(2),
            Some(2)
        ]
    );
}

/// Every name of the list is a row of docs/DIFFERENCES.md, and the list leaves out no row.
#[test]
fn the_list_is_the_one_in_the_docs() {
    let path = concat!(env!("CARGO_MANIFEST_DIR"), "/../../docs/DIFFERENCES.md");
    let whole = std::fs::read_to_string(path).expect("docs/DIFFERENCES.md");
    let page = whole
        .split("\n## ")
        .next()
        .expect("the table before the first heading");
    for (place, (listed, name)) in LIST.into_iter().enumerate() {
        assert_eq!(listed as usize, place);
        assert!(
            page.lines()
                .any(|line| line.starts_with(&format!("| {name} |"))),
            "{name}"
        );
    }
    let rows = page
        .lines()
        .filter(|line| line.starts_with("| ") && !line.starts_with("| Difference "))
        .count();
    assert_eq!(
        rows,
        LIST.len(),
        "a row of docs/DIFFERENCES.md is not counted here"
    );
}

/// The symbols of a text that is too long for the crate to draw are counted as those of a shorter
/// text, whose row is drawn.
#[test]
fn symbols_of_long_texts() {
    for pairs in [2998, 2999, 3998, 5998, 5999, 9000] {
        let text = points(&format!("Ć{}Ɓ", "12".repeat(pairs)));
        let Crate::Row(row) = ask(&text) else {
            panic!("the crate takes {pairs} pairs");
        };
        assert_eq!(row.len(), 11 * (pairs + 3) + 13);
        assert_eq!(row.ends_with(&STOP), pairs + 2 <= MOST_DRAWN);
    }
}

/// The word of a case is read back as it was written.
#[test]
fn the_word_of_a_case() {
    for input in [vec![], vec![0x106, 0x31, 0xFFFF_FFFF]] {
        let fault = Fault {
            subject: Subject::Encode,
            input: input.clone(),
            room: 35,
            mark: 0xA7,
            expected: String::new(),
            got: String::new(),
        };
        assert_eq!(
            case_of(&case_word(&fault).expect("a word")),
            Some((Subject::Encode, input, 35, 0xA7))
        );
    }
    assert_eq!(case_of("encode:35:A7"), None);
}
