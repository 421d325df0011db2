//! What each job answers, that a refusal leaves the buffer unchanged, and the words of the
//! refusals.
use slatmonief::sym::code128::Code128;
use slatmonief::{error::Error, *};

/// The code points of a text.
fn points(text: &str) -> Vec<u32> {
    text.chars().map(u32::from).collect()
}

/// A job with every buffer length up to a little more than it needs.
fn at_every_room<T: Copy + PartialEq + std::fmt::Debug>(
    blank: T,
    out: &[T],
    number: usize,
    job: impl Fn(&mut [T]) -> Result<usize, Refusal>,
) {
    at_rooms(0..out.len() + 4, blank, out, number, job);
}

/// A job with no buffer, one that is an element too short, the shortest that will do and a longer
/// one.
fn at_the_edge<T: Copy + PartialEq + std::fmt::Debug>(
    blank: T,
    out: &[T],
    number: usize,
    job: impl Fn(&mut [T]) -> Result<usize, Refusal>,
) {
    let needed = out.len();
    at_rooms([0, needed - 1, needed, needed + 3], blank, out, number, job);
}

/// A job with buffers of these lengths: it refuses by 5 and leaves the buffer unchanged, or it
/// fills only the front of the buffer.
fn at_rooms<T: Copy + PartialEq + std::fmt::Debug>(
    rooms: impl IntoIterator<Item = usize>,
    blank: T,
    out: &[T],
    number: usize,
    job: impl Fn(&mut [T]) -> Result<usize, Refusal>,
) {
    for room in rooms {
        let mut buffer = vec![blank; room];
        match job(&mut buffer) {
            Ok(n) => {
                assert!(room >= out.len());
                assert_eq!(n, number);
                assert_eq!(buffer[..out.len()], *out);
                assert!(buffer[out.len()..].iter().all(|&x| x == blank));
            }
            Err(refusal) => {
                assert!(room < out.len());
                assert_eq!((refusal.number(), refusal.second()), (5, out.len()));
                assert!(buffer.iter().all(|&x| x == blank));
            }
        }
    }
}

/// The row with the cells at these places flipped.
fn flipped(row: &[u8], places: &[usize]) -> Vec<u8> {
    let mut row = row.to_vec();
    for &place in places {
        row[place] ^= 1;
    }
    row
}

/// What a job refuses by with a buffer of this length, which must be as it was lent.
fn refused_by<T: Copy + PartialEq>(
    blank: T,
    room: usize,
    job: impl Fn(&mut [T]) -> Result<usize, Refusal>,
) -> (u32, usize) {
    let mut buffer = vec![blank; room];
    let refusal = job(&mut buffer).unwrap_err();
    assert!(buffer.iter().all(|&x| x == blank));
    (refusal.number(), refusal.second())
}

/// What read refuses a row by.
fn refused(row: &[u8], room: usize) -> (u32, usize) {
    refused_by(200, room, |list| read(row, list))
}

/// A label of n symbols and its list: the first part, and then the others over and over.
fn label(n: usize, first: (&str, u8), others: &[(&str, u8)]) -> (String, Vec<u8>) {
    let parts = || [first].into_iter().chain(others.iter().copied().cycle());
    let text = parts().take(n).map(|(text, _)| text).collect();
    let symbols = parts().take(n).map(|(_, number)| number).collect();
    (text, symbols)
}

/// Labels of n symbols, with their lists: one in each set, and one that goes through all three.
fn labels(n: usize) -> [(String, Vec<u8>); 4] {
    [
        label(n, ("À", 103), &[("\u{1}", 65)]),
        label(n, ("Ɓ", 104), &[("A", 33), ("a", 65)]),
        label(n, ("Ć", 105), &[("37", 37), ("99", 99)]),
        label(
            n,
            ("Ɓ", 104),
            &[
                ("a", 65),
                ("Ć", 99),
                ("42", 42),
                ("À", 101),
                ("Ź", 102),
                ("Ɓ", 100),
            ],
        ),
    ]
}

/// The record of a row of n symbols, made bit by bit.
fn record_of(n: usize, row: &[u8]) -> Vec<u8> {
    let head = match n {
        0..=255 => vec![1, n as u8],
        _ => vec![2, (n >> 8) as u8, n as u8],
    };
    let byte = |cells: &[u8]| {
        let bits = cells.iter().enumerate();
        bits.map(|(i, cell)| cell << (7 - i)).sum()
    };
    head.into_iter().chain(row.chunks(8).map(byte)).collect()
}

#[test]
fn every_job_at_every_room() {
    for text in [
        "À",
        "Ć12",
        "ĆŹ12",
        "ÀĆ12",
        "ƁŽ",
        "Ɓ÷",
        "ƁAIMĆ1234",
        "À\u{0}\u{1f} _ŻŽżŹĆ00ŹÀ",
        "Ć97",
    ] {
        let row = encode_str(text).unwrap();
        let symbols = read_row(&row).unwrap();
        let n = symbols.len();
        assert_eq!(row.len(), 11 * (n + 1) + 13);
        at_every_room(9, &row, n, |out| encode(&points(text), out));
        at_every_room(9, &row, n, |out| draw(&symbols, out));
        at_every_room(200, &symbols, n, |out| read(&row, out));
        let spelled = points(&spell_symbols(&symbols).unwrap());
        assert_eq!(spelled, points(text));
        at_every_room(7, &spelled, spelled.len(), |out| spell(&symbols, out));
        let sent = scan_symbols(&symbols).unwrap();
        at_every_room(200, &sent, sent.len(), |out| scan(&symbols, out));
        let record = pack_row(&row).unwrap();
        at_every_room(9, &record, record.len(), |out| pack(&row, out));
        at_every_room(9, &row, row.len(), |out| unpack(&record, out));
    }
}

/// Lists with a Shift: scanned with every room, refused as any list, drawn and spelled as without
/// Shift.
#[test]
fn shift_shifts_in_scan() {
    let labels: [(&[u8], &[u8], &str); 8] = [
        (&[103, 98, 65], b"a", "ÀŽ\u{1}"),
        (&[104, 98, 65], b"\x01", "ƁŽa"),
        (&[103, 98, 98, 65], b"a", "ÀŽŽ\u{1}"),
        (&[103, 98, 99, 12], b"12", "ÀŽĆ12"),
        (&[105, 98], b"98", "Ć98"),
        (&[104, 98], b"", "ƁŽ"),
        (&[103, 98, 65, 65], b"a\x01", "ÀŽ\u{1}\u{1}"),
        (&[104, 98, 100, 65], b"a", "ƁŽża"),
    ];
    for (list, sent, text) in labels {
        assert_eq!(scan_symbols(list).unwrap(), sent, "{list:?}");
        at_every_room(200, sent, sent.len(), |out| scan(list, out));
        assert_eq!(spell_symbols(list).unwrap(), text);
        assert_eq!(encode_str(text).unwrap(), draw_symbols(list).unwrap());
        let mut bytes = [200; 4];
        let refusal = scan(&[list, &[103]].concat(), &mut bytes).unwrap_err();
        assert_eq!((refusal.number(), refusal.second()), (13, list.len()));
        assert_eq!(bytes, [200; 4]);
    }
    assert_eq!(encode_str("ÀŽa").unwrap_err().second(), 2);
}

/// A text that parses and has a ź is refused by 19 at the first one, whatever the room and however
/// many symbols; the buffer is as it was lent.
#[test]
fn fnc2_is_retired() {
    let long = format!("Ć{}Ɓ{}ź", "97".repeat(3), "A".repeat(4000));
    let labels: [(&str, u32, usize); 14] = [
        ("Ɓź", 19, 1),
        ("Àź", 19, 1),
        ("ƁAźBź", 19, 2),
        ("Ć97Ɓaź", 19, 5),
        ("Ć9Ź7ÀźĆ97", 19, 5),
        ("ÀŽź", 19, 2),
        (&long, 19, 4008),
        ("Ɓź€", 3, 2),
        ("ƁźĆ1", 3, 4),
        ("ÀźaƁź", 3, 2),
        ("Ćź", 3, 1),
        ("Ć9ź7", 3, 2),
        ("ź", 3, 0),
        ("źƁ", 3, 0),
    ];
    for (text, number, place) in labels {
        for room in [0, 1, 34, 35, 45, 46, 47, MOST_CELLS] {
            let mut row = vec![7; room];
            let refusal = encode(&points(text), &mut row).unwrap_err();
            assert_eq!(
                (refusal.number(), refusal.second()),
                (number, place),
                "{text}"
            );
            assert_eq!(row, vec![7; room], "{text}");
        }
        assert_eq!(Code128::new(text).unwrap_err(), Error::Character, "{text}");
    }
    let no_scalar = encode(&[0x181, 0x17A, 0xD800], &mut []).unwrap_err();
    assert_eq!((no_scalar.number(), no_scalar.second()), (1, 2));
}

/// 97 as a pair and as a check is encoded.
#[test]
fn the_number_97_without_fnc2() {
    let row = encode_str("ƁŻ").unwrap();
    assert_eq!(read_row(&row).unwrap(), [104, 96]);
    let fnc2 = draw_symbols(&[104, 97]).unwrap();
    assert_eq!(row[22..33], fnc2[11..22], "the check is 97");
    let pair = encode_str("Ć97").unwrap();
    assert_eq!(read_row(&pair).unwrap(), [105, 97]);
    assert_eq!(pair[11..22], fnc2[11..22]);
}

/// Archived rows with FNC2 are drawn, read, spelled and scanned; encode refuses the spelling.
#[test]
fn rows_with_fnc2() {
    let labels: [(&[u8], &str, &[u8], usize); 6] = [
        (&[103, 97], "Àź", b"", 1),
        (&[104, 97], "Ɓź", b"", 1),
        (&[104, 33, 97, 34, 97], "ƁAźBź", b"AB", 2),
        (&[105, 97, 101, 97, 65], "Ć97Àź\u{1}", b"97\x01", 4),
        (&[103, 97, 99, 97], "ÀźĆ97", b"97", 1),
        (&[104, 98, 97, 65], "ƁŽźa", b"a", 2),
    ];
    for (list, text, sent, place) in labels {
        let row = draw_symbols(list).unwrap();
        at_every_room(9, &row, list.len(), |out| draw(list, out));
        at_every_room(200, list, list.len(), |out| read(&row, out));
        let spelled = points(text);
        assert_eq!(spell_symbols(list).unwrap(), text);
        at_every_room(7, &spelled, spelled.len(), |out| spell(list, out));
        at_every_room(200, sent, sent.len(), |out| scan(list, out));
        let record = pack_row(&row).unwrap();
        assert_eq!(unpack_record(&record).unwrap(), row);
        let refusal = encode_str(text).unwrap_err();
        assert_eq!((refusal.number(), refusal.second()), (19, place), "{text}");
    }
}

#[test]
fn refusals_leave_the_buffer_and_speak() {
    let mut row = [9; 40];
    let mut list = [9; 40];
    let good = encode_str("ƁAIM").unwrap();
    let spoilt = |place: usize, cell: u8| {
        let mut row = good.clone();
        row[place] = cell;
        row
    };
    let flipped = |places: &[usize]| flipped(&good, places);
    let cases: Vec<(Result<usize, Refusal>, u32, usize, &str)> = vec![
        (
            encode(&[0x41, 0xD800], &mut row),
            1,
            1,
            "refusal 1: the value at place 1 is no Unicode scalar value",
        ),
        (
            encode(&[0x41], &mut row),
            2,
            0,
            "refusal 2: the text has fewer than two UTF-8 bytes",
        ),
        (
            encode(&points("ÀÀ"), &mut row),
            3,
            1,
            "refusal 3: `À` has no number in set A, at place 1",
        ),
        (
            encode(&points("Ɓź"), &mut row),
            19,
            1,
            "refusal 19: ź (FNC2) at place 1 is retired",
        ),
        (
            encode(&points(&format!("Ɓ{}", "A".repeat(4000))), &mut row),
            4,
            4001,
            "refusal 4: 4001 symbols are needed and 4000 is the limit",
        ),
        (
            encode(&points("Ć12"), &mut row),
            5,
            46,
            "refusal 5: the row's buffer is too short, 46 cells are needed",
        ),
        (
            draw(&[], &mut row),
            10,
            0,
            "refusal 10: no symbol list has 0 symbols",
        ),
        (
            draw(&[104, 104], &mut row),
            13,
            1,
            "refusal 13: the number at place 1 may not stand there",
        ),
        (
            read(&good[1..], &mut list),
            10,
            67,
            "refusal 10: no Code 128 row has 67 cells",
        ),
        (
            read(&spoilt(9, 2), &mut list),
            11,
            9,
            "refusal 11: the cell at place 9 is neither 0 nor 1",
        ),
        (
            read(&flipped(&[12, 14]), &mut list),
            12,
            1,
            "refusal 12: block 1 is none of the 106 patterns and has an even number of bar cells: \
             print again",
        ),
        (
            read(&flipped(&[12]), &mut list),
            16,
            1,
            "refusal 16: block 1 is none of the 106 patterns and has an odd number of bar cells, \
             as one worn cell can leave it: photograph again",
        ),
        (
            read(
                &good[11..]
                    .iter()
                    .chain(&good[..11])
                    .copied()
                    .collect::<Vec<_>>(),
                &mut list,
            ),
            13,
            0,
            "refusal 13: block 0 has a number that may not stand there",
        ),
        (
            read(&spoilt(67, 0), &mut list),
            15,
            67,
            "refusal 15: the cell at place 67 is not the stop's",
        ),
        (
            read(
                &[&good[..44], &good[11..22], &good[55..]].concat(),
                &mut list,
            ),
            14,
            45,
            "refusal 14: the check is wrong, 45 would be right",
        ),
        (
            unpack(&[1], &mut row),
            20,
            1,
            "refusal 20: a record of 1 bytes has no head",
        ),
        (
            unpack(&[3, 9], &mut row),
            21,
            3,
            "refusal 21: the record's version is 3, neither 1 nor 2",
        ),
        (
            unpack(&[2, 1], &mut row),
            22,
            0,
            "refusal 22: the record's count is missing, or none that its version has",
        ),
        (
            unpack(&[2, 1, 0], &mut row),
            22,
            358,
            "refusal 22: the record's length is not what its count needs, 358 bytes",
        ),
        (
            unpack(&[1, 1, 0, 0, 0, 0, 1], &mut row),
            23,
            6,
            "refusal 23: a spare bit is set in the last byte, at place 6",
        ),
    ];
    for (got, number, second, words) in cases {
        let refusal = got.unwrap_err();
        assert_eq!(
            (
                refusal.number(),
                refusal.second(),
                refusal.to_string().as_str()
            ),
            (number, second, words)
        );
        let _: &dyn std::error::Error = &refusal;
    }
    assert_eq!((row, list), ([9; 40], [9; 40]));
}

#[test]
fn one_worn_cell() {
    for text in ["À", "ƁAIMĆ1234"] {
        let row = encode_str(text).unwrap();
        let stop = row.len() - 13;
        for place in 0..row.len() {
            let expected = if place < stop {
                (16, place / 11)
            } else {
                (15, place)
            };
            for room in [0, MOST_SYMBOLS] {
                assert_eq!(refused(&flipped(&row, &[place]), room), expected);
            }
        }
    }
}

#[test]
fn two_worn_cells() {
    // Blocks 0, 1 and 2 are 11010010000 (104), 10100011000 (33) and 11000100010 (41).
    let row = encode_str("ƁAIMĆ1234").unwrap();
    assert_eq!(refused(&flipped(&row, &[12, 19]), MOST_SYMBOLS), (12, 1));
    assert_eq!(refused(&flipped(&row, &[2, 10]), 0), (12, 0));
    // A worn block and one that is none of the patterns: the left one is answered.
    assert_eq!(refused(&flipped(&row, &[12, 22, 23]), 7), (16, 1));
    assert_eq!(refused(&flipped(&row, &[12, 19, 22]), 7), (12, 1));
    // Two cells can also leave another pattern, 93 for 33: then the check is wrong.
    assert_eq!(refused(&flipped(&row, &[19, 20]), 7).0, 14);
}

#[test]
fn a_row_upside_down() {
    for text in ["À", "ƁAIMĆ1234", "Ć123456"] {
        let row: Vec<u8> = encode_str(text).unwrap().into_iter().rev().collect();
        assert_eq!(refused(&row, MOST_SYMBOLS), (12, 0));
    }
}

#[test]
fn the_limits() {
    let longest = format!("Ć{}", "37".repeat(3999));
    let row = encode_str(&longest).unwrap();
    assert_eq!(row.len(), MOST_CELLS);
    let symbols = read_row(&row).unwrap();
    assert_eq!(symbols.len(), MOST_SYMBOLS);
    assert_eq!(
        points(&spell_symbols(&symbols).unwrap()).len(),
        MOST_CODE_POINTS
    );
    assert_eq!(scan_symbols(&symbols).unwrap().len(), MOST_SCANNED);
    let record = pack_row(&row).unwrap();
    assert_eq!(record.len(), MOST_RECORD);
    assert_eq!(unpack_record(&record).unwrap(), row);
    assert_eq!(encode_str(&format!("{longest}00")).unwrap_err().number(), 4);
}

/// Every job on each side of where the record's version changes, and at the limit.
#[test]
fn long_labels() {
    for (n, length) in [(255, 356), (256, 358), (257, 360), (4000, 5506)] {
        for (text, symbols) in labels(n) {
            let row = encode_str(&text).unwrap();
            assert_eq!(row.len(), 11 * (n + 1) + 13);
            at_the_edge(9, &row, n, |out| encode(&points(&text), out));
            assert_eq!(Code128::new(&text).unwrap().encode(), row);
            assert_eq!(draw_symbols(&symbols).unwrap(), row);
            at_the_edge(9, &row, n, |out| draw(&symbols, out));
            assert_eq!(read_row(&row).unwrap(), symbols);
            at_the_edge(200, &symbols, n, |out| read(&row, out));
            assert_eq!(spell_symbols(&symbols).unwrap(), text);
            let spelled = points(&text);
            at_the_edge(7, &spelled, spelled.len(), |out| spell(&symbols, out));
            let sent: Vec<u8> = text.bytes().filter(u8::is_ascii).collect();
            assert_eq!(scan_symbols(&symbols).unwrap(), sent);
            at_the_edge(200, &sent, sent.len(), |out| scan(&symbols, out));
            let record = pack_row(&row).unwrap();
            assert_eq!(record, record_of(n, &row));
            assert_eq!(record.len(), length);
            at_the_edge(9, &record, length, |out| pack(&row, out));
            assert_eq!(unpack_record(&record).unwrap(), row);
            at_the_edge(9, &row, row.len(), |out| unpack(&record, out));
        }
    }
}

/// Many lengths up to the limit: from text to record and back, and the check.
#[test]
fn many_lengths() {
    for n in (1..=520).chain(3995..=4000) {
        for (text, symbols) in labels(n) {
            let row = encode_str(&text).unwrap();
            assert_eq!(read_row(&row).unwrap(), symbols, "{n}");
            assert_eq!(draw_symbols(&symbols).unwrap(), row, "{n}");
            assert_eq!(spell_symbols(&symbols).unwrap(), text, "{n}");
            let record = pack_row(&row).unwrap();
            assert_eq!(record, record_of(n, &row), "{n}");
            assert_eq!(unpack_record(&record).unwrap(), row, "{n}");
            let weighed = symbols.iter().enumerate();
            let sum: usize = weighed.map(|(i, &x)| i.max(1) * usize::from(x)).sum();
            let checked = draw_symbols(&[103, (sum % 103) as u8]).unwrap();
            assert_eq!(row[11 * n..11 * n + 11], checked[11..22], "{n}");
        }
    }
}

/// One symbol, or some cells, above the limit: refused whatever the room.
#[test]
fn too_long() {
    for (text, symbols) in labels(4001) {
        for room in [0, MOST_CELLS, MOST_CELLS + 11] {
            let answer = refused_by(9, room, |out| encode(&points(&text), out));
            assert_eq!(answer, (4, 4001));
            let answer = refused_by(9, room, |out| draw(&symbols, out));
            assert_eq!(answer, (10, 4001));
            let answer = refused_by(7, room, |out| spell(&symbols, out));
            assert_eq!(answer, (10, 4001));
            let answer = refused_by(200, room, |out| scan(&symbols, out));
            assert_eq!(answer, (10, 4001));
        }
        assert_eq!(encode_str(&text).unwrap_err().number(), 4);
        assert_eq!(Code128::new(&text).unwrap_err(), Error::Length);
    }
    for length in [MOST_CELLS - 1, MOST_CELLS + 1, MOST_CELLS + 11] {
        let row = vec![1; length];
        for room in [0, MOST_CELLS] {
            assert_eq!(refused(&row, room), (10, length));
            assert_eq!(refused_by(9, room, |out| pack(&row, out)), (10, length));
        }
    }
}

/// What unpack refuses a record by, with no room and with room for any row.
fn refused_record(record: &[u8]) -> (u32, usize) {
    let answer = refused_by(9, 0, |row| unpack(record, row));
    let roomy = refused_by(9, MOST_CELLS, |row| unpack(record, row));
    assert_eq!(roomy, answer);
    let refusal = unpack_record(record).unwrap_err();
    assert_eq!((refusal.number(), refusal.second()), answer);
    answer
}

/// A record of version 2 with this count, and then as many bytes of spaces.
fn version_2(count: u16, bytes: usize) -> Vec<u8> {
    let [high, low] = count.to_be_bytes();
    [&[2, high, low], &vec![0; bytes][..]].concat()
}

#[test]
fn refused_heads() {
    let heads: [(&[u8], u32, usize); 22] = [
        (&[], 20, 0),
        (&[1], 20, 1),
        (&[2], 20, 1),
        (&[0, 9], 21, 0),
        (&[3, 9], 21, 3),
        (&[255, 1, 0], 21, 255),
        (&[1, 0], 22, 0),
        (&[1, 0, 0], 22, 0),
        (&[2, 0], 22, 0),
        (&[2, 1], 22, 0),
        (&[2, 255], 22, 0),
        (&[2, 0, 0], 22, 0),
        (&[2, 0, 1], 22, 0),
        (&[2, 0, 255], 22, 0),
        (&[2, 15, 161], 22, 0),
        (&[2, 16, 0], 22, 0),
        (&[2, 255, 255], 22, 0),
        (&[1, 1], 22, 7),
        (&[1, 255], 22, 356),
        (&[2, 1, 0], 22, 358),
        (&[2, 1, 1], 22, 360),
        (&[2, 15, 160], 22, 5506),
    ];
    for (head, number, second) in heads {
        assert_eq!(refused_record(head), (number, second), "{head:?}");
    }
}

/// Counts of version 2 that are too small or too large, with the bytes that they would need; and a
/// byte less and a byte more than a good count needs.
#[test]
fn refused_lengths() {
    assert_eq!(refused_record(&version_2(255, 354)), (22, 0));
    assert_eq!(refused_record(&version_2(4001, 5505)), (22, 0));
    for (count, bytes) in [(256, 355), (257, 357), (4000, 5503)] {
        let row = unpack_record(&version_2(count, bytes)).unwrap();
        assert_eq!(row, vec![0; 11 * usize::from(count) + 24]);
        for wrong in [bytes - 1, bytes + 1] {
            let answer = refused_record(&version_2(count, wrong));
            assert_eq!(answer, (22, 3 + bytes));
        }
    }
}

/// 257 symbols have 2,851 cells, so that 5 bits of the last byte are spare; 3,999 leave 3.
#[test]
fn spare_bits() {
    for (count, bytes, spare) in [(257, 357, 5), (3999, 5502, 3)] {
        for bit in 0..8 {
            let mut record = version_2(count, bytes);
            record[2 + bytes] = 1 << bit;
            if bit < spare {
                assert_eq!(refused_record(&record), (23, 2 + bytes));
            } else {
                assert_eq!(unpack_record(&record).unwrap().len(), 8 * bytes - spare);
            }
        }
    }
}

#[test]
fn the_signatures_of_barcoders() {
    assert_eq!(
        Code128::new("ƁHE1234A*1").unwrap().encode(),
        encode_str("ƁHE1234A*1").unwrap()
    );
    assert_eq!(
        Code128::new(String::from("ÀHE@$AĆ123456"))
            .unwrap()
            .encode()
            .len(),
        11 * 11 + 13
    );
    assert_eq!(Code128::new("A").unwrap_err(), Error::Length);
    assert_eq!(Code128::new("ÀŽa").unwrap_err(), Error::Character);
    assert_eq!(Code128::new("Ɓź").unwrap_err(), Error::Character);
    assert_eq!(
        Code128::new(format!("Ɓ{}", "A".repeat(4000))).unwrap_err(),
        Error::Length
    );
    assert_eq!(
        Code128::new(format!("Ɓ{}ź", "A".repeat(4000))).unwrap_err(),
        Error::Character
    );
    assert_eq!(Error::Character.to_string(), "Barcode data is invalid");
    let barcode = Code128::new("Ć12").unwrap();
    assert_eq!(barcode, barcode.clone());
    assert_ne!(barcode, Code128::new("Ć13").unwrap());
    assert_eq!(barcode, Code128::new(String::from("Ć12")).unwrap());
}
