//! The plain jobs and the library's give the same answers, second numbers and buffers: on random
//! and on damaged inputs, and with short and long buffers.
use barcoders::sym::ean13::EAN13;
use bench::filter;
use bench::inputs::{articles, label, list, Kind, Label, Numbers};
use bench::plain::{self, Answer};
use bench::plain_ean13;
use slatmonief::{ean13, Refusal};
use std::fmt::Debug;

/// A job of the library, from a slice of `I` to a slice of `O`.
type Job<I, O> = fn(&[I], &mut [O]) -> Result<usize, Refusal>;

/// The same job in plain Rust.
type Plain<I, O> = fn(&[I], &mut [O]) -> Answer;

/// The kinds of label.
const KINDS: [Kind; 5] = [Kind::A, Kind::B, Kind::C, Kind::Mixed, Kind::Shift];

/// The two numbers of an answer of the library.
fn numbers(result: Result<usize, Refusal>) -> Answer {
    result.map_or_else(|refusal| (refusal.number(), refusal.second()), |n| (0, n))
}

/// Compares a plain job with the library's, with buffer lengths close to the one that is needed;
/// returns the answer with a long buffer.
fn same<I, O: Copy + Default + PartialEq + Debug>(
    input: &[I],
    blank: O,
    job: Job<I, O>,
    plain: Plain<I, O>,
) -> Answer {
    let needed = numbers(job(input, &mut []));
    let needed = if needed.0 == 5 { needed.1 } else { 0 };
    let long = needed + 3000;
    let ample = numbers(job(input, &mut vec![O::default(); long]));
    for room in [0, 1, needed.saturating_sub(1), needed, needed + 3, long] {
        let (mut ours, mut theirs) = (vec![blank; room], vec![blank; room]);
        assert_eq!(numbers(job(input, &mut ours)), plain(input, &mut theirs));
        assert_eq!(ours, theirs);
    }
    ample
}

/// Compares every job on one label.
fn same_label(l: &Label) {
    let n = l.symbols.len();
    assert_eq!(
        same(&l.points, 9, slatmonief::encode, plain::encode),
        (0, n)
    );
    assert_eq!(same(&l.symbols, 9, slatmonief::draw, plain::draw), (0, n));
    assert_eq!(same(&l.row, 9, slatmonief::read, plain::read), (0, n));
    assert_eq!(same(&l.row, 9, slatmonief::read, plain::table_read), (0, n));
    assert_eq!(
        same(&l.symbols, 9, slatmonief::spell, plain::spell),
        (0, l.points.len())
    );
    assert_eq!(same(&l.symbols, 9, slatmonief::scan, plain::scan).0, 0);
    assert_eq!(
        same(&l.row, 9, slatmonief::pack, plain::pack),
        (0, l.record.len())
    );
    assert_eq!(
        same(&l.record, 9, slatmonief::unpack, plain::unpack),
        (0, l.row.len())
    );
    assert_eq!(
        barcoders::sym::code128::Code128::new(&l.text)
            .unwrap()
            .encode(),
        l.row
    );
}

/// A copy of a slice with one element replaced, left out or put in, or cut short, or made much
/// longer.
fn damaged<T: Copy>(random: &mut Numbers, good: &[T], other: impl Fn(&mut Numbers) -> T) -> Vec<T> {
    let mut bad = good.to_vec();
    let at = random.below(bad.len());
    match random.below(6) {
        0 | 1 => bad[at] = other(random),
        2 => drop(bad.remove(at)),
        3 => bad.insert(at, other(random)),
        4 => bad.truncate(at),
        _ => bad.extend((0..random.below(300)).map(|_| good[at])),
    }
    bad
}

/// A code point of any kind: a letter of the sets, another letter, or a value that is not a scalar
/// value.
fn point(random: &mut Numbers) -> u32 {
    const ODD: [u32; 18] = [
        0xC0,
        0x181,
        0x106,
        0x179,
        0x17A,
        0x17B,
        0x17C,
        0x17D,
        0xF7,
        0x7F,
        0x80,
        0xD7FF,
        0xD800,
        0xDFFF,
        0xE000,
        0x10FFFF,
        0x110000,
        u32::MAX,
    ];
    match random.below(3) {
        0 => ODD[random.below(ODD.len())],
        _ => random.below(0x90) as u32,
    }
}

/// A row with one block replaced by any pattern, so that a number is not allowed at its place or
/// the check is wrong.
fn shuffled(random: &mut Numbers, row: &[u8]) -> Vec<u8> {
    let mut row = row.to_vec();
    let to = random.below((row.len() - 13) / 11);
    row[11 * to..][..11].copy_from_slice(&bench::patterns::CHARS[11 * random.below(106)..][..11]);
    row
}

#[test]
fn on_labels() {
    let mut random = Numbers::new(1);
    for kind in KINDS {
        for n in [
            1, 2, 3, 13, 14, 50, 64, 65, 128, 129, 254, 255, 256, 257, 512, 513, 1000, 3999, 4000,
        ] {
            same_label(&label(list(&mut random, kind, n)));
        }
    }
}

/// One symbol more than the limit, and the row of as many.
#[test]
fn above_the_limit() {
    let mut random = Numbers::new(4);
    for kind in KINDS {
        let l = label(list(&mut random, kind, 4000));
        let symbols = [&l.symbols[..], &[0]].concat();
        let row = [&l.row[..], &[0; 11]].concat();
        assert_eq!(same(&symbols, 9, slatmonief::draw, plain::draw), (10, 4001));
        assert_eq!(
            same(&symbols, 9, slatmonief::spell, plain::spell),
            (10, 4001)
        );
        assert_eq!(same(&symbols, 9, slatmonief::scan, plain::scan), (10, 4001));
        assert_eq!(same(&row, 9, slatmonief::read, plain::read), (10, 44_035));
        assert_eq!(same(&row, 9, slatmonief::pack, plain::pack), (10, 44_035));
    }
    for (start, rest) in [("À", "A"), ("Ɓ", "a"), ("Ć", "12")] {
        for n in [4001, 4002, 9000] {
            let text = format!("{start}{}", rest.repeat(n - 1));
            let points: Vec<u32> = text.chars().map(u32::from).collect();
            assert_eq!(same(&points, 9, slatmonief::encode, plain::encode), (4, n));
        }
    }
}

/// Scan of all lists of a START and up to three numbers that have to do with Shift.
#[test]
fn on_lists_with_a_shift() {
    const NUMBERS: [u8; 10] = [0, 33, 64, 95, 96, 98, 99, 100, 101, 102];
    for at in 0..3000 {
        let number = |place: usize| NUMBERS[at / 3 / place % 10];
        let list = [103 + (at % 3) as u8, number(1), number(10), number(100)];
        for length in 1..=4 {
            same(&list[..length], 200, slatmonief::scan, plain::scan);
        }
    }
    let mut bytes = [0; 3];
    assert_eq!(plain::scan(&[103, 98, 98, 65, 65], &mut bytes), (0, 2));
    assert_eq!(bytes, [0x61, 0x01, 0]);
}

/// Lists of a START and up to three numbers that have to do with 97: drawn, spelled and scanned;
/// their rows read; their texts encoded, and refused by 19 where they have a ź.
#[test]
fn on_lists_with_97() {
    const NUMBERS: [u8; 7] = [33, 65, 97, 98, 99, 100, 101];
    let mut refused = 0;
    for at in 0..3 * 7 * 7 * 7 {
        let number = |place: usize| NUMBERS[at / 3 / place % 7];
        let list = [103 + (at % 3) as u8, number(1), number(7), number(49)];
        let l = label(list.to_vec());
        same(&l.symbols, 9, slatmonief::draw, plain::draw);
        same(&l.row, 9, slatmonief::read, plain::read);
        same(&l.symbols, 9, slatmonief::spell, plain::spell);
        same(&l.symbols, 9, slatmonief::scan, plain::scan);
        let first = l.text.chars().position(|c| c == 'ź');
        let answer = first.map_or((0, 4), |place| (19, place));
        assert_eq!(
            same(&l.points, 9, slatmonief::encode, plain::encode),
            answer
        );
        refused += answer.0 / 19;
    }
    assert!(refused > 100);
    let long: Vec<u32> = format!("Ć{}Ɓź", "97".repeat(300))
        .chars()
        .map(u32::from)
        .collect();
    assert_eq!(same(&long, 9, slatmonief::encode, plain::encode), (19, 602));
    let stops = [&long[..], &[0x20AC]].concat();
    assert_eq!(same(&stops, 9, slatmonief::encode, plain::encode), (3, 603));
}

/// The number of symbols of a label to damage: of some rounds close to the limit, of some close to
/// the end of version 1, else small.
fn size(random: &mut Numbers, round: usize) -> usize {
    match round % 40 {
        0 => 3801 + random.below(200),
        8 | 16 | 24 | 32 => 1 + random.below(600),
        _ => 1 + random.below(20),
    }
}

#[test]
fn on_damaged_texts_and_lists() {
    let mut random = Numbers::new(2);
    let mut seen = [0; 24];
    for round in 0..800 {
        let n = size(&mut random, round);
        let l = label(list(&mut random, KINDS[round % KINDS.len()], n));
        let text = damaged(&mut random, &l.points, point);
        let symbols = damaged(&mut random, &l.symbols, |random| random.byte(120));
        seen[same(&text, 9, slatmonief::encode, plain::encode).0 as usize] += 1;
        seen[same(&symbols, 9, slatmonief::draw, plain::draw).0 as usize] += 1;
        same(&symbols, 9, slatmonief::spell, plain::spell);
        same(&symbols, 9, slatmonief::scan, plain::scan);
    }
    same(&[], 9, slatmonief::encode, plain::encode);
    same(&[0x41], 9, slatmonief::encode, plain::encode);
    assert!(
        [0, 1, 2, 3, 4, 10, 13, 19]
            .iter()
            .all(|&number| seen[number] > 0),
        "{seen:?}"
    );
}

#[test]
fn on_damaged_rows_and_records() {
    let mut random = Numbers::new(3);
    let mut seen = [0; 24];
    for round in 0..600 {
        let n = size(&mut random, round);
        let l = label(list(&mut random, KINDS[round % KINDS.len()], n));
        for row in [
            damaged(&mut random, &l.row, |random| random.byte(3)),
            shuffled(&mut random, &l.row),
        ] {
            seen[same(&row, 9, slatmonief::read, plain::read).0 as usize] += 1;
            same(&row, 9, slatmonief::read, plain::table_read);
            same(&row, 9, slatmonief::pack, plain::pack);
        }
        let mut record = damaged(&mut random, &l.record, |random| random.byte(255));
        seen[same(&record, 9, slatmonief::unpack, plain::unpack).0 as usize] += 1;
        record = l.record.clone();
        *record.last_mut().unwrap() |= 1 << random.below(8);
        seen[same(&record, 9, slatmonief::unpack, plain::unpack).0 as usize] += 1;
    }
    let l = label(list(&mut random, Kind::B, 4));
    for at in 0..l.row.len() {
        let mut row = l.row.clone();
        // One cell flipped, and then its neighbour too.
        for place in [at, (at + 1) % l.row.len()] {
            row[place] ^= 1;
            seen[same(&row, 9, slatmonief::read, plain::read).0 as usize] += 1;
            same(&row, 9, slatmonief::read, plain::table_read);
        }
    }
    assert!(
        [0, 10, 11, 12, 13, 14, 15, 16, 20, 21, 22, 23]
            .iter()
            .all(|&number| seen[number] > 0),
        "{seen:?}"
    );
}

/// Records of every version byte up to 4 and of counts around the limits, each of no more than its
/// head, of the length that it needs, and a byte shorter and longer.
#[test]
fn on_heads_of_records() {
    let mut seen = [0; 24];
    for version in 0..=4 {
        for count in [
            0, 1, 2, 254, 255, 256, 257, 511, 512, 3999, 4000, 4001, 65_535,
        ] {
            let [high, low] = u16::to_be_bytes(count);
            let head = [version, if version == 1 { low } else { high }, low];
            let cells = (11 * usize::from(count) + 24).div_ceil(8);
            for length in [0, 1, 2, 3, cells + 1, cells + 2, cells + 3, cells + 4] {
                let mut record = vec![0; length];
                record
                    .iter_mut()
                    .zip(head)
                    .for_each(|(to, byte)| *to = byte);
                seen[same(&record, 9, slatmonief::unpack, plain::unpack).0 as usize] += 1;
            }
        }
    }
    assert!([0, 20, 21, 22].iter().all(|&number| seen[number] > 0));
    for (record, answer) in [
        (&[2][..], (20, 1)),
        (&[3, 9], (21, 3)),
        (&[1, 0], (22, 0)),
        (&[2, 1], (22, 0)),
        (&[2, 0, 255], (22, 0)),
        (&[2, 1, 0], (22, 358)),
        (&[2, 15, 160], (22, 5506)),
        (&[2, 15, 161], (22, 0)),
    ] {
        assert_eq!(same(record, 9, slatmonief::unpack, plain::unpack), answer);
    }
}

#[test]
fn the_filter_answers_as_the_label_program() {
    let lines = "C0\n106 31 32\n\n106 31\nD800\nC0 zz\nc0\n C0\nC0 \nC0  C0\n00000C0\n0000C0\n41";
    let mut out = Vec::new();
    filter::run(lines.as_bytes(), &mut out).unwrap();
    let lone = "0 1 11010000100110110011001100011101011\n";
    let pair = "0 2 1101001110010110011100100110011101100011101011\n";
    let wanted = [
        lone,
        pair,
        "2 0\n3 ?\n1 0\n?\n?\n?\n?\n?\n?\n",
        lone,
        "2 0\n",
    ]
    .concat();
    assert_eq!(String::from_utf8(out).unwrap(), wanted);
    let long = format!("181{}\n181{}", " 41".repeat(255), " 41".repeat(1365));
    let mut out = Vec::new();
    filter::run(long.as_bytes(), &mut out).unwrap();
    assert_eq!((out.len(), &out[..6]), (2849, &b"0 256 "[..]));
    assert!(out.ends_with(b"11\n?\n"));
    let longest = format!("C0{}\nC0{}", " 0".repeat(2047), " 0".repeat(2048));
    let mut out = Vec::new();
    filter::run(longest.as_bytes(), &mut out).unwrap();
    assert_eq!((out.len(), &out[..7]), (22_562, &b"0 2048 "[..]));
    assert!(out.ends_with(b"11\n?\n"));
    let retired = format!(
        "181 17A\n181 17A 20AC\n106 17A\n181{} 17A",
        " 41".repeat(300)
    );
    let mut out = Vec::new();
    filter::run(retired.as_bytes(), &mut out).unwrap();
    assert_eq!(out, b"19 1\n3 ?\n3 ?\n19 301\n");
}

/// EAN-13: texts of any length, of digits and of other bytes, with the right check and with a wrong
/// one.
#[test]
fn on_texts_of_ean13() {
    let mut random = Numbers::new(5);
    let mut seen = [0; 34];
    for (round, article) in articles(None, 400).iter().enumerate() {
        for text in [&article.text[..12], &article.text] {
            let bytes = text.as_bytes();
            let answer = same(bytes, 9, ean13::write, plain_ean13::write);
            assert_eq!(answer, (0, 95));
            assert_eq!(EAN13::new(text).unwrap().encode(), article.row);
            let bad = damaged(&mut random, bytes, |random| b'0' - 1 + random.byte(12));
            seen[same(&bad, 9, ean13::write, plain_ean13::write).0 as usize] += 1;
        }
        let mut text = article.text.clone().into_bytes();
        text[round % 13] = b'0' + random.byte(10);
        seen[same(&text, 9, ean13::write, plain_ean13::write).0 as usize] += 1;
    }
    assert!([0, 30, 31, 32].iter().all(|&number| seen[number] > 0));
}

/// EAN-13: rows that are damaged, each digit replaced by any seven cells, and each cell changed.
#[test]
fn on_rows_of_ean13() {
    let mut random = Numbers::new(6);
    let read = |row: &[u8]| {
        let answer = same(row, 9, ean13::read, plain_ean13::read);
        assert_eq!(same(row, 9, ean13::read, plain_ean13::table_read), answer);
        answer
    };
    for article in &articles(None, 300) {
        assert_eq!(read(&article.row), (0, 13));
        read(&damaged(&mut random, &article.row, |random| random.byte(3)));
    }
    let row = &articles(None, 1)[0].row;
    let mut accepted = 0;
    for place in (3..45).chain(50..92).step_by(7) {
        for word in 0..128 {
            let mut row = row.clone();
            (0..7).for_each(|cell| row[place + cell] = word >> cell & 1);
            accepted += usize::from(read(&row).0 == 0);
        }
    }
    assert_eq!(accepted, 12);
    for place in 0..95 {
        for cell in [1 - row[place], 2, 128, 255] {
            let mut row = row.clone();
            row[place] = cell;
            assert_eq!(read(&row), (33, 0));
        }
    }
}

/// EAN-13: rows of digits of any sets, among which some are accepted, and rows of any cells.
#[test]
fn on_any_rows_of_ean13() {
    let mut random = Numbers::new(7);
    let sides = slatmonief::sym::ean13::ENCODINGS;
    let good = &articles(None, 1)[0].row;
    let mut accepted = 0;
    for _ in 0..1000 {
        let mut row = good.clone();
        for (block, place) in (3..45).step_by(7).chain((50..92).step_by(7)).enumerate() {
            let side = if block < 6 { random.below(2) } else { 2 };
            row[place..place + 7].copy_from_slice(&sides[side][random.below(10)]);
        }
        let answer = same(&row, 9, ean13::read, plain_ean13::read);
        assert_eq!(same(&row, 9, ean13::read, plain_ean13::table_read), answer);
        accepted += usize::from(answer.0 == 0);
        row.fill_with(|| random.byte(2));
        assert_eq!(same(&row, 9, ean13::read, plain_ean13::read), (33, 0));
    }
    assert!(accepted > 0);
}
