//! Compares write of EAN-13, and the type with the crate's signatures, on texts.
use super::ask;
use super::model::{self, CELLS};
use crate::check::{broken, wide, Subject, Tally, Worker};
use crate::random::Random;
use crate::run::{Result, Run};

/// Twelve random ASCII digits.
pub fn twelve(random: &mut Random) -> Vec<u8> {
    digits(random, 12)
}

/// As many random ASCII digits.
fn digits(random: &mut Random, length: usize) -> Vec<u8> {
    (0..length).map(|_| b'0' + random.below(10) as u8).collect()
}

/// These twelve ASCII digits and their check.
fn with_check(twelve: &[u8]) -> Vec<u8> {
    let check = model::check(&model::values(twelve));
    [twelve, &[b'0' + check]].concat()
}

/// Compares the type, and write with each of these rooms.
fn visit_with(worker: &mut Worker, text: &[u8], rooms: &[usize]) -> Result<()> {
    worker.tally.inputs += 1;
    worker.ean13_type(text)?;
    rooms
        .iter()
        .try_for_each(|&room| worker.ean13_write(text, room, 0xA7).map(drop))
}

/// Compares the type, and write with just enough room.
fn visit(worker: &mut Worker, text: &[u8]) -> Result<()> {
    visit_with(worker, text, &[CELLS])
}

/// The lengths of texts: every one up to 20, some that have to do with other symbols, and some that
/// are 12 or 13 in 8 or 16 bits.
fn text_lengths() -> Vec<usize> {
    let others = [24, 25, 26, CELLS, 255, 256, 256 + 12, 256 + 13];
    let long = [65_535, 65_536, 65_536 + 12, 65_536 + 13];
    (0..=20).chain(others).chain(long).collect()
}

/// Texts of this many bytes: digits alone, the front of a number with its check and zeros after it,
/// digits with a byte that may be none, digits after those of other scripts, and any bytes.
fn texts_of(random: &mut Random, length: usize) -> Vec<Vec<u8>> {
    let mut number = with_check(&twelve(random));
    number.resize(length, b'0');
    let mut other = digits(random, length);
    if length > 0 {
        other[random.below(length)] = random.byte();
    }
    let scripts = "٣３".repeat(length / 5).into_bytes();
    let rest = digits(random, length - scripts.len());
    vec![
        vec![b'0'; length],
        vec![b'9'; length],
        digits(random, length),
        number,
        other,
        [scripts, rest].concat(),
        (0..length).map(|_| random.byte()).collect(),
    ]
}

/// Texts of every length, with the room of a row, with less and with more.
pub fn lengths(run: &Run) -> Result<Tally> {
    let lengths = text_lengths();
    run.blocks(lengths.len() as u64, |worker, block| {
        let mut random = Random::new(run.seed, "ean13-lengths", block);
        let length = lengths[block as usize];
        let rounds = if length <= 20 { 20 } else { 1 };
        for _ in 0..rounds {
            for text in texts_of(&mut random, length) {
                visit_with(worker, &text, &[CELLS, CELLS - 1, 0, CELLS + 5])?;
            }
        }
        Ok(())
    })
}

/// Every value of a byte at every place of texts of 12 and 13, and two bytes that are no digits at
/// every two places.
pub fn bytes(run: &Run) -> Result<Tally> {
    let texts = (run.random / 100_000).max(1);
    run.blocks(25 * texts, |worker, block| {
        let mut random = Random::new(run.seed, "ean13-bytes", block / 25);
        let long = with_check(&twelve(&mut random));
        let (text, place) = match (block % 25) as usize {
            place @ 0..=11 => (&long[..12], place),
            place => (&long[..], place - 12),
        };
        byte_at(worker, text, place)?;
        (place + 1..text.len()).try_for_each(|other| two_bad(worker, text, place, other))
    })
}

/// Every value at this place.
fn byte_at(worker: &mut Worker, text: &[u8], place: usize) -> Result<()> {
    let mut text = text.to_vec();
    for value in 0..=255 {
        text[place] = value;
        visit(worker, &text)?;
    }
    Ok(())
}

/// Two bytes that are no digits: the place of the first is answered.
fn two_bad(worker: &mut Worker, text: &[u8], place: usize, other: usize) -> Result<()> {
    for (here, there) in [(b'/', b':'), (b':', 0), (b' ', b'A'), (0x80, 0xFF)] {
        let mut text = text.to_vec();
        (text[place], text[other]) = (here, there);
        visit(worker, &text)?;
    }
    Ok(())
}

/// Characters of two, three and four bytes: digits of other scripts, and the first and last of each
/// length.
const CHARACTERS: [char; 12] = [
    '\u{80}',
    'é',
    '٣',
    '߃',
    '\u{7FF}',
    '\u{800}',
    '०',
    '３',
    '€',
    '\u{10000}',
    '𝟛',
    '\u{10FFFF}',
];

/// A character at every place: in texts of 12 and 13 bytes, in texts of 12 and 13 characters, and
/// in these cut after 12 and 13 bytes, which may be within the character.
pub fn characters(run: &Run) -> Result<Tally> {
    run.blocks(CHARACTERS.len() as u64, |worker, block| {
        let mut random = Random::new(run.seed, "ean13-characters", block);
        let mut bytes = [0; 4];
        let character = CHARACTERS[block as usize]
            .encode_utf8(&mut bytes)
            .as_bytes();
        for length in [12, 13] {
            for place in 0..length {
                let before = digits(&mut random, place);
                let after = digits(&mut random, length - place - 1);
                let by_characters = [&before, character, &after].concat();
                visit(worker, &by_characters)?;
                visit(worker, &by_characters[..length])?;
                visit(worker, &by_characters[by_characters.len() - length..])?;
            }
        }
        Ok(())
    })
}

/// All ten checks after random digits. The crate accepts one of them, which must be the model's.
pub fn checks(run: &Run) -> Result<Tally> {
    run.random_blocks("ean13-checks", run.random / 200, |worker, random| {
        let twelve = twelve(random);
        let (crates, right) = (ask::checks(&twelve), with_check(&twelve)[12]);
        if crates != [right] {
            let (crates, right) = (
                format!("the crate: {crates:?}"),
                format!("the model: {right}"),
            );
            return Err(broken(Subject::Count, wide(&twelve), crates, right));
        }
        visit(worker, &twelve)?;
        for check in b'0'..=b'9' {
            visit(worker, &[&twelve[..], &[check]].concat())?;
        }
        worker.ean13_law(&twelve)
    })
}

/// A random text: of twelve digits, of thirteen with the right check or a wrong one, with a byte
/// that is no digit, or of another length.
fn text(random: &mut Random) -> Vec<u8> {
    let mut text = twelve(random);
    match random.below(20) {
        0..=7 => {}
        8..=13 => text = with_check(&text),
        14..=16 => text.push(b'0' + random.below(10) as u8),
        17 | 18 => {
            let length = text.len() + random.below(2);
            text.resize(length, b'0' + random.below(10) as u8);
            text[random.below(length)] = random.pick(&[b'/', b':', b' ', b'-', b'A', 0, 0xC3]);
        }
        _ => {
            let length = random.pick(&[0, 1, 8, 10, 11, 14, 15, 18]);
            text = digits(random, length);
        }
    }
    text
}

/// The length of a lent buffer: mostly as long as a row.
fn room(random: &mut Random) -> usize {
    match random.below(16) {
        0 => random.below(CELLS),
        1 => CELLS - 1,
        2 => CELLS + 1 + random.below(40),
        _ => CELLS,
    }
}

/// Random texts; the type with the crate's signatures takes one in ten.
pub fn random(run: &Run) -> Result<Tally> {
    run.random_blocks("ean13-random", run.random / 2 * 5, |worker, random| {
        let text = text(random);
        worker.tally.inputs += 1;
        if random.chance(10) {
            worker.ean13_type(&text)?;
        }
        worker
            .ean13_write(&text, room(random), random.mark())
            .map(drop)
    })
}

/// Every buffer length up to 100 and some above, for texts that are accepted, with and without the
/// check, and for texts that are refused by 30, 31 and 32.
pub fn rooms(run: &Run) -> Result<Tally> {
    run.blocks(101, |worker, block| {
        let mut random = Random::new(run.seed, "ean13-rooms", block);
        let short = twelve(&mut random);
        let (long, mut other) = (with_check(&short), short.clone());
        other[random.below(12)] = b'x';
        let wrong = [&short[..], &[b'0' + (long[12] - b'0' + 1) % 10]].concat();
        for text in [&short[..], &long, &short[..11], &other, &wrong] {
            worker.tally.inputs += 1;
            for room in [block as usize, 101 + 7 * block as usize] {
                worker.ean13_write(text, room, random.mark())?;
            }
        }
        Ok(())
    })
}
