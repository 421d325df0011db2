//! The inputs: alphabets, labels, symbol lists, rows, and damaged copies of them.
use crate::model::{self, Model, FNC1, FNC2, LIMIT, NUMBER_OF_FNC2, SHIFT, SWITCH};
use crate::random::Random;

/// Digits that are not ASCII.
const OTHER_DIGITS: [u32; 8] = [0x660, 0x661, 0x669, 0xFF10, 0xFF11, 0xFF19, 0xB2, 0x967];
/// Values that are not scalar values.
const NO_SCALARS: [u32; 4] = [0xD800, 0xDFFF, 0x11_0000, 0xFFFF_FFFF];
/// Code points where the number of UTF-8 bytes changes, and the first and last of the scalar
/// values.
const EDGES: [u32; 9] = [
    0x7F, 0x80, 0x7FF, 0x800, 0xD7FF, 0xE000, 0xFFFF, 0x1_0000, 0x10_FFFF,
];
/// The letters of the switches, of Shift and of the function symbols.
const NAMED: [u32; 8] = [0xC0, 0x181, 0x106, FNC1, FNC2, 0x17B, 0x17C, 0x17D];
/// Those of them that have a number in sets A and B and change no set, without ź.
const ORDINARY: [u32; 4] = [FNC1, 0x17B, 0x17C, 0x17D];
/// A small alphabet for longer exhaustive runs.
pub const SMALL: [u32; 14] = [
    0x30, 0x31, 0x39, 0x41, 0x61, 0x1F, 0x20, 0x5F, 0xC0, 0x181, 0x106, 0x179, 0x17D, 0x17C,
];
/// A small alphabet with ź: the digits of the pair 97, `a`, which set A lacks, the switches, Ź, ź,
/// a code point that has no number, and a value that is not a scalar value.
pub const WITH_FNC2: [u32; 10] = [
    0x37, 0x39, 0x61, 0xC0, 0x181, 0x106, FNC1, FNC2, 0x20AC, 0xD800,
];

/// Every code point that has a number in some set, its neighbours, and other values that are worth
/// a test.
pub fn alphabet() -> Vec<u32> {
    let mut points: Vec<u32> = (0..=0x7E).chain([0xF6, 0xF7, 0xF8]).collect();
    points.extend(NAMED.iter().flat_map(|&named| named - 1..=named + 1));
    points.extend(EDGES.iter().chain(&OTHER_DIGITS).chain(&NO_SCALARS));
    points.sort_unstable();
    points.dedup();
    points
}

/// What a label is made of.
#[derive(Clone, Copy, Debug, PartialEq, Eq)]
pub enum Style {
    /// Set A only.
    A,
    /// Set B only.
    B,
    /// Set C only.
    C,
    /// All three sets, with switches.
    Mixed,
    /// Set C only, with Ź inside many pairs.
    Held,
    /// All three sets, with switches, and with few or many ź. The other styles have no ź.
    Retired,
}

/// Every style.
pub const STYLES: [Style; 6] = [
    Style::A,
    Style::B,
    Style::C,
    Style::Mixed,
    Style::Held,
    Style::Retired,
];

/// A label of exactly n symbols, n at least 1.
pub fn label(random: &mut Random, n: usize, style: Style) -> Vec<u32> {
    let mut set = match style {
        Style::A => 0,
        Style::B => 1,
        Style::C | Style::Held => 2,
        Style::Mixed | Style::Retired => random.below(3),
    };
    let retired = match style {
        Style::Retired => random.pick(&[1, 10, 40]),
        _ => 0,
    };
    let switches = matches!(style, Style::Mixed | Style::Retired);
    let (mut text, mut left) = (vec![SWITCH[set]], n - 1);
    while left > 0 {
        if switches && random.chance(15) {
            set = (set + 1 + random.below(2)) % 3;
            text.push(SWITCH[set]);
            left -= 1;
        } else if set == 2 {
            left -= in_c(random, &mut text, left, style);
        } else {
            let fnc2 = random.chance(retired);
            text.push(if fnc2 { FNC2 } else { ordinary(random, set) });
            left -= 1;
        }
    }
    text
}

/// Adds a Ź or a pair in set C, the pair with up to three Ź inside; returns the number of symbols
/// that it makes.
fn in_c(random: &mut Random, text: &mut Vec<u32>, left: usize, style: Style) -> usize {
    if random.chance(5) {
        text.push(FNC1);
        return 1;
    }
    let often = match style {
        Style::Held => 40,
        Style::Mixed | Style::Retired => 10,
        _ => 0,
    };
    let between = if random.chance(often) {
        (1 + random.below(3)).min(left - 1)
    } else {
        0
    };
    text.push(0x30 + random.below(10) as u32);
    text.extend(vec![FNC1; between]);
    text.push(0x30 + random.below(10) as u32);
    1 + between
}

/// A code point that has a number in set A or B and is neither a switch nor ź.
fn ordinary(random: &mut Random, set: usize) -> u32 {
    if random.chance(10) {
        return random.pick(&ORDINARY);
    }
    match (set, random.below(96) as u32) {
        (0, value) => value,
        (_, 95) => 0xF7,
        (_, value) => 0x20 + value,
    }
}

/// The number of symbols of a random label: mostly small, sometimes large, seldom on each side of
/// 255, and more seldom up to the limit or close to it.
pub fn symbols(random: &mut Random) -> usize {
    match random.below(2000) {
        0..=1839 => 1 + random.below(9),
        1840..=1975 => 10 + random.below(30),
        1976..=1991 => 40 + random.below(160),
        1992..=1994 => 200 + random.below(100),
        1995..=1998 => 250 + random.below(12),
        _ if random.chance(50) => 300 + random.below(LIMIT - 300),
        _ => close_to_limit(random),
    }
}

/// A number of symbols on either side of the limit.
fn close_to_limit(random: &mut Random) -> usize {
    LIMIT - 5 + random.below(12)
}

/// A random text: a good label, a damaged label, or any code points of the alphabet. Fewer of the
/// long labels are damaged, since there the search for the place of refusal 3 takes long.
pub fn text(random: &mut Random, alphabet: &[u32]) -> Vec<u32> {
    let kind = random.below(100);
    if kind < 6 {
        return letters(random, alphabet);
    }
    let (n, style) = (symbols(random), random.pick(&STYLES));
    let mut text = label(random, n, style);
    if kind < if n <= 40 { 45 } else { 15 } {
        for _ in 0..1 + random.below(8) / 5 {
            damage(random, &mut text, alphabet);
        }
    }
    text
}

/// A random text with ź: a good label, or one in which a ź or a code point without a number is put
/// in, that ends with a digit left over, or that is damaged. Of 64 one is close to the limit, and
/// seven are on each side of 255 symbols.
pub fn text_with_fnc2(random: &mut Random, alphabet: &[u32]) -> Vec<u32> {
    let n = match random.below(64) {
        0 => close_to_limit(random),
        1..=7 => 250 + random.below(12),
        _ => symbols(random),
    };
    let mut text = label(random, n, Style::Retired);
    if !text.contains(&FNC2) {
        text.push(FNC2);
    }
    let place = random.below(text.len() + 1);
    match random.below(10) {
        0 | 1 => text.insert(place, FNC2),
        2 | 3 => text.insert(place, random.pick(&[0x20AC, 0x7F, 0x17E])),
        4 => text.extend([SWITCH[2], 0x39]),
        5 => damage(random, &mut text, alphabet),
        _ => {}
    }
    text
}

/// Any code points of the alphabet or of a small alphabet, mostly after a START.
fn letters(random: &mut Random, alphabet: &[u32]) -> Vec<u32> {
    let from = random.pick(&[alphabet, alphabet, &SMALL, &WITH_FNC2]);
    let mut text: Vec<u32> = (0..random.below(9)).map(|_| random.pick(from)).collect();
    if random.chance(80) {
        text.insert(0, random.pick(&SWITCH));
    }
    text
}

/// Damages a text in one place: a code point is replaced, removed, doubled, exchanged or put in, or
/// the end is cut off.
pub fn damage(random: &mut Random, text: &mut Vec<u32>, alphabet: &[u32]) {
    if text.is_empty() {
        return;
    }
    let place = random.below(text.len());
    let next = (place + 1).min(text.len() - 1);
    match random.below(10) {
        0 | 1 => text[place] = random.pick(alphabet),
        2 => drop(text.remove(place)),
        3 => text.insert(place, text[place]),
        4 => text.swap(place, next),
        5 => text.truncate(place + 1),
        6 => text.insert(place, random.pick(&OTHER_DIGITS)),
        7 => text.insert(place, random.pick(&SWITCH)),
        8 => text.insert(place, 0x30 + random.below(10) as u32),
        _ if random.chance(30) => text.insert(place, random.pick(&NO_SCALARS)),
        _ => text.insert(
            place,
            random.pick(&[FNC1, FNC2, 0x17D, 0xF7, 0x7F, 0x61, 0x1F]),
        ),
    }
}

/// A symbol list of length n that draw accepts; the switches and function symbols are frequent.
pub fn list(random: &mut Random, n: usize) -> Vec<u8> {
    let special = random.below(60);
    let data = |random: &mut Random| {
        if random.chance(special) {
            94 + random.below(9)
        } else {
            random.below(103)
        }
    };
    list_of(random, n, data)
}

/// A symbol list of length n: any START, and data numbers as `data` gives them.
fn list_of(random: &mut Random, n: usize, data: impl Fn(&mut Random) -> usize) -> Vec<u8> {
    let number = |place| match place {
        0 => 103 + random.below(3) as u8,
        _ => data(random) as u8,
    };
    (0..n).map(number).collect()
}

/// A symbol list of length n that draw accepts, mostly in the sets A and B: four numbers in ten are
/// 98, and most of the others are below 96.
pub fn list_of_shifts(random: &mut Random, n: usize) -> Vec<u8> {
    list_of(random, n, |random| match random.below(20) {
        0..=7 => usize::from(SHIFT),
        8..=16 => random.below(96),
        17 => 94 + random.below(9),
        _ => 100 + random.below(2),
    })
}

/// A symbol list of length n that draw accepts, in all three sets: three numbers in ten are 97.
pub fn list_of_97(random: &mut Random, n: usize) -> Vec<u8> {
    list_of(random, n, |random| match random.below(20) {
        0..=5 => usize::from(NUMBER_OF_FNC2),
        6..=14 => random.below(96),
        15 => 94 + random.below(9),
        _ => 99 + random.below(3),
    })
}

/// A symbol list of length n in one set (0 is A, 1 is B, 2 is C), of numbers for which a scanner
/// sends something.
pub fn list_in(random: &mut Random, n: usize, set: usize) -> Vec<u8> {
    let end = if set == 2 { 100 } else { 96 };
    (0..n).map(|place| if place == 0 { 103 + set } else { random.below(end) } as u8).collect()
}

/// Damages a symbol list in one place, or makes it longer, seldom by more than the limit.
pub fn damage_list(random: &mut Random, list: &mut Vec<u8>) {
    if list.is_empty() {
        return;
    }
    let place = random.below(list.len());
    match random.below(6) {
        0 => list[place] = random.byte(),
        1 => list[place] = 100 + random.below(8) as u8,
        2 => drop(list.remove(place)),
        3 => list.insert(place, random.byte()),
        4 => list.swap(0, place),
        _ => {
            let most = if random.chance(10) { 2 * LIMIT } else { 300 };
            list.extend(vec![random.byte(); random.below(most)]);
        }
    }
}

/// Damages a row in one place: a cell, a block, the check, the stop or the length.
pub fn damage_row(random: &mut Random, model: &Model, row: &mut Vec<u8>) {
    if row.len() < 35 {
        return;
    }
    let (cell, blocks) = (random.below(row.len()), (row.len() - 13) / 11);
    let (one, other) = (random.below(blocks), random.below(blocks));
    let block = 11 * random.pick(&[0, blocks - 1, one, other]);
    match random.below(12) {
        0 | 1 => row[cell] ^= 1,
        2 => row[cell] = random.pick(&[2, 3, 128, 254, 255]),
        3..=6 => row[block..block + 11].copy_from_slice(model.pattern(random.below(106) as u8)),
        7 => row[block..block + 11].copy_from_slice(&model::STOP[..11]),
        8 => row[block + random.below(11)] ^= 1,
        9 | 10 => {
            let stop = row.len() - 1 - random.below(13);
            row[stop] ^= 1;
        }
        _ => resize(random, row),
    }
}

/// Makes a row shorter or longer by some cells.
fn resize(random: &mut Random, row: &mut Vec<u8>) {
    let by = random.pick(&[1, 2, 10, 11, 12, 13, 22]);
    if random.chance(50) {
        row.truncate(row.len().saturating_sub(by));
    } else {
        row.extend((0..by).map(|i| (i % 2) as u8));
    }
}

/// Random cells, as many as a row of n symbols has.
pub fn cells(random: &mut Random, n: usize) -> Vec<u8> {
    (0..model::cells(n))
        .map(|_| (random.bits() >> 63) as u8)
        .collect()
}

/// The number of symbols of a random list or row.
pub fn length(random: &mut Random) -> usize {
    symbols(random).min(LIMIT)
}

/// The number of symbols of a random list, more often large: one in eight is of any length up to
/// 300, and one in 400 of any length up to the limit.
pub fn any_length(random: &mut Random) -> usize {
    match random.below(400) {
        0 => 1 + random.below(LIMIT),
        1..=49 => 1 + random.below(300),
        _ => length(random),
    }
}

/// Buffer lengths close to the one that is needed.
pub fn near(need: usize) -> Vec<usize> {
    let mut rooms = vec![
        0,
        need / 2,
        need.saturating_sub(2),
        need.saturating_sub(1),
        need,
        need + 1,
        need + 2,
        need + 64,
    ];
    rooms.sort_unstable();
    rooms.dedup();
    rooms
}

/// A random buffer length, mostly close to the one that is needed, seldom enough for every row.
pub fn room(random: &mut Random, need: usize) -> usize {
    match random.below(200) {
        0..=9 => 0,
        10..=39 => need.saturating_sub(1),
        40..=119 => need,
        120..=169 => need + 1 + random.below(40),
        170..=189 => random.below(need + 50),
        190..=198 => need + random.below(3000),
        _ => model::cells(LIMIT) + random.below(40),
    }
}
