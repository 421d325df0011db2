//! The seven jobs in plain, safe Rust. They go over the same data in the same passes as the library
//! and have all of its refusals, so that their time shows what the library's own code costs. Their
//! public functions are never inlined, as those of the library.
use crate::patterns::{CHARS, MOST, NONE, PATTERNS, STOP, SYMBOLS};

/// The answer number, which is 0 or the number of a refusal, and the second number.
pub type Answer = (u32, usize);

/// Ź, which is FNC1: the only code point that is allowed between the digits of a pair.
const FNC1: u32 = 0x179;

/// ź, which is FNC2: it parses in sets A and B, and encode refuses it.
const FNC2: u32 = 0x17A;

/// The current character set; `None` before the START.
#[derive(Clone, Copy, PartialEq, Eq)]
enum Set {
    None,
    A,
    B,
    C,
}

impl Set {
    /// The number of a code point in the set. The parser does the pairs of set C.
    fn number(self, c: u32) -> Option<u8> {
        let number = match (self, c) {
            (Set::A, 0x20..=0x5F) | (Set::B, 0x20..=0x7E) => c - 0x20,
            (Set::A, 0..=0x1F) => c + 64,
            (Set::B, 0xF7) => 95,
            (Set::A | Set::B, 0x17B) => 96,
            (Set::A | Set::B, FNC2) => 97,
            (Set::A | Set::B, 0x17D) => 98,
            (Set::A | Set::B, 0x106) => 99,
            (Set::A | Set::C, 0x181) | (Set::B, 0x17C) => 100,
            (Set::A, 0x17C) | (Set::B | Set::C, 0xC0) => 101,
            (Set::A | Set::B | Set::C, FNC1) => 102,
            (Set::None, 0xC0) => 103,
            (Set::None, 0x181) => 104,
            (Set::None, 0x106) => 105,
            _ => return None,
        };
        Some(number as u8)
    }

    /// The set after a symbol: a START or a switch changes it. In set C, 99 is a pair.
    fn next(self, number: u8) -> Set {
        match (self, number) {
            (Set::A | Set::B, 99) | (Set::None, 105) => Set::C,
            (Set::A | Set::C, 100) | (Set::None, 104) => Set::B,
            (Set::B | Set::C, 101) | (Set::None, 103) => Set::A,
            _ => self,
        }
    }

    /// The set in which a Shift has the next symbol read: the other of A and B.
    fn other(self) -> Set {
        match self {
            Set::A => Set::B,
            Set::B => Set::A,
            set => set,
        }
    }
}

/// What is written for one number when it is spelled or scanned.
#[derive(Clone, Copy)]
enum Said {
    Nothing,
    One(u32),
    Two(u32, u32),
}

/// The two numbers of a result.
pub(crate) fn answer(result: Result<usize, Answer>) -> Answer {
    match result {
        Ok(n) => (0, n),
        Err(refusal) => refusal,
    }
}

/// Code points to a row.
#[inline(never)]
pub fn encode(text: &[u32], row: &mut [u8]) -> Answer {
    answer(try_encode(text, row))
}

/// A symbol list to a row.
#[inline(never)]
pub fn draw(symbols: &[u8], row: &mut [u8]) -> Answer {
    answer(vet(symbols).and_then(|_| write_row(symbols, row)))
}

/// A row to its symbol list, with the nested search.
#[inline(never)]
pub fn read(row: &[u8], symbols: &mut [u8]) -> Answer {
    answer(try_read(row, symbols, search))
}

/// A row to its symbol list, with a table of all words of eleven bits: how fast a reader could be.
#[inline(never)]
pub fn table_read(row: &[u8], symbols: &mut [u8]) -> Answer {
    answer(try_read(row, symbols, look_up))
}

/// A symbol list to the code points that encode to it.
#[inline(never)]
pub fn spell(symbols: &[u8], text: &mut [u32]) -> Answer {
    answer(try_say::<_, false>(symbols, text, letters, |c| c))
}

/// A symbol list to the bytes that a scanner sends.
#[inline(never)]
pub fn scan(symbols: &[u8], bytes: &mut [u8]) -> Answer {
    answer(try_say::<_, true>(symbols, bytes, sent, |c| c as u8))
}

/// A row's cells to a row record.
#[inline(never)]
pub fn pack(row: &[u8], record: &mut [u8]) -> Answer {
    answer(try_pack(row, record))
}

/// A row record to its cells.
#[inline(never)]
pub fn unpack(record: &[u8], row: &mut [u8]) -> Answer {
    answer(try_unpack(record, row))
}

/// Encode, by way of a list with a place for each code point: a short text takes a short list,
/// since a list is cleared before it is used. There are no more symbols than code points.
fn try_encode(text: &[u32], row: &mut [u8]) -> Result<usize, Answer> {
    match text.len() {
        0..=128 => encode_by(text, &mut [0; 128], row),
        129..=512 => encode_by(text, &mut [0; 512], row),
        _ => encode_by(text, &mut [0; MOST], row),
    }
}

/// Encode with the passes of the library: a text that parses to its end has neither refusal 1 nor
/// 2, so these are tested only where parsing stops.
fn encode_by(text: &[u32], list: &mut [u8], row: &mut [u8]) -> Result<usize, Answer> {
    let (n, retired) = parse(text, list).map_err(|place| stopped(text, place))?;
    if let Some(place) = retired {
        return Err((19, place));
    }
    let symbols = list.get(..n).ok_or((4, n))?;
    write_row(symbols, row)
}

/// The refusal of a text whose parsing stops at this place: 1 or 2, each tested over the whole
/// text, otherwise 3.
fn stopped(text: &[u32], place: usize) -> Answer {
    if let Some(at) = text.iter().position(|&c| char::from_u32(c).is_none()) {
        return (1, at);
    }
    if text.len() < 2 && text.iter().all(|&c| c < 0x80) {
        return (2, 0);
    }
    (3, place)
}

/// The value of a digit.
fn digit(c: u32) -> Option<u8> {
    matches!(c, 0x30..=0x39).then(|| (c - 0x30) as u8)
}

/// The number of symbols of a text and the place of its first ź, or the place where parsing stops.
/// The list gets as many of the symbols as it has room for.
fn parse(text: &[u32], list: &mut [u8]) -> Result<(usize, Option<usize>), usize> {
    let mut retired = None;
    let mut set = Set::None;
    let mut held = None;
    let mut n = 0;
    for (i, &c) in text.iter().enumerate() {
        let number = match set {
            Set::C => match (held, digit(c)) {
                (None, Some(d)) => {
                    held = Some(d);
                    continue;
                }
                (Some(first), Some(d)) => {
                    held = None;
                    10 * first + d
                }
                (Some(_), None) if c != FNC1 => return Err(i),
                _ => set.number(c).ok_or(i)?,
            },
            _ => set.number(c).ok_or(i)?,
        };
        if let Some(place) = list.get_mut(n) {
            *place = number;
        }
        n += 1;
        set = set.next(number);
        if c == FNC2 {
            retired.get_or_insert(i);
        }
    }
    match (set, held) {
        (Set::None, _) | (_, Some(_)) => Err(text.len()),
        _ => Ok((n, retired)),
    }
}

/// The check: the START has weight 1, and the number at place i has weight i.
fn checksum(symbols: &[u8]) -> u8 {
    let sum: u32 = symbols
        .iter()
        .zip(0..)
        .map(|(&s, i)| u32::from(s) * i.max(1))
        .sum();
    (sum % 103) as u8
}

/// The eleven cells of a symbol.
fn pattern(symbol: u8) -> &'static [u8] {
    &CHARS[11 * usize::from(symbol)..][..11]
}

/// Writes the row of a symbol list, if there is room: the symbols, the check, the stop.
fn write_row(symbols: &[u8], row: &mut [u8]) -> Result<usize, Answer> {
    let payload = 11 * symbols.len();
    let row = row.get_mut(..payload + 24).ok_or((5, payload + 24))?;
    let check = checksum(symbols);
    let (payload, end) = row.split_at_mut(payload);
    for (cells, &symbol) in payload.chunks_exact_mut(11).zip(symbols) {
        cells.copy_from_slice(pattern(symbol));
    }
    end[..11].copy_from_slice(pattern(check));
    end[11..].copy_from_slice(&STOP);
    Ok(symbols.len())
}

/// The first tests of draw, spell and scan: 10, 13.
fn vet(symbols: &[u8]) -> Result<(), Answer> {
    let (&start, rest) = symbols.split_first().ok_or((10, 0))?;
    if symbols.len() > MOST {
        return Err((10, symbols.len()));
    }
    if !(103..=105).contains(&start) {
        return Err((13, 0));
    }
    match rest.iter().position(|&s| s > 102) {
        Some(at) => Err((13, at + 1)),
        None => Ok(()),
    }
}

/// The first tests of read and pack: 10, 11. Returns the number of symbols.
fn shape(row: &[u8]) -> Result<usize, Answer> {
    let len = row.len();
    if !(35..=11 * MOST + 24).contains(&len) || len % 11 != 24 % 11 {
        return Err((10, len));
    }
    match row.iter().position(|&cell| cell > 1) {
        Some(at) => Err((11, at)),
        None => Ok((len - 24) / 11),
    }
}

/// The word of a block's cells, the first cell in the top bit of eleven.
fn word(block: &[u8]) -> u16 {
    block
        .iter()
        .zip((0..11).rev())
        .fold(0, |word, (&cell, bit)| word | u16::from(cell) << bit)
}

/// Finds a block's word pattern by pattern and cell by cell, and leaves a pattern at the first cell
/// that differs. Of a dozen ways to write this, it is the fastest with Rust 1.95 on Arm, since the
/// compiler joins the tests of bits; with the row's cells instead it takes about 3 times as long,
/// and with the first cell asked before the search, as the library does, 1.04 to 1.36 times. So
/// clippy's loop over the patterns themselves is not taken.
#[allow(clippy::needless_range_loop)]
fn search(block: &[u8]) -> Option<u8> {
    let word = word(block);
    'search: {
        'patterns: for s in 0..106 {
            for j in 0..11 {
                if word >> (10 - j) & 1 != PATTERNS[s] >> (10 - j) & 1 {
                    continue 'patterns;
                }
            }
            break 'search Some(s as u8);
        }
        None
    }
}

/// Finds a block by its word in the table.
fn look_up(block: &[u8]) -> Option<u8> {
    let word = block
        .iter()
        .fold(0, |word, &cell| word << 1 | usize::from(cell));
    Some(SYMBOLS[word]).filter(|&symbol| symbol != NONE)
}

/// Why a block that is no pattern is refused: 16 if the number of its bar cells is odd, else 12.
fn no_pattern(block: &[u8]) -> u32 {
    match block.iter().filter(|&&cell| cell == 1).count() % 2 {
        1 => 16,
        _ => 12,
    }
}

/// Read, by way of a list with a place for each block: a short row takes a short list.
fn try_read(
    row: &[u8],
    symbols: &mut [u8],
    find: impl Fn(&[u8]) -> Option<u8>,
) -> Result<usize, Answer> {
    let n = shape(row)?;
    match n {
        0..=255 => read_by(row, n, &mut [0; 256], symbols, find),
        _ => read_by(row, n, &mut [0; MOST + 1], symbols, find),
    }
}

/// The tests of read after 10 and 11, in their order: 12 or 16 and 13 from the left, then 15, 14,
/// 5.
fn read_by(
    row: &[u8],
    n: usize,
    list: &mut [u8],
    symbols: &mut [u8],
    find: impl Fn(&[u8]) -> Option<u8>,
) -> Result<usize, Answer> {
    let (blocks, stop) = row.split_at(11 * (n + 1));
    for (b, (block, place)) in blocks.chunks_exact(11).zip(&mut *list).enumerate() {
        let symbol = find(block).ok_or_else(|| (no_pattern(block), b))?;
        if (symbol > 102) != (b == 0) {
            return Err((13, b));
        }
        *place = symbol;
    }
    if let Some(at) = stop
        .iter()
        .zip(&STOP)
        .position(|(cell, wanted)| cell != wanted)
    {
        return Err((15, blocks.len() + at));
    }
    let right = checksum(&list[..n]);
    if list[n] != right {
        return Err((14, usize::from(right)));
    }
    symbols
        .get_mut(..n)
        .ok_or((5, n))?
        .copy_from_slice(&list[..n]);
    Ok(n)
}

/// The code points of a number: its own letter, otherwise what a scanner sends for it.
fn letters(set: Set, number: u8) -> Said {
    let letter = match (set, number) {
        (Set::B, 95) => 0xF7,
        (Set::A | Set::B, 96) => 0x17B,
        (Set::A | Set::B, 97) => FNC2,
        (Set::A | Set::B, 98) => 0x17D,
        (Set::A | Set::B, 99) | (Set::None, 105) => 0x106,
        (Set::A | Set::C, 100) | (Set::None, 104) => 0x181,
        (Set::A, 101) | (Set::B, 100) => 0x17C,
        (Set::B | Set::C, 101) | (Set::None, 103) => 0xC0,
        (Set::A | Set::B | Set::C, 102) => FNC1,
        _ => return sent(set, number),
    };
    Said::One(letter)
}

/// The bytes that a scanner sends for a number: nothing for a START, a switch, Shift or a function
/// symbol.
fn sent(set: Set, number: u8) -> Said {
    let c = u32::from(number);
    match (set, number) {
        (Set::A, 0..=63) | (Set::B, 0..=95) => Said::One(c + 32),
        (Set::A, 64..=95) => Said::One(c - 64),
        (Set::C, 0..=99) => Said::Two(0x30 + c / 10, 0x30 + c % 10),
        _ => Said::Nothing,
    }
}

/// Goes over a symbol list, keeps the current set, and calls `hear` with what `say` gives for each
/// number; with `SHIFTS`, a number below 96 right after a Shift is read in the other set.
fn walk<const SHIFTS: bool>(
    symbols: &[u8],
    say: impl Fn(Set, u8) -> Said,
    mut hear: impl FnMut(Said),
) {
    let (mut set, mut read_in) = (Set::None, Set::None);
    for &number in symbols {
        hear(say(if SHIFTS { read_in } else { set }, number));
        let next = set.next(number);
        read_in = if number == 98 { set.other() } else { next };
        set = next;
    }
}

/// Spell and scan: the tests 10, 13 and 5, for which a first pass counts the elements, and then the
/// pass that writes. Shift does not change the count.
fn try_say<T, const SHIFTS: bool>(
    symbols: &[u8],
    out: &mut [T],
    say: impl Fn(Set, u8) -> Said,
    own: impl Fn(u32) -> T,
) -> Result<usize, Answer> {
    vet(symbols)?;
    let mut needed = 0;
    walk::<false>(symbols, &say, |said| {
        needed += match said {
            Said::Nothing => 0,
            Said::One(_) => 1,
            Said::Two(_, _) => 2,
        }
    });
    let out = out.get_mut(..needed).ok_or((5, needed))?;
    let mut at = 0;
    walk::<SHIFTS>(symbols, &say, |said| match said {
        Said::Nothing => {}
        Said::One(c) => {
            out[at] = own(c);
            at += 1;
        }
        Said::Two(a, b) => {
            out[at] = own(a);
            out[at + 1] = own(b);
            at += 2;
        }
    });
    Ok(needed)
}

/// The byte of at most eight cells, the first cell in the top bit.
fn byte(cells: &[u8]) -> u8 {
    cells
        .iter()
        .zip((0..8).rev())
        .fold(0, |byte, (&cell, bit)| byte | cell << bit)
}

/// The bytes before the cells in a record of n symbols: the version, and a count of one byte or
/// two.
fn head_length(n: usize) -> usize {
    match n {
        0..=255 => 2,
        _ => 3,
    }
}

/// Pack, with its tests in their order: 10, 11, 5. Writes the full bytes, and then the last byte if
/// cells are left for it.
fn try_pack(row: &[u8], record: &mut [u8]) -> Result<usize, Answer> {
    let n = shape(row)?;
    let needed = head_length(n) + row.len().div_ceil(8);
    let record = record.get_mut(..needed).ok_or((5, needed))?;
    let (head, bytes) = record.split_at_mut(head_length(n));
    match head {
        [version, count] => (*version, *count) = (1, n as u8),
        _ => head.copy_from_slice(&[2, (n >> 8) as u8, n as u8]),
    }
    let eights = row.chunks_exact(8);
    let left = eights.remainder();
    for (out, cells) in bytes.iter_mut().zip(eights) {
        *out = byte(cells);
    }
    if let (false, Some(last)) = (left.is_empty(), bytes.last_mut()) {
        *last = byte(left);
    }
    Ok(needed)
}

/// The count of a record whose version is 1 or 2, if a record of that version has it: version 2 is
/// for more than 255 symbols.
fn count(record: &[u8]) -> Option<usize> {
    match *record {
        [1, n, ..] => Some(usize::from(n)).filter(|&n| n > 0),
        [_, high, low, ..] => {
            let n = usize::from(u16::from_be_bytes([high, low]));
            (256..=MOST).contains(&n).then_some(n)
        }
        _ => None,
    }
}

/// The tests of a record: 20, 21, 22, 23. Returns the number of its cells.
fn test(record: &[u8]) -> Result<usize, Answer> {
    let [version, _, ..] = *record else {
        return Err((20, record.len()));
    };
    if !matches!(version, 1 | 2) {
        return Err((21, usize::from(version)));
    }
    let n = count(record).ok_or((22, 0))?;
    let cells = 11 * n + 24;
    let bytes = cells.div_ceil(8);
    let needed = head_length(n) + bytes;
    if record.len() != needed {
        return Err((22, needed));
    }
    let spare = 8 * bytes - cells;
    if record[needed - 1] & ((1 << spare) - 1) != 0 {
        return Err((23, needed - 1));
    }
    Ok(cells)
}

/// Writes the cells of a byte, from its top bit on, as many as the part has room for.
fn spread(part: &mut [u8], byte: u8) {
    for (cell, bit) in part.iter_mut().zip((0..8).rev()) {
        *cell = byte >> bit & 1;
    }
}

/// Unpack, with its tests in their order: 20, 21, 22, 23, 5. Writes the cells of the full bytes,
/// and then those of the last byte.
fn try_unpack(record: &[u8], row: &mut [u8]) -> Result<usize, Answer> {
    let n = test(record)?;
    let row = row.get_mut(..n).ok_or((5, n))?;
    let bytes = &record[record.len() - n.div_ceil(8)..];
    let mut eights = row.chunks_exact_mut(8);
    for (part, &byte) in eights.by_ref().zip(bytes) {
        spread(part, byte);
    }
    let left = eights.into_remainder();
    if let (false, Some(&last)) = (left.is_empty(), bytes.last()) {
        spread(left, last);
    }
    Ok(n)
}
