//! A plain model of six jobs, and of the one rule of encode that the crate lacks, written from
//! document 01 and requests 1, 3, 4 and 12 of document 02. It is given the bar patterns and uses
//! nothing else.

/// What a job must answer: the answer number, the second number, and the elements at the front of
/// the buffer (none for a refusal).
#[derive(Clone, Debug, PartialEq, Eq)]
pub struct Said<T> {
    /// 0, or the number of the refusal.
    pub number: u32,
    /// The second number.
    pub second: usize,
    /// The elements that are written; the rest of the buffer is unchanged.
    pub front: Vec<T>,
}

/// An accepted call.
pub fn accept<T>(second: usize, front: Vec<T>) -> Said<T> {
    Said {
        number: 0,
        second,
        front,
    }
}

/// A refused call.
pub fn refuse<T>(number: u32, second: usize) -> Said<T> {
    Said {
        number,
        second,
        front: Vec::new(),
    }
}

/// An accepted call, or refusal 5 if the front does not fit in the room.
pub fn in_room<T>(room: usize, second: usize, front: Vec<T>) -> Said<T> {
    if room < front.len() {
        return refuse(5, front.len());
    }
    accept(second, front)
}

/// The largest n, the number of symbols in a list.
pub const LIMIT: usize = 4000;
/// The stop, as document 01 writes it.
pub const STOP: [u8; 13] = [1, 1, 0, 0, 0, 1, 1, 1, 0, 1, 0, 1, 1];
/// The switches À, Ɓ and Ć to the sets A, B and C, which are 0, 1 and 2 here.
pub const SWITCH: [u32; 3] = [0xC0, 0x181, 0x106];
/// Ź, which is FNC1.
pub const FNC1: u32 = 0x179;
/// ź, which is FNC2.
pub const FNC2: u32 = 0x17A;
/// The number of FNC2 in the sets A and B.
pub const NUMBER_OF_FNC2: u8 = 97;

/// The number of cells in a row of n symbols.
pub fn cells(n: usize) -> usize {
    11 * (n + 1) + 13
}

/// The head of a record: version 1 has a count of one byte, version 2 of two, the high one first.
/// For another version it is that of version 1.
pub fn head_of(version: u8, count: usize) -> Vec<u8> {
    match version {
        2 => vec![2, (count / 256) as u8, (count % 256) as u8],
        _ => vec![version, count as u8],
    }
}

/// The version of the record of a row of n symbols: 1 if the count fits in a byte, otherwise 2.
/// Up to 255 symbols the records are those of before request 4, byte for byte.
pub fn version_for(n: usize) -> u8 {
    match n {
        0..=255 => 1,
        _ => 2,
    }
}

/// The number of bytes in a record of this version for n symbols.
pub fn bytes_of(version: u8, n: usize) -> usize {
    head_of(version, n).len() + cells(n).div_ceil(8)
}

/// The number of bytes in the record of a row of n symbols.
pub fn record_bytes(n: usize) -> usize {
    bytes_of(version_for(n), n)
}

/// The count of a record; or refusal 20, 21 or, with 0, 22.
fn counted(record: &[u8]) -> Result<usize, (u32, usize)> {
    match *record {
        [] | [_] => Err((20, record.len())),
        [1, 0, ..] => Err((22, 0)),
        [1, count, ..] => Ok(usize::from(count)),
        [2, high, low, ..] => match 256 * usize::from(high) + usize::from(low) {
            count @ 256..=LIMIT => Ok(count),
            _ => Err((22, 0)),
        },
        [2, _] => Err((22, 0)),
        [version, ..] => Err((21, usize::from(version))),
    }
}

/// The n of a row of this length, if there is one within the limit.
fn symbols_of(length: usize) -> Option<usize> {
    (1..=LIMIT)
        .contains(&(length.saturating_sub(24) / 11))
        .then(|| (length - 24) / 11)
        .filter(|&n| cells(n) == length)
}

/// The check: the sum of number times weight, modulo 103. The START has weight 1, and place i has
/// weight i.
pub fn check(list: &[u8]) -> u8 {
    let sum: usize = list
        .iter()
        .enumerate()
        .map(|(i, &number)| usize::from(number) * i.max(1))
        .sum();
    (sum % 103) as u8
}

/// Refusal 10 or 13 of a symbol list, if there is one.
fn list_refused(list: &[u8]) -> Option<(u32, usize)> {
    if list.is_empty() || list.len() > LIMIT {
        return Some((10, list.len()));
    }
    list.iter()
        .enumerate()
        .position(|(i, &number)| !allowed_at(number, i))
        .map(|place| (13, place))
}

/// Whether a number is allowed at this place: a START at 0, a number up to 102 after it.
fn allowed_at(number: u8, place: usize) -> bool {
    if place == 0 {
        (103..=105).contains(&number)
    } else {
        number <= 102
    }
}

/// The place of refusal 19 in a text that document 01's encoder accepts: that of the first ź.
pub fn retired(text: &[u32]) -> Option<usize> {
    text.iter().position(|&point| point == FNC2)
}

/// The list with 96 for every 97: in sets A and B FNC3 for FNC2, so that the spelling has no ź.
pub fn without_97(list: &[u8]) -> Vec<u8> {
    let renamed = list.iter().map(|&number| match number {
        NUMBER_OF_FNC2 => 96,
        number => number,
    });
    renamed.collect()
}

/// The set that a START begins: 0 is set A, 1 is B, 2 is C.
pub fn set_of(start: u8) -> usize {
    usize::from(start - 103)
}

/// The current set after this data number.
pub fn set_after(set: usize, number: u8) -> usize {
    match (number, set) {
        (99, 0 | 1) => 2,
        (100, 0 | 2) => 1,
        (101, 1 | 2) => 0,
        _ => set,
    }
}

/// Adds the code points of a data number in a set.
fn spelled(set: usize, number: u8, text: &mut Vec<u32>) {
    let value = u32::from(number);
    match (set, number) {
        (2, 0..=99) => text.extend([0x30 + value / 10, 0x30 + value % 10]),
        (2, 100) | (0, 100) => text.push(SWITCH[1]),
        (2, 101) | (1, 101) => text.push(SWITCH[0]),
        (_, 102) => text.push(FNC1),
        (0, 0..=63) => text.push(0x20 + value),
        (0, 64..=95) => text.push(value - 64),
        (1, 0..=94) => text.push(0x20 + value),
        (1, 95) => text.push(0xF7),
        (_, 96) => text.push(0x17B),
        (_, NUMBER_OF_FNC2) => text.push(FNC2),
        (_, 98) => text.push(0x17D),
        (_, 99) => text.push(SWITCH[2]),
        _ => text.push(0x17C),
    }
}

/// The number of Shift in the sets A and B.
pub const SHIFT: u8 = 98;

/// Adds the bytes that a scanner sends for a data number in a set.
fn sent(set: usize, number: u8, bytes: &mut Vec<u8>) {
    match (set, number) {
        (2, 0..=99) => bytes.extend([b'0' + number / 10, b'0' + number % 10]),
        (0, 0..=63) | (1, 0..=95) => bytes.push(number + 32),
        (0, 64..=95) => bytes.push(number - 64),
        _ => {}
    }
}

/// The bytes of a good list as document 01 had them, where Shift sends nothing and changes nothing;
/// and whether there is a Shift in the list.
pub fn unshifted(list: &[u8]) -> (Vec<u8>, bool) {
    let (mut set, mut bytes, mut any) = (set_of(list[0]), Vec::new(), false);
    for &number in &list[1..] {
        sent(set, number, &mut bytes);
        any |= set < 2 && number == SHIFT;
        set = set_after(set, number);
    }
    (bytes, any)
}

/// The bytes of a good list after request 1: a Shift and a number below 96 are taken together, and
/// the number is read in the other of the sets A and B.
fn shifted(list: &[u8]) -> Vec<u8> {
    let (mut set, mut bytes, mut rest) = (set_of(list[0]), Vec::new(), &list[1..]);
    loop {
        match rest {
            [SHIFT, next @ 0..=95, after @ ..] if set < 2 => {
                sent(1 - set, *next, &mut bytes);
                rest = after;
            }
            [number, after @ ..] => {
                sent(set, *number, &mut bytes);
                set = set_after(set, *number);
                rest = after;
            }
            [] => return bytes,
        }
    }
}

/// The text with every Ź inside a pair moved ahead of that pair. The crate accepts the text.
pub fn moved(text: &[u32]) -> Vec<u32> {
    let (mut out, mut in_c, mut held) = (Vec::with_capacity(text.len()), false, None);
    for &point in text {
        if SWITCH.contains(&point) {
            in_c = point == SWITCH[2];
        }
        let digit = in_c && (0x30..0x3A).contains(&point);
        match (digit, held) {
            (true, None) => held = Some(point),
            (true, Some(first)) => {
                out.extend([first, point]);
                held = None;
            }
            _ => out.push(point),
        }
    }
    out
}

/// The patterns by number, and the numbers by pattern.
pub struct Model {
    patterns: [[u8; 11]; 106],
    numbers: Vec<Option<u8>>,
}

/// Eleven cells as a word, the first cell in the top bit; `None` if a cell is neither 0 nor 1.
fn word(block: &[u8]) -> Option<usize> {
    block.iter().try_fold(0, |word, &cell| {
        (cell <= 1).then(|| 2 * word + usize::from(cell))
    })
}

/// The refusal of a block that is no pattern: 16 if the number of its bar cells is odd, 12 if it is
/// even.
fn no_pattern(block: &[u8]) -> u32 {
    match block.iter().filter(|&&cell| cell == 1).count() % 2 {
        1 => 16,
        _ => 12,
    }
}

impl Model {
    /// The model with these patterns, in the order of their numbers.
    pub fn new(patterns: [[u8; 11]; 106]) -> Model {
        let mut numbers = vec![None; 2048];
        for (number, pattern) in (0..).zip(&patterns) {
            let place = word(pattern).expect("cells are 0 or 1");
            assert!(numbers[place].is_none(), "two numbers have one pattern");
            numbers[place] = Some(number);
        }
        Model { patterns, numbers }
    }

    /// The pattern of a number.
    pub fn pattern(&self, number: u8) -> &[u8; 11] {
        &self.patterns[usize::from(number)]
    }

    /// The number whose pattern these eleven cells are, if there is one.
    pub fn number(&self, block: &[u8]) -> Option<u8> {
        word(block).and_then(|word| self.numbers[word])
    }

    /// The patterns of these numbers and the stop; the numbers may be in any order.
    pub fn row(&self, blocks: &[u8]) -> Vec<u8> {
        let mut row: Vec<u8> = Vec::with_capacity(11 * blocks.len() + 13);
        for &number in blocks {
            row.extend(self.pattern(number));
        }
        row.extend(STOP);
        row
    }

    /// The row of a symbol list: its patterns, its check and the stop.
    pub fn row_of_list(&self, list: &[u8]) -> Vec<u8> {
        let mut blocks = list.to_vec();
        blocks.push(check(list));
        self.row(&blocks)
    }

    /// Draw, with the refusals 10, 13, 5 in this order.
    pub fn draw(&self, list: &[u8], room: usize) -> Said<u8> {
        match list_refused(list) {
            Some((number, second)) => refuse(number, second),
            None => in_room(room, list.len(), self.row_of_list(list)),
        }
    }

    /// Spell, with the refusals 10, 13, 5 in this order.
    pub fn spell(&self, list: &[u8], room: usize) -> Said<u32> {
        if let Some((number, second)) = list_refused(list) {
            return refuse(number, second);
        }
        let mut set = set_of(list[0]);
        let mut text = vec![SWITCH[set]];
        for &number in &list[1..] {
            spelled(set, number, &mut text);
            set = set_after(set, number);
        }
        in_room(room, text.len(), text)
    }

    /// Scan, with the refusals 10, 13, 5 in this order.
    pub fn scan(&self, list: &[u8], room: usize) -> Said<u8> {
        if let Some((number, second)) = list_refused(list) {
            return refuse(number, second);
        }
        let bytes = shifted(list);
        in_room(room, bytes.len(), bytes)
    }

    /// Read, with the refusals 10, 11, then 12 or 16 and 13 block by block from the left, then 15,
    /// 14, 5.
    pub fn read(&self, row: &[u8], room: usize) -> Said<u8> {
        let Some(n) = symbols_of(row.len()) else {
            return refuse(10, row.len());
        };
        if let Some(place) = row.iter().position(|&cell| cell > 1) {
            return refuse(11, place);
        }
        let mut list = Vec::with_capacity(n + 1);
        for (place, block) in row[..11 * (n + 1)].chunks(11).enumerate() {
            match self.number(block) {
                None => return refuse(no_pattern(block), place),
                Some(number) if !allowed_at(number, place) => return refuse(13, place),
                Some(number) => list.push(number),
            }
        }
        if let Some(wrong) = (0..13).find(|&i| row[11 * (n + 1) + i] != STOP[i]) {
            return refuse(15, 11 * (n + 1) + wrong);
        }
        let given = list.pop();
        let right = check(&list);
        if given != Some(right) {
            return refuse(14, usize::from(right));
        }
        in_room(room, n, list)
    }

    /// Pack, with the refusals 10, 11, 5 in this order.
    pub fn pack(&self, row: &[u8], room: usize) -> Said<u8> {
        let Some(n) = symbols_of(row.len()) else {
            return refuse(10, row.len());
        };
        if let Some(place) = row.iter().position(|&cell| cell > 1) {
            return refuse(11, place);
        }
        let mut record = head_of(version_for(n), n);
        record.extend(row.chunks(8).map(|eight| {
            eight
                .iter()
                .enumerate()
                .map(|(i, &cell)| cell * (128 >> i))
                .sum::<u8>()
        }));
        in_room(room, record.len(), record)
    }

    /// Unpack, with the refusals 20, 21, 22, 23, 5 in this order.
    pub fn unpack(&self, record: &[u8], room: usize) -> Said<u8> {
        let n = match counted(record) {
            Ok(n) => n,
            Err((number, second)) => return refuse(number, second),
        };
        if record.len() != record_bytes(n) {
            return refuse(22, record_bytes(n));
        }
        let mut row: Vec<u8> = record[head_of(record[0], n).len()..]
            .iter()
            .flat_map(|&byte| (0..8).map(move |i| (byte >> (7 - i)) & 1))
            .collect();
        if row[cells(n)..].contains(&1) {
            return refuse(23, record.len() - 1);
        }
        row.truncate(cells(n));
        in_room(room, row.len(), row)
    }
}
