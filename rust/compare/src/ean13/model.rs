//! A plain model of EAN-13, a writer and a reader, written from what is known of the GS1 General
//! Specifications, which were not at hand. It is given nothing: neither the crate's tables nor the
//! library's.
//!
//! A digit has four elements, alternately space and bar, which are seven cells wide together. The
//! widths are those of number set A. Set C has bars for the spaces of set A, and set B is set C
//! from right to left. The writer draws cells by these rules. The reader measures the widths of all
//! elements of a row and looks for those, so that the two share no table of cells.
use crate::model::{in_room, refuse, Said};

/// The cells of a row: three guards of 3, 5 and 3 cells, and twelve digits of 7.
pub const CELLS: usize = 95;
/// The digits of a number with its check.
pub const DIGITS: usize = 13;
/// The drawn digits: all but the leading one.
pub const BLOCKS: usize = 12;
/// The guards at both ends.
pub const END: [u8; 3] = [1, 0, 1];
/// The guard in the middle.
pub const MIDDLE: [u8; 5] = [0, 1, 0, 1, 0];

/// The widths of each digit's elements in set A: space, bar, space, bar.
const WIDTHS: [[usize; 4]; 10] = [
    [3, 2, 1, 1],
    [2, 2, 2, 1],
    [2, 1, 2, 2],
    [1, 4, 1, 1],
    [1, 1, 3, 2],
    [1, 2, 3, 1],
    [1, 1, 1, 4],
    [1, 3, 1, 2],
    [1, 2, 1, 3],
    [3, 1, 1, 2],
];

/// The sets of the six digits on the left, by the leading digit, which they stand for.
const LEADING: [&[u8; 6]; 10] = [
    b"AAAAAA", b"AABABB", b"AABBAB", b"AABBBA", b"ABAABB", b"ABBAAB", b"ABBBAA", b"ABABAB",
    b"ABABBA", b"ABBABA",
];

/// A number set.
#[derive(Clone, Copy, Debug, PartialEq, Eq)]
pub enum Set {
    /// On the left; an odd number of bar cells.
    A,
    /// On the left; an even number of bar cells.
    B,
    /// On the right.
    C,
}

/// Every digit in every set.
pub fn every() -> impl Iterator<Item = (Set, u8)> {
    SETS.into_iter()
        .flat_map(|set| (0..10).map(move |digit| (set, digit)))
}

/// Every number set.
pub const SETS: [Set; 3] = [Set::A, Set::B, Set::C];

/// The seven cells of a digit in a set.
pub fn pattern(set: Set, digit: u8) -> [u8; 7] {
    let mut cells = [0; 7];
    let [first, second, third, _] = WIDTHS[usize::from(digit)];
    cells[first..first + second].fill(1);
    cells[first + second + third..].fill(1);
    if set != Set::A {
        cells = cells.map(|cell| 1 - cell);
    }
    if set == Set::B {
        cells.reverse();
    }
    cells
}

/// The set of each drawn digit, from left to right.
pub fn sets(leading: u8) -> [Set; BLOCKS] {
    let left = LEADING[usize::from(leading)];
    std::array::from_fn(|block| match left.get(block) {
        Some(b'A') => Set::A,
        Some(_) => Set::B,
        None => Set::C,
    })
}

/// The place of the first cell of a drawn digit.
pub fn place(block: usize) -> usize {
    let middle = if block < 6 { 0 } else { MIDDLE.len() };
    END.len() + 7 * block + middle
}

/// The check of twelve digits: with it the sum is a multiple of ten, where the digits weigh 3 and 1
/// by turns, from right to left.
pub fn check(digits: &[u8]) -> u8 {
    let weights = [3, 1].into_iter().cycle();
    let sum: u32 = digits
        .iter()
        .rev()
        .zip(weights)
        .map(|(&digit, weight)| weight * u32::from(digit))
        .sum();
    (sum.next_multiple_of(10) - sum) as u8
}

/// The row of twelve digits, each in its set, between the guards.
pub fn drawn(blocks: &[(Set, u8); BLOCKS]) -> Vec<u8> {
    let half = |digits: &[(Set, u8)]| {
        let cells = digits.iter().map(|&(set, digit)| pattern(set, digit));
        cells.collect::<Vec<_>>().concat()
    };
    let (left, right) = blocks.split_at(6);
    [&END[..], &half(left), &MIDDLE, &half(right), &END].concat()
}

/// The drawn digits of a number whose first twelve digits these are, each in its set.
pub fn blocks(twelve: &[u8]) -> [(Set, u8); BLOCKS] {
    let (sets, check) = (sets(twelve[0]), check(twelve));
    std::array::from_fn(|block| {
        let digit = twelve.get(block + 1).copied().unwrap_or(check);
        (sets[block], digit)
    })
}

/// The row of the number whose first twelve digits these are.
pub fn row(twelve: &[u8]) -> Vec<u8> {
    drawn(&blocks(twelve))
}

/// The values of ASCII digits.
pub fn values(text: &[u8]) -> Vec<u8> {
    text.iter().map(|byte| byte - b'0').collect()
}

/// ASCII digits of these values.
pub fn ascii(digits: &[u8]) -> Vec<u8> {
    digits.iter().map(|digit| digit + b'0').collect()
}

/// Write, with the refusals 30, 31, 32, 5 in this order.
pub fn write(text: &[u8], room: usize) -> Said<u8> {
    if !matches!(text.len(), 12 | 13) {
        return refuse(30, text.len());
    }
    if let Some(place) = text.iter().position(|byte| !byte.is_ascii_digit()) {
        return refuse(31, place);
    }
    let (twelve, given) = (values(&text[..12]), values(&text[12..]));
    let right = check(&twelve);
    if given.iter().any(|&digit| digit != right) {
        return refuse(32, usize::from(right));
    }
    in_room(room, CELLS, row(&twelve))
}

/// The widths of a row's elements, if it begins with a bar and has no other cells than 0 and 1.
fn widths(row: &[u8]) -> Option<Vec<usize>> {
    if row.first() != Some(&1) || row.iter().any(|&cell| cell > 1) {
        return None;
    }
    let elements = row.chunk_by(|left, right| left == right);
    Some(elements.map(<[u8]>::len).collect())
}

/// The digit on the left with these widths, and whether it is in set A or B. Set B has the widths
/// of set A from right to left.
fn left(element: &[usize]) -> Option<(u8, u8)> {
    let find = |set: u8, digit: u8| {
        let [a, b, c, d] = WIDTHS[usize::from(digit)];
        let own = if set == b'A' {
            [a, b, c, d]
        } else {
            [d, c, b, a]
        };
        (own == element).then_some((set, digit))
    };
    b"AB"
        .iter()
        .find_map(|&set| (0..10).find_map(|digit| find(set, digit)))
}

/// The digit on the right with these widths.
fn right(element: &[usize]) -> Option<u8> {
    (0..10).find(|&digit| WIDTHS[usize::from(digit)] == element)
}

/// The thirteen digits of a row, the check as it is drawn: right or wrong.
pub fn unchecked(row: &[u8]) -> Option<Vec<u8>> {
    let widths = widths(row).filter(|widths| widths.len() == 59 && row.len() == CELLS)?;
    let guards = [&widths[..3], &widths[27..32], &widths[56..]].concat();
    if guards.iter().any(|&width| width != 1) {
        return None;
    }
    let lefts: Vec<(u8, u8)> = widths[3..27].chunks(4).map(left).collect::<Option<_>>()?;
    let rights: Vec<u8> = widths[32..56].chunks(4).map(right).collect::<Option<_>>()?;
    let (sets, lefts): (Vec<u8>, Vec<u8>) = lefts.into_iter().unzip();
    let leading = LEADING.iter().position(|own| own[..] == sets)?;
    Some([&[leading as u8], &lefts[..], &rights].concat())
}

/// The thirteen digits of a row that is written for some text.
pub fn digits(row: &[u8]) -> Option<Vec<u8>> {
    unchecked(row).filter(|digits| check(&digits[..12]) == digits[12])
}

/// Read, with the refusals 33, 5 in this order.
pub fn read(row: &[u8], room: usize) -> Said<u8> {
    match digits(row) {
        None => refuse(33, 0),
        Some(digits) => in_room(room, DIGITS, ascii(&digits)),
    }
}
