//! EAN-13 in plain, safe Rust: write and read into a lent buffer, over static tables, with all of
//! the library's refusals. The public functions are never inlined, as those of the library.
use crate::plain::{answer, Answer};

/// The cells of a row.
const CELLS: usize = 95;
/// The digits of a number, its check among them.
const DIGITS: usize = 13;
/// The guard at both ends.
const END: [u8; 3] = [1, 0, 1];
/// The guard in the middle.
const MIDDLE: [u8; 5] = [0, 1, 0, 1, 0];
/// The entry of `NUMBERS` for a word that is no digit's.
const NONE: u8 = 255;

/// The digits in set A, 1 for a bar, with the first cell in the top bit of seven.
const WORDS: [u8; 10] = [
    0b0001101, 0b0011001, 0b0010011, 0b0111101, 0b0100011, 0b0110001, 0b0101111, 0b0111011,
    0b0110111, 0b0001011,
];

/// The words of the digits in the sets A, B and C.
const SETS: [[u8; 10]; 3] = [WORDS, others(true), others(false)];

/// The cells of the digits in each set.
static ENCODINGS: [[[u8; 7]; 10]; 3] = [cells(SETS[0]), cells(SETS[1]), cells(SETS[2])];

/// The digit of each word of seven bits in each set, or `NONE`: for the reader with a table.
static NUMBERS: [[u8; 128]; 3] = [numbers(SETS[0]), numbers(SETS[1]), numbers(SETS[2])];

/// The sets of the six digits on the left, for each leading digit.
static PARITY: [[u8; 6]; 10] = [
    [0, 0, 0, 0, 0, 0],
    [0, 0, 1, 0, 1, 1],
    [0, 0, 1, 1, 0, 1],
    [0, 0, 1, 1, 1, 0],
    [0, 1, 0, 0, 1, 1],
    [0, 1, 1, 0, 0, 1],
    [0, 1, 1, 1, 0, 0],
    [0, 1, 0, 1, 0, 1],
    [0, 1, 0, 1, 1, 0],
    [0, 1, 1, 0, 1, 0],
];

/// Makes the words of set C, bars for the spaces of set A, or mirrored those of set B; the compiler
/// runs it.
const fn others(mirrored: bool) -> [u8; 10] {
    let mut words = [0; 10];
    let mut i = 0;
    while i < 10 {
        let word = !WORDS[i] & 0b1111111;
        words[i] = if mirrored {
            word.reverse_bits() >> 1
        } else {
            word
        };
        i += 1;
    }
    words
}

/// Makes the cells of ten words; the compiler runs it.
const fn cells(words: [u8; 10]) -> [[u8; 7]; 10] {
    let mut cells = [[0; 7]; 10];
    let mut i = 0;
    while i < 70 {
        cells[i / 7][i % 7] = words[i / 7] >> (6 - i % 7) & 1;
        i += 1;
    }
    cells
}

/// Makes a table of the digits of ten words; the compiler runs it.
const fn numbers(words: [u8; 10]) -> [u8; 128] {
    let mut numbers = [NONE; 128];
    let mut i = 0;
    while i < 10 {
        numbers[words[i] as usize] = i as u8;
        i += 1;
    }
    numbers
}

/// The digits of a number to its row.
#[inline(never)]
pub fn write(text: &[u8], row: &mut [u8]) -> Answer {
    answer(try_write(text, row))
}

/// A row to the thirteen digits of its number, with a search of the sets.
#[inline(never)]
pub fn read(row: &[u8], text: &mut [u8]) -> Answer {
    answer(try_read(row, text, search))
}

/// A row to the thirteen digits of its number, with a table of all words of seven bits: how fast a
/// reader could be.
#[inline(never)]
pub fn table_read(row: &[u8], text: &mut [u8]) -> Answer {
    answer(try_read(row, text, look_up))
}

/// The check of twelve digits.
fn check(digits: &[u8]) -> u8 {
    let pairs = digits.chunks_exact(2);
    let sum: u8 = pairs.map(|pair| pair[0] + 3 * pair[1]).sum();
    (10 - sum % 10) % 10
}

/// Write, with its tests in their order: 30, 31, 32, 5.
fn try_write(text: &[u8], row: &mut [u8]) -> Result<usize, Answer> {
    if !matches!(text.len(), 12 | DIGITS) {
        return Err((30, text.len()));
    }
    if let Some(at) = text.iter().position(|byte| !byte.is_ascii_digit()) {
        return Err((31, at));
    }
    let mut digits = [0; DIGITS];
    for (digit, byte) in digits.iter_mut().zip(text) {
        *digit = byte - b'0';
    }
    let right = check(&digits[..12]);
    if text.len() == DIGITS && digits[12] != right {
        return Err((32, usize::from(right)));
    }
    digits[12] = right;
    draw(&digits, row.get_mut(..CELLS).ok_or((5, CELLS))?);
    Ok(CELLS)
}

/// Draws thirteen digits.
fn draw(digits: &[u8; DIGITS], row: &mut [u8]) {
    let sets = &PARITY[usize::from(digits[0])];
    row[..3].copy_from_slice(&END);
    let left = row[3..45].chunks_exact_mut(7).zip(&digits[1..7]);
    for ((cells, &digit), &set) in left.zip(sets) {
        cells.copy_from_slice(&ENCODINGS[usize::from(set)][usize::from(digit)]);
    }
    row[45..50].copy_from_slice(&MIDDLE);
    for (cells, &digit) in row[50..92].chunks_exact_mut(7).zip(&digits[7..]) {
        cells.copy_from_slice(&ENCODINGS[2][usize::from(digit)]);
    }
    row[92..].copy_from_slice(&END);
}

/// Finds the digit whose cells in a set these are, one by one.
fn search(set: usize, block: &[u8]) -> Option<u8> {
    let mut digits = ENCODINGS[set].iter().zip(0..);
    digits
        .find(|(cells, _)| cells[..] == *block)
        .map(|(_, digit)| digit)
}

/// Finds the digit by the word of its cells in the table. A cell may be neither 0 nor 1, so the
/// cells are compared too.
fn look_up(set: usize, block: &[u8]) -> Option<u8> {
    let bits = block.iter().map(|&cell| usize::from(cell & 1));
    let digit = NUMBERS[set][bits.fold(0, |word, bit| 2 * word + bit) % 128];
    (digit != NONE && ENCODINGS[set][usize::from(digit)][..] == *block).then_some(digit)
}

/// The digits of a row of 95 cells, if their check is right.
fn digits_of(row: &[u8], find: impl Fn(usize, &[u8]) -> Option<u8>) -> Option<[u8; DIGITS]> {
    if row[..3] != END || row[45..50] != MIDDLE || row[92..] != END {
        return None;
    }
    let (mut digits, mut sets) = ([0; DIGITS], [0; 6]);
    let left = row[3..45].chunks_exact(7).zip(&mut digits[1..7]);
    for ((block, digit), set) in left.zip(&mut sets) {
        (*set, *digit) = match find(0, block) {
            Some(digit) => (0, digit),
            None => (1, find(1, block)?),
        };
    }
    for (block, digit) in row[50..92].chunks_exact(7).zip(&mut digits[7..]) {
        *digit = find(2, block)?;
    }
    digits[0] = PARITY.iter().position(|own| *own == sets)? as u8;
    (check(&digits[..12]) == digits[12]).then_some(digits)
}

/// Read, with its tests in their order: 33, 5.
fn try_read(
    row: &[u8],
    text: &mut [u8],
    find: impl Fn(usize, &[u8]) -> Option<u8>,
) -> Result<usize, Answer> {
    let digits = match row.len() {
        CELLS => digits_of(row, find).ok_or((33, 0))?,
        _ => return Err((33, 0)),
    };
    let text = text.get_mut(..DIGITS).ok_or((5, DIGITS))?;
    for (to, digit) in text.iter_mut().zip(digits) {
        *to = b'0' + digit;
    }
    Ok(DIGITS)
}
