//! The patterns as a Rust programmer would keep them: static tables, which the compiler makes from
//! one word for each pattern.

/// The most symbols that a list has.
pub const MOST: usize = 4000;

/// The entry of `SYMBOLS` for a word that is not a pattern.
pub const NONE: u8 = 255;

/// The patterns of the 106 symbols, 1 for a bar, with the first cell in the top bit of eleven.
#[rustfmt::skip]
const WORDS: [u16; 106] = [
    0b11011001100, 0b11001101100, 0b11001100110, 0b10010011000, 0b10010001100, 0b10001001100,
    0b10011001000, 0b10011000100, 0b10001100100, 0b11001001000, 0b11001000100, 0b11000100100,
    0b10110011100, 0b10011011100, 0b10011001110, 0b10111001100, 0b10011101100, 0b10011100110,
    0b11001110010, 0b11001011100, 0b11001001110, 0b11011100100, 0b11001110100, 0b11101101110,
    0b11101001100, 0b11100101100, 0b11100100110, 0b11101100100, 0b11100110100, 0b11100110010,
    0b11011011000, 0b11011000110, 0b11000110110, 0b10100011000, 0b10001011000, 0b10001000110,
    0b10110001000, 0b10001101000, 0b10001100010, 0b11010001000, 0b11000101000, 0b11000100010,
    0b10110111000, 0b10110001110, 0b10001101110, 0b10111011000, 0b10111000110, 0b10001110110,
    0b11101110110, 0b11010001110, 0b11000101110, 0b11011101000, 0b11011100010, 0b11011101110,
    0b11101011000, 0b11101000110, 0b11100010110, 0b11101101000, 0b11101100010, 0b11100011010,
    0b11101111010, 0b11001000010, 0b11110001010, 0b10100110000, 0b10100001100, 0b10010110000,
    0b10010000110, 0b10000101100, 0b10000100110, 0b10110010000, 0b10110000100, 0b10011010000,
    0b10011000010, 0b10000110100, 0b10000110010, 0b11000010010, 0b11001010000, 0b11110111010,
    0b11000010100, 0b10001111010, 0b10100111100, 0b10010111100, 0b10010011110, 0b10111100100,
    0b10011110100, 0b10011110010, 0b11110100100, 0b11110010100, 0b11110010010, 0b11011011110,
    0b11011110110, 0b11110110110, 0b10101111000, 0b10100011110, 0b10001011110, 0b10111101000,
    0b10111100010, 0b11110101000, 0b11110100010, 0b10111011110, 0b10111101110, 0b11101011110,
    0b11110101110, 0b11010000100, 0b11010010000, 0b11010011100,
];

/// The thirteen cells of the stop.
pub static STOP: [u8; 13] = [1, 1, 0, 0, 0, 1, 1, 1, 0, 1, 0, 1, 1];

/// The words as a table, for the reader that searches.
pub static PATTERNS: [u16; 106] = WORDS;

/// The cells of the patterns, eleven for each symbol, for the writer.
pub static CHARS: [u8; 1166] = cells();

/// The symbol of each word of eleven bits, or `NONE`: for the reader with a table.
pub static SYMBOLS: [u8; 2048] = symbols();

/// Makes `CHARS` from the words; the compiler runs it.
const fn cells() -> [u8; 1166] {
    let mut cells = [0; 1166];
    let mut i = 0;
    while i < 1166 {
        cells[i] = (WORDS[i / 11] >> (10 - i % 11) & 1) as u8;
        i += 1;
    }
    cells
}

/// Makes `SYMBOLS` from the words; the compiler runs it.
const fn symbols() -> [u8; 2048] {
    let mut symbols = [NONE; 2048];
    let mut s = 0;
    while s < 106 {
        symbols[WORDS[s] as usize] = s as u8;
        s += 1;
    }
    symbols
}
