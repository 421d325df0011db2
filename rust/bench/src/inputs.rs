//! The inputs of times and tests: random labels of exactly n symbols, and random EAN-13 numbers,
//! the same in every run.
use slatmonief::ean13::write_str;
use slatmonief::{draw_symbols, pack_row, spell_symbols};

/// A small generator of random numbers (SplitMix64), so that every run has the same inputs.
pub struct Numbers(u64);

impl Numbers {
    /// The generator of a seed.
    pub fn new(seed: u64) -> Numbers {
        Numbers(seed)
    }

    /// The next 64 bits.
    fn next(&mut self) -> u64 {
        self.0 = self.0.wrapping_add(0x9E37_79B9_7F4A_7C15);
        let mut z = self.0;
        z = (z ^ z >> 30).wrapping_mul(0xBF58_476D_1CE4_E5B9);
        z = (z ^ z >> 27).wrapping_mul(0x94D0_49BB_1331_11EB);
        z ^ z >> 31
    }

    /// A number below `end`.
    pub fn below(&mut self, end: usize) -> usize {
        (self.next() % end as u64) as usize
    }

    /// A byte below `end`.
    pub fn byte(&mut self, end: u8) -> u8 {
        self.below(usize::from(end)) as u8
    }
}

/// Which symbols a label has.
#[derive(Clone, Copy, Debug, PartialEq, Eq)]
pub enum Kind {
    /// Set A, the numbers 0 to 95.
    A,
    /// Set B, the numbers 0 to 95.
    B,
    /// Set C, the pairs 0 to 99.
    C,
    /// Any START and then any data numbers but 97, so with function symbols and switches. 97 is
    /// FNC2 in sets A and B, which encode refuses.
    Mixed,
    /// Set A or B; every fourth data number is 98, a Shift, and the others are below 96.
    Shift,
}

impl Kind {
    /// Its name in a table.
    pub fn name(self) -> &'static str {
        match self {
            Kind::A => "A",
            Kind::B => "B",
            Kind::C => "C",
            Kind::Mixed => "mixed",
            Kind::Shift => "shift",
        }
    }

    /// The START, and the end of the range of the data numbers.
    fn numbers(self, random: &mut Numbers) -> (u8, u8) {
        match self {
            Kind::A => (103, 96),
            Kind::B => (104, 96),
            Kind::C => (105, 100),
            Kind::Mixed => (103 + random.byte(3), 103),
            Kind::Shift => (103 + random.byte(2), 96),
        }
    }
}

/// One label in every form that a job takes.
pub struct Label {
    /// The symbol list.
    pub symbols: Vec<u8>,
    /// Its text, for the crate.
    pub text: String,
    /// Its text as code points.
    pub points: Vec<u32>,
    /// Its row.
    pub row: Vec<u8>,
    /// Its row record.
    pub record: Vec<u8>,
}

/// A symbol list of exactly n symbols.
pub fn list(random: &mut Numbers, kind: Kind, n: usize) -> Vec<u8> {
    let (start, end) = kind.numbers(random);
    let mut symbols = vec![start];
    symbols.extend((1..n).map(|place| match (kind, place % 4) {
        (Kind::Shift, 0) => 98,
        (Kind::Mixed, _) => Some(random.byte(end)).filter(|&s| s != 97).unwrap_or(96),
        _ => random.byte(end),
    }));
    symbols
}

/// A label in all its forms.
pub fn label(symbols: Vec<u8>) -> Label {
    let text = spell_symbols(&symbols).expect("a symbol list");
    let points = text.chars().map(u32::from).collect();
    let row = draw_symbols(&symbols).expect("a symbol list");
    let record = pack_row(&row).expect("a row");
    Label {
        symbols,
        text,
        points,
        row,
        record,
    }
}

/// `count` random labels of exactly n symbols.
pub fn labels(kind: Kind, n: usize, count: usize) -> Vec<Label> {
    let mut random = Numbers::new(1000 * kind as u64 + n as u64);
    (0..count)
        .map(|_| label(list(&mut random, kind, n)))
        .collect()
}

/// One EAN-13 number in every form that a job takes.
pub struct Article {
    /// Its thirteen digits.
    pub text: String,
    /// Its row.
    pub row: Vec<u8>,
}

/// The EAN-13 number with these first twelve digits, in all its forms.
pub fn article(twelve: &str) -> Article {
    let row = write_str(twelve).expect("twelve digits");
    let text = slatmonief::ean13::read_row(&row).expect("a row");
    Article { text, row }
}

/// `count` random EAN-13 numbers, with any leading digit or with this one.
pub fn articles(leading: Option<u8>, count: usize) -> Vec<Article> {
    let mut random = Numbers::new(13);
    let mut number = || {
        let mut digits: Vec<u8> = (0..12).map(|_| b'0' + random.byte(10)).collect();
        digits[0] = leading.map_or(digits[0], |leading| b'0' + leading);
        article(std::str::from_utf8(&digits).expect("digits"))
    };
    (0..count).map(|_| number()).collect()
}
