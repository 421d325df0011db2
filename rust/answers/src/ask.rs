//! Asks the crate, and writes its answer as a line.
//!
//! Nothing here knows how Code 128 is encoded. The crate does not show the numbers of a row's
//! symbols: they are looked up by the patterns, which are cut out of the crate's own rows.
use barcoders::sym::code128::Code128;
use std::collections::HashMap;

/// The cells at the end of every row.
const STOP: [u8; 13] = [1, 1, 0, 0, 0, 1, 1, 1, 0, 1, 0, 1, 1];

/// Asks the crate; knows the number of each of its 106 patterns.
pub struct Asker {
    numbers: HashMap<Vec<u8>, usize>,
}

/// The crate's row, or the name of its error.
fn ask(text: &str) -> Result<Vec<u8>, String> {
    match Code128::new(text) {
        Ok(code) => Ok(code.encode()),
        Err(error) => Err(format!("{error:?}")),
    }
}

/// The place of the first ź (FNC2) of a text.
pub fn fnc2(text: &str) -> Option<usize> {
    text.chars().position(|c| c == 'ź')
}

/// The cells of a row as digits.
fn digits(row: &[u8]) -> String {
    row.iter().map(|cell| char::from(b'0' + cell)).collect()
}

impl Asker {
    /// Cuts the 106 patterns out of the crate's rows. The numbers 0 to 102 are in the second block
    /// of a row: Ć and two digits, then Ć and Ɓ, À or Ź. A START is the first block of its row.
    pub fn new() -> Asker {
        let mut numbers = HashMap::new();
        let mut learn = |text: &str, from: usize, number: usize| {
            let row = ask(text).unwrap();
            numbers.insert(row[from..from + 11].to_vec(), number);
        };
        for pair in 0..100 {
            learn(&format!("Ć{pair:02}"), 11, pair);
        }
        for (place, text) in ["ĆƁ", "ĆÀ", "ĆŹ"].iter().enumerate() {
            learn(text, 11, 100 + place);
        }
        for (place, text) in ["À", "Ɓ", "Ć"].iter().enumerate() {
            learn(text, 0, 103 + place);
        }
        assert_eq!(numbers.len(), 106, "two numbers with one pattern");
        Asker { numbers }
    }

    /// The numbers of a row's symbols, from the START to the check.
    fn read(&self, row: &[u8]) -> Vec<usize> {
        let (blocks, stop) = row.split_at(row.len() - STOP.len());
        assert_eq!(stop, STOP, "a row without the stop");
        blocks.chunks(11).map(|block| self.numbers[block]).collect()
    }

    /// The numbers of a text's symbols, from the START to the check, or the name of the crate's
    /// error.
    pub fn symbols(&self, text: &str) -> Result<Vec<usize>, String> {
        ask(text).map(|row| self.read(&row))
    }

    /// Whether the crate accepts a text.
    pub fn accepts(&self, text: &str) -> bool {
        ask(text).is_ok()
    }

    /// The cells of an accepted text's row as digits.
    pub fn cells(&self, text: &str) -> String {
        digits(&ask(text).unwrap())
    }

    /// The place of the first ź of a text that the crate accepts. This library refuses it by 19.
    pub fn retired(&self, text: &str) -> Option<usize> {
        fnc2(text).filter(|_| self.accepts(text))
    }

    /// The line of the list: `19` and the place of the first ź if the crate accepts the text and it
    /// has one, otherwise the crate's answer.
    pub fn listed(&self, text: &str) -> String {
        match self.retired(text) {
            Some(place) => format!("19 {place}"),
            None => self.line(text),
        }
    }

    /// The crate's answer as a line: the name of its error, or the row's cells and then the numbers
    /// of its symbols and of its check.
    pub fn line(&self, text: &str) -> String {
        match ask(text) {
            Err(name) => name,
            Ok(row) => {
                let numbers = self.read(&row);
                let numbers: Vec<String> = numbers.iter().map(usize::to_string).collect();
                format!("{} {}", digits(&row), numbers.join(" "))
            }
        }
    }
}
