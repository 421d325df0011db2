//! How a text parses, character by character, in plain Rust. It is tested beside the library, not
//! proved. Two things need it: the words of a refusal, and a text that is longer than any label,
//! which is answered here so that nothing has to be reserved for it.
//!
//! The characters are those of `CharacterSet` and `parse` of barcoders, as ranges.
use crate::MOST_SYMBOLS;
use Set::{A, B, C};
use State::{Free, Held, Start};

/// ź, which is FNC2: it parses in sets A and B, and is retired.
const FNC2: char = 'ź';

/// A code set.
#[derive(Clone, Copy, Debug, PartialEq, Eq, Hash)]
pub(crate) enum Set {
    A,
    B,
    C,
}

/// The parser between two characters: before the START, free in a set, or in set C with the first
/// digit of a pair held.
#[derive(Clone, Copy, Debug, PartialEq, Eq, Hash)]
pub(crate) enum State {
    Start,
    Free(Set),
    Held,
}

impl State {
    /// The state after a character, and how many symbols it gives: none for the first digit of a
    /// pair, otherwise one. Nothing if parsing stops at it.
    fn step(self, c: char) -> Option<(State, usize)> {
        match (self, c) {
            (Free(A), '\0'..='_') | (Free(B), ' '..='~' | '÷') => Some((self, 1)),
            (Free(C), '0'..='9') => Some((Held, 0)),
            (Held, '0'..='9') => Some((Free(C), 1)),
            (Start | Free(B | C), 'À') => Some((Free(A), 1)),
            (Start | Free(A | C), 'Ɓ') => Some((Free(B), 1)),
            (Start | Free(A | B), 'Ć') => Some((Free(C), 1)),
            (Free(_) | Held, 'Ź') => Some((self, 1)),
            (Free(A | B), 'Ż' | FNC2 | 'ż' | 'Ž') => Some((self, 1)),
            _ => None,
        }
    }

    /// The state after characters at none of which parsing stops.
    pub(crate) fn after(parsed: impl Iterator<Item = char>) -> State {
        parsed.fold(Start, |state, c| {
            state.step(c).map_or(state, |(next, _)| next)
        })
    }
}

/// What [`crate::encode`] answers to a text of at least two UTF-8 bytes if there is room for the
/// row: 0 and the number of symbols, or the number of the refusal and its second number. It goes
/// over the text once and reserves nothing.
pub(crate) fn parse(text: &str) -> (u32, usize) {
    let mut state = Start;
    let (mut length, mut symbols, mut retired) = (0, 0, None);
    for c in text.chars() {
        let Some((next, given)) = state.step(c) else {
            return (3, length);
        };
        if c == FNC2 {
            retired = retired.or(Some(length));
        }
        state = next;
        symbols += given;
        length += 1;
    }
    match (state, retired) {
        (Start | Held, _) => (3, length),
        (Free(_), Some(place)) => (19, place),
        (Free(_), None) if symbols > MOST_SYMBOLS => (4, symbols),
        (Free(_), None) => (0, symbols),
    }
}

#[cfg(test)]
mod tests;
