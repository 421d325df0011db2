//! The plain parser beside the library: the same answer to every text.
use super::{parse, Set, State};
use crate::{encode, encode_str, MOST_CELLS, MOST_CODE_POINTS, MOST_SYMBOLS};
use std::format;
use std::string::String;
use std::vec;
use std::vec::Vec;

/// The states in which a character is looked at, each with a text that leads to it.
const STATES: [(State, &str); 5] = [
    (State::Start, ""),
    (State::Free(Set::A), "À"),
    (State::Free(Set::B), "Ɓ"),
    (State::Free(Set::C), "Ć"),
    (State::Held, "Ć1"),
];

/// The library, which counts the texts that it was asked about, by its answer.
struct Beside {
    row: Vec<u8>,
    points: Vec<u32>,
    accepted: usize,
    refused: [usize; 20],
}

impl Beside {
    fn new() -> Beside {
        Beside {
            row: vec![0; MOST_CELLS],
            points: Vec::new(),
            accepted: 0,
            refused: [0; 20],
        }
    }

    /// Compares the two answers to a text, and returns them.
    fn same(&mut self, text: &str) -> (u32, usize) {
        self.points.clear();
        self.points.extend(text.chars().map(u32::from));
        // A code point gives at most one symbol.
        let room = 11 * (self.points.len().min(MOST_SYMBOLS) + 1) + 13;
        let answer = match encode(&self.points, &mut self.row[..room]) {
            Ok(n) => {
                self.accepted += 1;
                (0, n)
            }
            Err(refusal) => {
                self.refused[refusal.number() as usize] += 1;
                (refusal.number(), refusal.second())
            }
        };
        if text.len() < 2 {
            assert_eq!(answer, (2, 0), "{text:?}");
        } else {
            assert!(parse(text) == answer, "{:?}", shortened(text));
        }
        answer
    }

    /// Compares the two answers to a text, and with them that of `encode_str`, which also has to
    /// find the place in bytes and the character.
    fn same_as_str(&mut self, text: &str) -> (u32, usize) {
        let answer = self.same(text);
        match encode_str(text) {
            Ok(row) => assert_eq!((0, (row.len() - 24) / 11), answer),
            Err(refusal) => {
                assert_eq!((refusal.number(), refusal.second()), answer);
                let place = (answer.0 != 4).then_some(answer.1);
                let before = refusal
                    .offset()
                    .map(|offset| text[..offset].chars().count());
                assert_eq!(before, place);
                let character = place.and_then(|place| text.chars().nth(place));
                assert_eq!(refusal.character(), character);
            }
        }
        answer
    }

    /// How many texts were accepted, and refused by 2, 3, 19 and 4.
    fn counts(&self) -> (usize, [usize; 4]) {
        let refused = [2, 3, 19, 4].map(|number| self.refused[number]);
        (self.accepted, refused)
    }
}

/// The first hundred characters of a text, for a message.
fn shortened(text: &str) -> String {
    text.chars().take(100).collect()
}

/// Random numbers (SplitMix64), the same in each run.
struct Random(u64);

impl Random {
    /// A number below `end`, which is not 0.
    fn below(&mut self, end: usize) -> usize {
        self.0 = self.0.wrapping_add(0x9E37_79B9_7F4A_7C15);
        let a = (self.0 ^ (self.0 >> 30)).wrapping_mul(0xBF58_476D_1CE4_E5B9);
        let b = (a ^ (a >> 27)).wrapping_mul(0x94D0_49BB_1331_11EB);
        ((u128::from(b ^ (b >> 31)) * end as u128) >> 64) as usize
    }

    fn pick<'a>(&mut self, list: &[&'a str]) -> &'a str {
        list[self.below(list.len())]
    }
}

/// Asks about a text and all its continuations by up to `depth` of the letters. With `pruned`, a
/// text at whose characters parsing stops is not continued: all that follow are refused there.
fn all(beside: &mut Beside, letters: &[char], text: &mut String, depth: usize, pruned: bool) {
    let answer = beside.same(text);
    let stops = answer.0 == 3 && answer.1 < text.chars().count();
    if depth == 0 || (pruned && stops) {
        return;
    }
    for &letter in letters {
        text.push(letter);
        all(beside, letters, text, depth - 1, pruned);
        text.pop();
    }
}

/// Every text of up to five code points over ten letters, and those of six that parse up to the
/// last one.
#[test]
fn all_short_texts() {
    let letters = ['À', 'Ɓ', 'Ć', 'Ź', 'ź', 'Ž', 'A', 'a', '1', 'é'];
    let mut beside = Beside::new();
    all(&mut beside, &letters, &mut String::new(), 5, false);
    assert_eq!(beside.counts(), (4_078, [4, 104_259, 2_770, 0]));
    let mut beside = Beside::new();
    all(&mut beside, &letters, &mut String::new(), 6, true);
    assert_eq!(beside.counts(), (24_467, [4, 22_868, 22_962, 0]));
}

/// Every character below U+0250 in every state, alone and before a digit; no other character has a
/// number in any set.
#[test]
fn every_character_in_every_state() {
    let mut beside = Beside::new();
    for (state, text) in STATES {
        assert_eq!(State::after(text.chars()), state);
        for c in '\0'..'\u{250}' {
            beside.same(&format!("{text}{c}"));
            beside.same(&format!("{text}{c}1"));
        }
        assert!(('\u{250}'..=char::MAX).all(|c| state.step(c).is_none()));
    }
    assert_eq!(beside.counts(), (437, [128, 5_351, 4, 0]));
}

/// A START, and then this piece over and over, up to n symbols; a piece has `each` symbols.
fn label(start: &str, piece: &str, each: usize, n: usize) -> String {
    format!("{start}{}", piece.repeat((n - 1) / each))
}

/// Labels on both sides of the limit of 4,000 symbols, as they are and with something after them.
#[test]
fn at_the_limit() {
    let mut beside = Beside::new();
    for n in 3_998..=4_002 {
        for (start, piece, each) in [
            ("À", "\u{1}", 1),
            ("Ɓ", "a", 1),
            ("Ć", "37", 1),
            ("ĆŹ", "37", 1),
            ("Ć", "3Ź7", 2),
            ("Ć", "3ŹŹŹ7", 4),
            ("Ɓ", "Ć12ÀAŹƁŽ", 7),
        ] {
            let text = label(start, piece, each, n);
            for end in ["", "1", "12", "ź", "é", "Ɓ", "Ɓź", "ƁźĆ1", "À1Ɓ2Ć3"] {
                beside.same_as_str(&format!("{text}{end}"));
            }
        }
    }
    assert_eq!(beside.counts(), (58, [0, 165, 40, 52]));
}

/// A random text of this many code points or a few more, which parses if it has no ź.
fn random_text(random: &mut Random, length: usize) -> String {
    let mut set = random.pick(&["À", "Ɓ", "Ć"]);
    let (mut text, mut points) = (String::from(set), 1);
    while points < length {
        let piece = match (random.below(30), set) {
            (0, "À") => random.pick(&["Ɓ", "Ć"]),
            (0, "Ɓ") => random.pick(&["À", "Ć"]),
            (0, _) => random.pick(&["À", "Ɓ"]),
            (_, "Ć") => random.pick(&["12", "07", "99", "3Ź7", "Ź", "0ŹŹ5"]),
            (1, _) if random.below(800) == 0 => "ź",
            (_, "À") => random.pick(&["A", " ", "_", "\0", "\u{1F}", "Ź", "Ż", "ż", "Ž", "7"]),
            (_, _) => random.pick(&["A", "a", "~", "÷", "`", "Ź", "Ż", "ż", "Ž", "7"]),
        };
        if matches!(piece, "À" | "Ɓ" | "Ć") {
            set = piece;
        }
        text.push_str(piece);
        points += piece.chars().count();
    }
    text
}

/// The text with one of its characters replaced.
fn spoilt(random: &mut Random, text: &str) -> String {
    let offsets: Vec<(usize, char)> = text.char_indices().collect();
    let (offset, c) = offsets[random.below(offsets.len())];
    let other = random.pick(&["À", "Ɓ", "Ć", "ź", "A", "a", "1", "é", "€", "\u{1F600}"]);
    format!(
        "{}{other}{}",
        &text[..offset],
        &text[offset + c.len_utf8()..]
    )
}

/// Random texts of up to 20,000 code points, and three of a million.
#[test]
fn random_texts() {
    let mut beside = Beside::new();
    let mut random = Random(128);
    for _ in 0..300 {
        let length = 2 + random.below(20_000);
        let text = random_text(&mut random, length);
        beside.same_as_str(&text);
        beside.same_as_str(&spoilt(&mut random, &text));
    }
    assert_eq!(beside.counts(), (80, [0, 237, 77, 206]));
    let million = format!("Ć{}Ɓ{}", "1Ź2".repeat(200_000), "a".repeat(399_998));
    assert_eq!(beside.same_as_str(&million), (4, 800_000));
    assert_eq!(beside.same_as_str(&format!("{million}Ć1")), (3, 1_000_002));
    assert_eq!(beside.same_as_str(&format!("{million}źź")), (19, 1_000_000));
}

/// Both sides of the length from which on `encode_str` does without the library: texts of such a
/// length, with another character at the front, in the middle and at the end.
#[test]
fn where_the_library_ends() {
    let mut beside = Beside::new();
    for length in MOST_CODE_POINTS - 2..=MOST_CODE_POINTS + 2 {
        for (start, piece) in [("Ć", "12"), ("Ɓ", "a"), ("À", "Ž")] {
            let text = format!("{start}{}", piece.repeat(length));
            let text: Vec<char> = text.chars().take(length).collect();
            beside.same_as_str(&text.iter().collect::<String>());
            for place in [1, length / 2, length - 1] {
                for other in ['1', 'ź', 'é', 'Ć'] {
                    let mut text = text.clone();
                    text[place] = other;
                    beside.same_as_str(&text.iter().collect::<String>());
                }
            }
        }
    }
    assert_eq!(beside.counts(), (8, [0, 103, 30, 54]));
}
