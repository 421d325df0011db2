//! The inputs of the list, in their order, each of them once.
use crate::ask::{fnc2, Asker};
use std::collections::HashSet;

/// The code points that begin a label: the STARTs of sets A, B and C.
const STARTS: [char; 3] = ['À', 'Ɓ', 'Ć'];

/// A published label: where it is printed, and the symbols and the check that are given there.
struct Published {
    place: &'static str,
    text: &'static str,
    symbols: &'static [usize],
    check: usize,
}

/// The standard's examples, and the worked sum of Wikipedia's article "Code 128". We had no copy of
/// either text: these are the values as we know them.
const PUBLISHED: [Published; 3] = [
    Published {
        place: "ISO/IEC 15417, Figure 1",
        text: "ƁAIM",
        symbols: &[104, 33, 41, 45],
        check: 45,
    },
    Published {
        place: "ISO/IEC 15417, Annex A.1",
        text: "ƁAIMĆ1234",
        symbols: &[104, 33, 41, 45, 99, 12, 34],
        check: 87,
    },
    Published {
        place: "Wikipedia, Code 128, check digit calculation",
        text: "ÀPJJ123C",
        symbols: &[103, 48, 42, 42, 17, 18, 19, 35],
        check: 54,
    },
];

/// The widths of the bars and spaces of Figure 1.
const FIGURE_1: &str = "211214 111323 231311 113123 113123 2331112";

/// The labels of the crate's documentation in src/sym/code128.rs.
const DOCUMENTED: [&str; 3] = ["ƁHE1234A*1", "ÀHE@$AĆ123456", "À\u{6}"];

/// The labels of document 01 that are Rust texts; the long ones are in `long`.
const DOCUMENT_01: [&str; 17] = [
    "", "A", "À", "€", "Ć12", "Ć1Ź2", "ĆŹ12", "Ć1", "Ć1À", "ÀÀ", "ÀĆ12", "ƁŽ", "ÀŽa", "Ɓ÷",
    "Ɓ\u{7F}", "Ɓ", "Ć",
];

/// Labels of everyday use; tools/examples asks the same ones.
const EVERYDAY: [&str; 10] = [
    "ƁWikipedia",
    "ÀHELLO",
    "ÀXYĆ2199",
    "ƁxyZÀ199!*1",
    "ƁŹ4218402050À0",
    "ÀB\u{6}",
    "ĆŹ0012345678901234567890",
    "ĆŹ0109501101530003Ɓ",
    "Ɓ-Rattle 0.1-",
    "ĆŹ00123456789012345678Ɓ0",
];

/// Code points that have no number in any set: neighbours of those that have one, digits of other
/// scripts, the first and last code point of each length in UTF-8, and the accent that makes A look
/// like À.
const STRANGERS: &str = "\
    \u{7F}\u{80}\u{BF}\u{C1}\u{F6}\u{F8}\u{105}\u{107}\u{178}\u{17E}\u{180}\u{182}\u{B2}\
    \u{B3}\u{B9}\u{BD}\u{660}\u{661}\u{669}\u{6F1}\u{966}\u{967}\u{2070}\u{2081}\u{2460}\
    \u{FF10}\u{FF11}\u{FF19}\u{1D7CE}\u{1D7CF}\u{1D7FF}\u{A0}\u{300}\u{7FF}\u{800}\u{20AC}\
    \u{D7FF}\u{E000}\u{FEFF}\u{FFFD}\u{FFFF}\u{10000}\u{10FFFF}";

/// Texts with ź that stand for a kind of their own: the first of several, after a switch, after and
/// before the pair 97, beside a code point that has no number there, in set C, with a digit left
/// over. In two of them 97 is a pair or a check, and there is no ź.
const RETIRED: [&str; 22] = [
    "ƁAźBź",
    "ÀźAź",
    "Ć97Ɓź",
    "Ć97Àź",
    "Ć9Ź7Ɓaź",
    "ÀźĆ97",
    "ƁźĆ9797Àź",
    "ÀŽź",
    "ƁŹźŻżŽ÷",
    "Ɓź€",
    "Ɓ€ź",
    "Àźa",
    "ÀaƁź",
    "ƁźƁ",
    "ƁźĆź",
    "ƁźĆ1",
    "ƁźĆ12Ź3",
    "Ć12ź",
    "Ć1ź2",
    "źƁ",
    "ƁŻ",
    "Ć97",
];

/// Twenty code points of different kinds.
const FEW: &str = "019 A_`a~\u{0}\u{1F}\u{7F}÷ÀƁĆŹżŽ€";

/// Every code point that has a number in some set.
fn letters() -> Vec<char> {
    (0..=0x7E_u8)
        .map(char::from)
        .chain("÷ÀƁĆŹźŻżŽ".chars())
        .collect()
}

/// A small generator of random numbers (SplitMix64), so that the list is the same in every run.
struct Dice(u64);

impl Dice {
    /// A number below `bound`.
    fn below(&mut self, bound: usize) -> usize {
        self.0 = self.0.wrapping_add(0x9E37_79B9_7F4A_7C15);
        let mut z = self.0;
        z = (z ^ (z >> 30)).wrapping_mul(0xBF58_476D_1CE4_E5B9);
        z = (z ^ (z >> 27)).wrapping_mul(0x94D0_49BB_1331_11EB);
        ((z ^ (z >> 31)) % bound as u64) as usize
    }

    /// One element of a slice.
    fn one<'a, T>(&mut self, of: &'a [T]) -> &'a T {
        &of[self.below(of.len())]
    }
}

/// The list while it is made: its inputs so far.
struct List<'a> {
    asker: &'a Asker,
    texts: Vec<String>,
    known: HashSet<String>,
}

impl List<'_> {
    /// Adds an input if it is new. For more than 4,000 symbols the crate makes a row and this
    /// library does not (docs/DIFFERENCES.md): such an input may not be in the list, unless it has
    /// a ź.
    fn add(&mut self, text: impl Into<String>) {
        let text = text.into();
        if let (Ok(symbols), None) = (self.asker.symbols(&text), fnc2(&text)) {
            assert!(
                symbols.len() <= 4001,
                "{} symbols and a check",
                symbols.len() - 1
            );
        }
        if self.known.insert(text.clone()) {
            self.texts.push(text);
        }
    }

    /// The published labels; stops if the crate answers otherwise than was published.
    fn published(&mut self) {
        for label in &PUBLISHED {
            let mut symbols = label.symbols.to_vec();
            symbols.push(label.check);
            assert_eq!(
                self.asker.symbols(label.text),
                Ok(symbols),
                "{}",
                label.place
            );
            self.add(label.text);
        }
        let widths = FIGURE_1.chars().filter_map(|c| c.to_digit(10));
        let cells: String = widths
            .enumerate()
            .map(|(i, w)| ["1", "0"][i % 2].repeat(w as usize))
            .collect();
        assert_eq!(
            self.asker.cells("ƁAIM"),
            cells,
            "ISO/IEC 15417, Figure 1, its widths"
        );
    }

    /// The empty text, and every letter and stranger alone.
    fn alone(&mut self) {
        self.add("");
        for c in letters().into_iter().chain(STRANGERS.chars()) {
            self.add(c);
        }
    }

    /// Every letter after each START and after each switch; and the hundred pairs after Ć.
    fn after_starts(&mut self) {
        for start in STARTS {
            let switched = STARTS
                .iter()
                .filter(|set| **set != start)
                .map(|set| format!("{start}{set}"));
            for front in std::iter::once(String::from(start)).chain(switched) {
                for c in letters() {
                    self.add(format!("{front}{c}"));
                }
                if front.ends_with('Ć') {
                    for pair in 0..100 {
                        self.add(format!("{front}{pair:02}"));
                    }
                }
            }
        }
    }

    /// Strangers after each START, in both halves of a pair, after a Ź inside a pair, after a
    /// switch, and before a START.
    fn strange(&mut self) {
        for c in STRANGERS.chars() {
            for front in ["À", "Ɓ", "Ć", "Ć1", "Ć1Ź", "ÀƁ"] {
                self.add(format!("{front}{c}"));
            }
            self.add(format!("Ć{c}1"));
            self.add(format!("{c}À"));
        }
    }

    /// Each START with two of the twenty, and beginnings that are not a START.
    fn two(&mut self) {
        for first in FEW.chars() {
            for second in FEW.chars() {
                for start in STARTS {
                    self.add(format!("{start}{first}{second}"));
                }
            }
            for second in "A1ÀŹ€".chars() {
                self.add(format!("{first}{second}"));
            }
        }
    }

    /// Digits of set C that are held across Ź, left over, or followed by a switch: Ć with every
    /// text of up to four of four code points, and longer texts.
    fn held(&mut self) {
        let mut fronts = vec![String::from("Ć")];
        for _ in 0..4 {
            fronts = fronts
                .iter()
                .flat_map(|front| "17ŹƁ".chars().map(move |c| format!("{front}{c}")))
                .collect();
            for text in &fronts {
                self.add(text);
            }
        }
        for between in 0..=12 {
            let fnc1 = "Ź".repeat(between);
            for text in [
                "Ć4|2",
                "|Ć42",
                "Ć|42|",
                "Ć4|",
                "Ć42|3",
                "Ć4|2|",
                "Ć12|34",
                "Ć1|2ÀA",
                "Ć1|À",
                "Ć1|Ć",
                "ÀAĆ1|2",
                "ÀĆ1|2Ɓ1|2Ć3|4",
                "Ć9|98|87|76|6",
                "Ć0|00|0",
            ] {
                self.add(text.replace('|', &fnc1));
            }
        }
    }

    /// Labels that end just before or after the places 103 and 206, whose weights are multiples of
    /// 103, or close to 255 symbols; and long labels that are refused at their end.
    fn long(&mut self) {
        for (start, own) in STARTS.iter().zip(own_letters(self.asker)) {
            let other = if *start == 'À' { 'Ɓ' } else { 'À' };
            let highest = own[own.len() - 1].clone();
            for n in [102, 103, 104, 105, 205, 206, 207, 208, 253, 254, 255] {
                let cycle: String = own.iter().cycle().take(n - 1).cloned().collect();
                self.add(format!("{start}{cycle}"));
            }
            for n in [254, 255] {
                self.add(format!("{start}{}", own[33].repeat(n - 1)));
                self.add(format!("{start}{}", own[0].repeat(n - 1)));
                self.add(format!("{start}{}", highest.repeat(n - 1)));
                self.add(format!("{start}{}", "Ź".repeat(n - 1)));
                self.add(format!("{other}{start}{}", own[33].repeat(n - 2)));
                self.add(format!("{start}{}{other}", own[33].repeat(n - 2)));
            }
            self.add(format!("{start}{}€", own[33].repeat(300)));
            self.add(format!("{start}{}{start}", own[33].repeat(254)));
            self.add(format!("{start}{}\u{7F}", own[33].repeat(253)));
        }
        for text in ["Ć|7", "Ć|7À", "Ć7|ŹŹ", "Ć|7ŹŹ", "Ć|a"] {
            self.add(text.replace('|', &"12".repeat(254)));
        }
        self.add(format!("Ć7{}7{}", "Ź".repeat(100), "12".repeat(153)));
    }

    /// Texts with ź: each START with one and with two of nine code points; those that stand for a
    /// kind of their own; long ones, on each side of 255 symbols; and random labels with one or two
    /// ź put in.
    fn retired(&mut self, dice: &mut Dice) {
        let few = || "97aÀƁĆŹź€".chars();
        for start in STARTS {
            self.add(format!("{start}ź"));
            for other in few() {
                self.add(format!("{start}{other}ź"));
                self.add(format!("{start}ź{other}"));
            }
        }
        for text in RETIRED {
            self.add(text);
        }
        for n in [102, 103, 205, 206, 253, 254, 255, 300] {
            self.add(format!("Ɓ{}ź", "A".repeat(n - 1)));
            self.add(format!("Àź{}", "A".repeat(n - 1)));
            self.add(format!("Ć{}Ɓź", "97".repeat(n - 1)));
            self.add(format!("Ɓź{}€", "A".repeat(n - 1)));
        }
        let own = own_letters(self.asker);
        for _ in 0..80 {
            let symbols = 2 + dice.below(22);
            let mut text: Vec<char> = random_label(&own, dice, symbols).chars().collect();
            for _ in 0..1 + dice.below(2) {
                text.insert(1 + dice.below(text.len()), 'ź');
            }
            self.add(text.into_iter().collect::<String>());
        }
    }

    /// Labels of more than 255 symbols in each set and in all three, up to as many as a line holds:
    /// 2,048 if each but the START is a control code of one digit.
    fn longer(&mut self, dice: &mut Dice) {
        let own_of_sets = own_letters(self.asker);
        for (start, own) in STARTS.iter().zip(&own_of_sets) {
            let other = if *start == 'À' { 'Ɓ' } else { 'À' };
            let highest = own[own.len() - 1].clone();
            for n in [256, 257, 300, 512, 513] {
                let cycle: String = own.iter().cycle().take(n - 1).cloned().collect();
                self.add(format!("{start}{cycle}"));
            }
            self.add(format!("{start}{}", own[33].repeat(255)));
            self.add(format!("{start}{}", highest.repeat(255)));
            self.add(format!("{other}{start}{}", own[33].repeat(254)));
        }
        for symbols in [256, 257, 300, 300, 700] {
            self.add(random_label(&own_of_sets, dice, symbols));
        }
        self.add(format!("Ɓ{}", "customs".repeat(143)));
        self.add(format!("Ć{}", "12".repeat(682)));
        let controls: String = ('\0'..='\u{F}').cycle().take(2047).collect();
        self.add(format!("À{controls}"));
        self.add(format!("À{}€", &controls[..2044]));
        self.add(format!("À{}ź", &controls[..2045]));
        self.add(format!("Ć{}1", "12".repeat(681)));
    }

    /// Random labels that are accepted, and texts of any code points after a START.
    fn random(&mut self, dice: &mut Dice) {
        let own = own_letters(self.asker);
        for count in 0..300 {
            let symbols = if count % 20 == 0 {
                60 + dice.below(120)
            } else {
                1 + dice.below(24)
            };
            let text = random_label(&own, dice, symbols);
            assert!(self.asker.accepts(&text), "{text:?}");
            self.add(text);
        }
        let any: Vec<char> = letters()
            .into_iter()
            .chain(STRANGERS.chars().take(4))
            .chain("0123456789".repeat(9).chars())
            .collect();
        for _ in 0..150 {
            let more: String = (0..1 + dice.below(7)).map(|_| *dice.one(&any)).collect();
            self.add(format!("{}{more}", dice.one(&STARTS)));
        }
    }

    /// Labels of the list damaged in one place: a code point lost, doubled or changed, two
    /// exchanged, the end cut off.
    fn damaged(&mut self, dice: &mut Dice) {
        let whole: Vec<Vec<char>> = self
            .texts
            .iter()
            .map(|text| text.chars().collect())
            .filter(|text: &Vec<char>| (5..40).contains(&text.len()))
            .collect();
        for _ in 0..80 {
            let text = dice.one(&whole).clone();
            let place = dice.below(text.len() - 1);
            let mut copies = vec![text.clone(); 5];
            copies[0].remove(place);
            copies[1].insert(place, text[place]);
            copies[2][place] = *dice.one(&letters());
            copies[3].swap(place, place + 1);
            copies[4].truncate(place + 1);
            for copy in copies {
                self.add(copy.into_iter().collect::<String>());
            }
        }
    }
}

/// For each set, the letters and pairs that the crate makes one symbol of; without the switches and
/// without ź.
fn own_letters(asker: &Asker) -> [Vec<String>; 3] {
    STARTS.map(|start| {
        let mut own: Vec<String> = letters()
            .iter()
            .filter(|&&c| !STARTS.contains(&c) && c != 'ź')
            .map(|c| c.to_string())
            .collect();
        own.extend((0..100).map(|pair| format!("{pair:02}")));
        own.retain(|text| {
            asker
                .symbols(&format!("{start}{text}"))
                .is_ok_and(|symbols| symbols.len() == 3)
        });
        own
    })
}

/// A label of `symbols` symbols: a START, then letters of the current set, sometimes a switch or a
/// Ź inside a pair.
fn random_label(own: &[Vec<String>; 3], dice: &mut Dice, symbols: usize) -> String {
    let mut set = dice.below(3);
    let mut text = String::from(STARTS[set]);
    let mut count = 1;
    while count < symbols {
        count += 1;
        let letter = dice.one(&own[set]);
        if dice.below(7) == 0 {
            set = (set + 1 + dice.below(2)) % 3;
            text.push(STARTS[set]);
        } else if set == 2 && letter != "Ź" && count < symbols && dice.below(5) == 0 {
            count += 1;
            text.push_str(&format!("{}Ź{}", &letter[..1], &letter[1..]));
        } else {
            text.push_str(letter);
        }
    }
    text
}

/// The inputs of the whole list.
pub fn inputs(asker: &Asker) -> Vec<String> {
    let mut list = List {
        asker,
        texts: Vec::new(),
        known: HashSet::new(),
    };
    let mut dice = Dice(15417);
    list.published();
    for text in DOCUMENTED.iter().chain(&DOCUMENT_01).chain(&EVERYDAY) {
        list.add(*text);
    }
    list.alone();
    list.after_starts();
    list.strange();
    list.two();
    list.held();
    list.long();
    list.random(&mut dice);
    list.damaged(&mut dice);
    list.retired(&mut dice);
    list.longer(&mut dice);
    list.texts
}
