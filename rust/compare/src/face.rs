//! The jobs as the comparison calls them: the true ones, and wrong ones of Code 128 that show that
//! a run finds a wrong answer. Those of EAN-13 are in [`crate::ean13::wrong`].
use crate::ask;
use crate::ean13::ask::Typed;
use crate::model::{self, Model, FNC2, LIMIT, NUMBER_OF_FNC2, STOP, SWITCH};
use slatmonief::error::Error;
use slatmonief::sym::code128::Code128;
use slatmonief::sym::ean13::EAN13;

/// The answer number and the second number.
pub type Answer = (u32, usize);

/// The jobs on lent slices, as the library does them. A face with a wrong answer has some of its
/// own.
pub trait Face: Sync {
    /// Code points to a row.
    fn encode(&self, text: &[u32], row: &mut [u8]) -> Answer {
        numbers(slatmonief::encode(text, row))
    }
    /// A symbol list to a row.
    fn draw(&self, list: &[u8], row: &mut [u8]) -> Answer {
        numbers(slatmonief::draw(list, row))
    }
    /// A row to a symbol list.
    fn read(&self, row: &[u8], list: &mut [u8]) -> Answer {
        numbers(slatmonief::read(row, list))
    }
    /// A symbol list to code points.
    fn spell(&self, list: &[u8], text: &mut [u32]) -> Answer {
        numbers(slatmonief::spell(list, text))
    }
    /// A symbol list to the bytes of a scanner.
    fn scan(&self, list: &[u8], bytes: &mut [u8]) -> Answer {
        numbers(slatmonief::scan(list, bytes))
    }
    /// A row to a record.
    fn pack(&self, row: &[u8], record: &mut [u8]) -> Answer {
        numbers(slatmonief::pack(row, record))
    }
    /// A record to a row.
    fn unpack(&self, record: &[u8], row: &mut [u8]) -> Answer {
        numbers(slatmonief::unpack(record, row))
    }
    /// A text to a row, through the type with the crate's signatures.
    fn code128(&self, text: &str) -> Result<Vec<u8>, Error> {
        Code128::new(text).map(|code| code.encode())
    }
    /// The digits of EAN-13 to a row.
    fn ean13_write(&self, text: &[u8], row: &mut [u8]) -> Answer {
        numbers(slatmonief::ean13::write(text, row))
    }
    /// A row of EAN-13 to its thirteen digits.
    fn ean13_read(&self, row: &[u8], text: &mut [u8]) -> Answer {
        numbers(slatmonief::ean13::read(row, text))
    }
    /// A text to a row of EAN-13 and to the debug output, through the type with the crate's
    /// signatures.
    fn ean13_type(&self, text: &str) -> Typed {
        match EAN13::new(text) {
            Ok(code) => Ok((code.encode(), format!("{code:?}"))),
            Err(error) => Err(format!("{error:?}")),
        }
    }
}

/// The two numbers of an answer of the library.
fn numbers(answer: Result<usize, slatmonief::Refusal>) -> Answer {
    match answer {
        Ok(second) => (0, second),
        Err(refusal) => (refusal.number(), refusal.second()),
    }
}

/// The library itself.
pub struct True;

impl Face for True {}

/// A wrong answer that can be planted in the library.
#[derive(Clone, Copy, Debug, PartialEq, Eq)]
pub enum Plant {
    /// Refusal 3 one place too far, from place 2 on.
    Place,
    /// The check of encode with weight i+1 for place i.
    Weight,
    /// A refused call of encode writes its first cell.
    Touched,
    /// An accepted encode answers n + 1, from nine symbols on.
    Count,
    /// Read accepts a wrong check.
    Replaced,
    /// Ź after the first digit of a pair is refused.
    Held,
    /// Draw writes one cell after the row.
    After,
    /// Unpack does not test the spare bits.
    Spare,
    /// Scan takes 99 in set C for a switch and sends nothing for it.
    Pair99,
    /// Scan takes 98 in set C for a Shift and sends nothing for it.
    Pair98,
    /// Scan reads the symbol after a Shift in its own set.
    Unshifted,
    /// Scan shifts the two symbols after a Shift.
    ShiftsTwo,
    /// Scan reads a switch after a Shift in the other set, where it is FNC4.
    ShiftsSwitch,
    /// Scan takes a Shift after a Shift for the end of the first.
    ShiftEnds,
    /// Encode counts code points, not bytes, for refusal 2, where the text does not parse.
    Points,
    /// Encode counts code points, not bytes, before it parses: a START alone is refused by 2.
    LoneStart,
    /// Spell asks for room for one code point more than it writes.
    Room,
    /// Read answers a wrong check before a wrong stop.
    CheckFirst,
    /// Read answers 12 for 16.
    Worn,
    /// Read answers 16 for 12.
    Unknown,
    /// Refusal 16 with the place of the first cell of the block.
    WornPlace,
    /// Read answers a later 12 or 13 before 16.
    WornLast,
    /// Unpack answers a wrong length or a spare bit before a wrong version.
    VersionLast,
    /// Draw answers a short buffer before a number that is not allowed at its place.
    RoomFirst,
    /// Encode answers where parsing stops before a later value that is not a scalar value.
    CharacterFirst,
    /// Refusal 1 with the place of the last value that is not a scalar value.
    LastScalar,
    /// Refusal 4 always with 4,001.
    Needed,
    /// Pack answers the number of cells, not of bytes.
    Packed,
    /// The type with the crate's signatures gives `Length` for `Character`.
    DropIn,
    /// Encode answers a ź before a later place where parsing stops.
    RetiredFirst,
    /// Refusal 19 for a ź in set C.
    RetiredInC,
    /// Refusal 19 with the place of the last ź.
    RetiredLast,
    /// Refusal 19 with the place counted in symbols.
    RetiredSymbol,
    /// Encode answers too many symbols before a ź.
    TooManyFirst,
    /// Encode answers a short buffer before a ź.
    TooShortFirst,
    /// Encode accepts ź in set A.
    KeptInA,
    /// Encode accepts ź in set B.
    KeptInB,
    /// Refusal 19 for the pair 97 after Ć.
    Pair97,
    /// Refusal 19 for a check of 97.
    Check97,
    /// Refusal 19 writes the first cell.
    RetiredTouched,
    /// The type with the crate's signatures gives `Length` for a ź.
    RetiredDropIn,
    /// Draw refuses 97 in set A or B.
    Draw97,
    /// Read refuses 97 in set B.
    Read97,
    /// Spell refuses 97 in set A or B.
    Spell97,
    /// Spell leaves out 97 in set A or B.
    Without97,
    /// Scan refuses 97 in set A or B.
    Scan97,
    /// Read takes the symbols at 103 and 104 in either order, as if both had one weight.
    SameWeight,
    /// Read takes a smaller number at place 1 than at place 104 for an exchange, and refuses by 14.
    FarRefused,
    /// Refusal 14 with the check that is drawn.
    DrawnCheck,
    /// 4,000 symbols are too many for every job.
    LimitLess,
    /// 4,001 symbols are not too many for encode, nor for draw, read, pack and unpack, which ask
    /// for room.
    LimitMore,
    /// The check of encode with weights of one byte.
    ByteWeight,
    /// Pack gives 255 symbols a version 2 record.
    Early2,
    /// Pack gives 256 symbols a version 1 record, with the low byte of the count.
    Late1,
    /// Pack writes the low byte of the count first, and unpack reads it so.
    LittleEndian,
    /// Unpack takes a version 2 record of a count up to 255.
    SmallCount,
    /// Refusal 22 for a count above 4,000 with the length that it would need.
    LargeCount,
    /// Unpack refuses a version 2 record of two bytes by 20.
    TwoBytes,
}

/// Every plant and its name on the command line.
pub const PLANTS: [(&str, Plant); 58] = [
    ("place", Plant::Place),
    ("weight", Plant::Weight),
    ("touched", Plant::Touched),
    ("count", Plant::Count),
    ("replaced", Plant::Replaced),
    ("held", Plant::Held),
    ("after", Plant::After),
    ("spare", Plant::Spare),
    ("pair99", Plant::Pair99),
    ("pair98", Plant::Pair98),
    ("unshifted", Plant::Unshifted),
    ("shifts-two", Plant::ShiftsTwo),
    ("shifts-switch", Plant::ShiftsSwitch),
    ("shift-ends", Plant::ShiftEnds),
    ("points", Plant::Points),
    ("lone-start", Plant::LoneStart),
    ("room", Plant::Room),
    ("check-first", Plant::CheckFirst),
    ("worn", Plant::Worn),
    ("unknown", Plant::Unknown),
    ("worn-place", Plant::WornPlace),
    ("worn-last", Plant::WornLast),
    ("version-last", Plant::VersionLast),
    ("room-first", Plant::RoomFirst),
    ("character-first", Plant::CharacterFirst),
    ("last-scalar", Plant::LastScalar),
    ("needed", Plant::Needed),
    ("packed", Plant::Packed),
    ("drop-in", Plant::DropIn),
    ("retired-first", Plant::RetiredFirst),
    ("retired-in-c", Plant::RetiredInC),
    ("retired-last", Plant::RetiredLast),
    ("retired-symbol", Plant::RetiredSymbol),
    ("too-many-first", Plant::TooManyFirst),
    ("too-short-first", Plant::TooShortFirst),
    ("kept-in-a", Plant::KeptInA),
    ("kept-in-b", Plant::KeptInB),
    ("pair97", Plant::Pair97),
    ("check97", Plant::Check97),
    ("retired-touched", Plant::RetiredTouched),
    ("retired-drop-in", Plant::RetiredDropIn),
    ("draw97", Plant::Draw97),
    ("read97", Plant::Read97),
    ("spell97", Plant::Spell97),
    ("without97", Plant::Without97),
    ("scan97", Plant::Scan97),
    ("same-weight", Plant::SameWeight),
    ("far-refused", Plant::FarRefused),
    ("drawn-check", Plant::DrawnCheck),
    ("limit-less", Plant::LimitLess),
    ("limit-more", Plant::LimitMore),
    ("byte-weight", Plant::ByteWeight),
    ("early2", Plant::Early2),
    ("late1", Plant::Late1),
    ("little-endian", Plant::LittleEndian),
    ("small-count", Plant::SmallCount),
    ("large-count", Plant::LargeCount),
    ("two-bytes", Plant::TwoBytes),
];

/// The plants that give refusal 19 where another answer is right.
const NEEDLESS_19: [Plant; 4] = [
    Plant::RetiredFirst,
    Plant::RetiredInC,
    Plant::Pair97,
    Plant::Check97,
];

/// The library with one wrong answer planted in it.
pub struct Wrong {
    plant: Plant,
    model: Model,
}

impl Wrong {
    /// The library with this wrong answer.
    pub fn new(plant: Plant) -> Wrong {
        Wrong {
            plant,
            model: Model::new(ask::patterns()),
        }
    }

    /// Puts a wrong check into an accepted row of n symbols, with the weights of this plant.
    fn weigh_wrongly(&self, row: &mut [u8], n: usize) {
        let weight = |place: usize| match self.plant {
            Plant::ByteWeight => place.max(1) % 256,
            _ => place + 1,
        };
        let numbers = row[..11 * n]
            .chunks(11)
            .map(|block| usize::from(self.model.number(block).unwrap_or(0)));
        let check = numbers
            .enumerate()
            .map(|(i, number)| number * weight(i))
            .sum::<usize>()
            % 103;
        row[11 * n..11 * n + 11].copy_from_slice(self.model.pattern(check as u8));
    }

    /// What read answers once no block is worn: each worn block, from this one on, has an allowed
    /// number put into it.
    fn after_worn(&self, row: &[u8], block: usize) -> Answer {
        let mut row = row.to_vec();
        let number = if block == 0 { 103 } else { 0 };
        row[11 * block..11 * block + 11].copy_from_slice(self.model.pattern(number));
        match True.read(&row, &mut []) {
            (16, next) => self.after_worn(&row, next),
            answer => answer,
        }
    }

    /// A wrong answer about ź, if encode refuses the text by 19 and this plant is wrong here.
    fn instead_of_19(&self, text: &[u32], row: &mut [u8], first: usize) -> Option<Answer> {
        let in_set = |set: usize| fnc2s_stand_in(text, SWITCH[set]);
        match self.plant {
            Plant::RetiredLast => Some((19, text.iter().rposition(|&point| point == FNC2)?)),
            Plant::RetiredSymbol => Some((19, symbols_of(&text[..first]))),
            Plant::TooManyFirst => Some(symbols_of(text))
                .filter(|&n| n > LIMIT)
                .map(|n| (4, n)),
            Plant::TooShortFirst => Some(model::cells(symbols_of(text)))
                .filter(|&need| need > row.len())
                .map(|need| (5, need)),
            Plant::KeptInA if in_set(0) => written(text, row, LIMIT),
            Plant::KeptInB if in_set(1) => written(text, row, LIMIT),
            Plant::RetiredTouched => row.first_mut().map(|cell| {
                *cell ^= 1;
                (19, first)
            }),
            _ => None,
        }
    }

    /// Refusal 2 for a START with nothing after it, where there is room for its row.
    fn lone_start(&self, text: &[u32], room: usize) -> Option<Answer> {
        let wrong = self.plant == Plant::LoneStart && model::cells(1) <= room;
        (wrong && matches!(text, [0xC0 | 0x181 | 0x106])).then_some((2, 0))
    }

    /// Refusal 19 where it is wrong, if encode refuses the text by 3 or accepts it, and this plant
    /// is wrong here. With no room an accepted text is refused by 4 or 5.
    fn needless_19(&self, text: &[u32]) -> Option<Answer> {
        if !NEEDLESS_19.contains(&self.plant) {
            return None;
        }
        let first = model::retired(text);
        let place = match (self.plant, True.encode(text, &mut [])) {
            (Plant::RetiredFirst, (3, stop)) => first.filter(|&first| first < stop),
            (Plant::RetiredInC, (3, stop)) => first.filter(|&first| first == stop && stop > 0),
            (Plant::Pair97, (4 | 5, _)) => text
                .windows(3)
                .position(|three| *three == [SWITCH[2], 0x39, 0x37])
                .map(|place| place + 1),
            (Plant::Check97, (5, cells)) => {
                let check = ask::row(text)?[cells - 24..cells - 13].to_vec();
                (self.model.number(&check) == Some(NUMBER_OF_FNC2)).then_some(text.len())
            }
            _ => None,
        };
        place.map(|place| (19, place))
    }

    /// A wrong answer of encode on either side of the limit, if this is such a plant.
    fn beside_limit(&self, text: &[u32], row: &mut [u8]) -> Option<Answer> {
        if !matches!(self.plant, Plant::LimitLess | Plant::LimitMore) {
            return None;
        }
        match (self.plant, True.encode(text, &mut [])) {
            (Plant::LimitLess, (5, need)) if need == model::cells(LIMIT) => Some((4, LIMIT)),
            (Plant::LimitMore, (4, n)) if n == LIMIT + 1 => {
                written(text, row, n).or(Some((5, model::cells(n))))
            }
            _ => None,
        }
    }

    /// A wrong answer of another job to n symbols, whose refusal for this length is 10, or which
    /// needs this much room.
    fn beside_length(&self, n: usize, length: usize, need: usize) -> Option<Answer> {
        match self.plant {
            Plant::LimitLess if n == LIMIT => Some((10, length)),
            Plant::LimitMore if n == LIMIT + 1 && need > 0 => Some((5, need)),
            _ => None,
        }
    }

    /// The head that this plant gives the record of n symbols, if it is wrong here.
    fn wrong_head(&self, n: usize) -> Option<Vec<u8>> {
        match (self.plant, n) {
            (Plant::Early2, 255) => Some(model::head_of(2, n)),
            (Plant::Late1, 256) => Some(model::head_of(1, n)),
            (Plant::LittleEndian, 256..) => Some(low_first(&model::head_of(2, n))),
            _ => None,
        }
    }

    /// The record of a good row with another head than its own, or refusal 5.
    fn packed_under(&self, row: &[u8], head: &[u8], record: &mut [u8]) -> Option<Answer> {
        let own = self.model.pack(row, usize::MAX);
        let body = row.len().div_ceil(8);
        let wrong = [head, own.front.get(own.second.checked_sub(body)?..)?].concat();
        if record.len() < wrong.len() {
            return Some((5, wrong.len()));
        }
        record[..wrong.len()].copy_from_slice(&wrong);
        Some((0, wrong.len()))
    }

    /// A wrong answer to a version 2 record, if this plant is wrong here.
    fn wrong_of_version_2(&self, record: &[u8], row: &mut [u8]) -> Option<Answer> {
        let count = match *record {
            [2, high, low, ..] => 256 * usize::from(high) + usize::from(low),
            [2, _] if self.plant == Plant::TwoBytes => return Some((20, 2)),
            _ => return None,
        };
        match self.plant {
            Plant::LimitLess if count == LIMIT => Some((22, 0)),
            Plant::LimitMore if count == LIMIT + 1 && record.len() == model::bytes_of(2, count) => {
                Some((5, model::cells(count)))
            }
            Plant::LittleEndian => Some(True.unpack(&low_first(record), row)),
            Plant::SmallCount if count <= 255 => {
                let first = [&[1], &record[2..]].concat();
                Some(True.unpack(&first, row)).filter(|answer| matches!(answer.0, 0 | 5))
            }
            Plant::LargeCount if count > LIMIT => Some((22, model::bytes_of(2, count))),
            _ => None,
        }
    }

    /// Refusal 13 at the first 97 in set A or B of a good list, if this is the plant.
    fn refused_97(&self, plant: Plant, list: &[u8]) -> Option<Answer> {
        if self.plant != plant || !matches!(True.draw(list, &mut []).0, 0 | 5) {
            return None;
        }
        fnc2s(list).first().map(|&(place, _)| (13, place))
    }

    /// The block of the first 97 in set B of a row that is read, if the plant is `Read97`.
    fn fnc2_in_b(&self, row: &[u8]) -> Option<usize> {
        let mut list = [0; LIMIT];
        let read = self.plant == Plant::Read97 && True.read(row, &mut list).0 == 0;
        let places = if read { fnc2s(&list) } else { Vec::new() };
        places
            .iter()
            .find(|&&(_, set)| set == 1)
            .map(|&(place, _)| place)
    }

    /// The check that is drawn in a row whose blocks are patterns.
    fn drawn_check(&self, row: &[u8]) -> usize {
        let check = self.model.number(&row[row.len() - 24..row.len() - 13]);
        check.map_or(0, usize::from)
    }

    /// Whether a good row has a smaller number at place 1 than at place 104, if the plant is
    /// `FarRefused`.
    fn grows_far(&self, row: &[u8]) -> bool {
        let mut list = [0; LIMIT];
        self.plant == Plant::FarRefused
            && matches!(True.read(row, &mut list), (0, n) if n > 104)
            && list[1] < list[104]
    }

    /// The row with the right check.
    fn with_check(&self, row: &[u8], right: usize) -> Vec<u8> {
        let mut row = row.to_vec();
        let place = row.len() - 24;
        row[place..place + 11].copy_from_slice(self.model.pattern(right as u8));
        row
    }
}

/// The place of the last value that is not a scalar value.
fn last_no_scalar(text: &[u32]) -> Option<usize> {
    text.iter()
        .rposition(|&point| char::from_u32(point).is_none())
}

/// The row with the right stop.
fn with_stop(row: &[u8]) -> Vec<u8> {
    [&row[..row.len() - 13], &STOP].concat()
}

/// The answer to a row of more than 104 symbols that is good once the blocks 103 and 104 are
/// exchanged; its list is as it is drawn.
fn in_either_order(row: &[u8], list: &mut [u8]) -> Option<Answer> {
    if row.len() < model::cells(105) {
        return None;
    }
    let mut other = row.to_vec();
    other[11 * 103..11 * 105].rotate_left(11);
    let answer = True.read(&other, list);
    if answer.0 == 0 {
        list.swap(103, 104);
    }
    matches!(answer.0, 0 | 5).then_some(answer)
}

/// The place of a Ź after Ć and a digit at the beginning of the text.
fn held_at(text: &[u32]) -> Option<usize> {
    (text.first() == Some(&0x106)
        && text.len() > 2
        && (0x30..0x3A).contains(&text[1])
        && text[2] == 0x179)
        .then_some(2)
}

/// The number of symbols of a text that the crate accepts: with Ż (FNC3) for ź it has as many.
fn symbols_of(text: &[u32]) -> usize {
    let renamed = text.iter().map(|&point| match point {
        FNC2 => 0x17B,
        point => point,
    });
    match True.encode(&renamed.collect::<Vec<u32>>(), &mut []) {
        (5, cells) => (cells - 24) / 11,
        (_, n) => n,
    }
}

/// Whether every ź of a text that the crate accepts stands after this switch and no later one.
fn fnc2s_stand_in(text: &[u32], switch: u32) -> bool {
    let mut current = 0;
    text.iter().all(|&point| {
        if SWITCH.contains(&point) {
            current = point;
        }
        point != FNC2 || current == switch
    })
}

/// The number of symbols of a row of this length, if it were one.
fn symbols_in(length: usize) -> usize {
    length.saturating_sub(24) / 11
}

/// The record, or a head of three bytes, with its second and third byte exchanged.
fn low_first(record: &[u8]) -> Vec<u8> {
    let mut other = record.to_vec();
    other.swap(1, 2);
    other
}

/// Writes the crate's row of a text, if it has at most this many symbols and there is room.
fn written(text: &[u32], row: &mut [u8], most: usize) -> Option<Answer> {
    let cells = ask::row(text).filter(|cells| cells.len() <= model::cells(most))?;
    row.get_mut(..cells.len())?.copy_from_slice(&cells);
    Some((0, (cells.len() - 24) / 11))
}

/// The places of 97 in set A or B of a list, each with its set (0 is A, 1 is B).
fn fnc2s(list: &[u8]) -> Vec<(usize, usize)> {
    let (mut set, mut places) = (2, Vec::new());
    for (place, &number) in list.iter().enumerate() {
        if number == NUMBER_OF_FNC2 && set < 2 {
            places.push((place, set));
        }
        set = match number {
            103..=105 => model::set_of(number),
            _ => model::set_after(set, number),
        };
    }
    places
}

/// The list without its 97 in set A or B.
fn without_fnc2(list: &[u8]) -> Vec<u8> {
    let mut list = list.to_vec();
    for (place, _) in fnc2s(&list).into_iter().rev() {
        list.remove(place);
    }
    list
}

/// Whether the crate accepts this text.
fn barcoders_takes(text: &str) -> bool {
    let points: Vec<u32> = text.chars().map(u32::from).collect();
    ask::row(&points).is_some()
}

/// A list whose right bytes are those of a wrong scan for this list, if the plant is wrong at the
/// front of it. 96 sends nothing in set A or B.
fn misread(plant: Plant, list: &[u8]) -> Option<Vec<u8>> {
    let (front, rest): (Vec<u8>, &[u8]) = match (plant, list) {
        (Plant::Pair99, [105, 99, rest @ ..]) => (vec![105], rest),
        (Plant::Pair98, [105, 98, rest @ ..]) => (vec![105], rest),
        (Plant::Unshifted, &[start @ 103..=104, 98, next @ 0..=95, ref rest @ ..]) => {
            (vec![start, next], rest)
        }
        (Plant::ShiftsTwo, &[start @ 103..=104, 98, one @ 0..=95, ref rest @ ..]) => {
            (vec![start, 98, one, 98], rest)
        }
        (Plant::ShiftsSwitch, [103, 98, 100, rest @ ..]) => (vec![103, 98, 96], rest),
        (Plant::ShiftsSwitch, [104, 98, 101, rest @ ..]) => (vec![104, 98, 96], rest),
        (Plant::ShiftEnds, &[start @ 103..=104, 98, 98, ref rest @ ..]) => (vec![start], rest),
        _ => return None,
    };
    Some([&front, rest].concat())
}

impl Face for Wrong {
    fn encode(&self, text: &[u32], row: &mut [u8]) -> Answer {
        let wrong = self
            .needless_19(text)
            .or_else(|| self.lone_start(text, row.len()));
        if let Some(answer) = wrong.or_else(|| self.beside_limit(text, row)) {
            return answer;
        }
        let before = row.first().copied();
        let kept = row.to_vec();
        let answer = True.encode(text, row);
        match (self.plant, answer) {
            (Plant::Place, (3, place)) if place >= 2 => (3, place + 1),
            (Plant::Weight | Plant::ByteWeight, (0, n)) => {
                self.weigh_wrongly(row, n);
                answer
            }
            (Plant::Touched, (number, _)) if number != 0 && before.is_some() => {
                row[0] ^= 1;
                answer
            }
            (Plant::Count, (0, n)) if n >= 9 => (0, n + 1),
            (Plant::Points, (3, _)) if text.len() < 2 => (2, 0),
            (Plant::CharacterFirst, (1, place)) => match True.encode(&text[..place], &mut []) {
                (3, stop) if stop < place => (3, stop),
                _ => answer,
            },
            (Plant::LastScalar, (1, first)) => (1, last_no_scalar(text).unwrap_or(first)),
            (Plant::Needed, (4, _)) => (4, LIMIT + 1),
            (Plant::Held, (0, _)) if held_at(text).is_some() => {
                row.copy_from_slice(&kept);
                (3, 2)
            }
            (_, (19, first)) => self.instead_of_19(text, row, first).unwrap_or(answer),
            _ => answer,
        }
    }

    fn draw(&self, list: &[u8], row: &mut [u8]) -> Answer {
        let wrong = self.refused_97(Plant::Draw97, list);
        let beside = || self.beside_length(list.len(), list.len(), model::cells(list.len()));
        if let Some(answer) = wrong.or_else(beside) {
            return answer;
        }
        let answer = True.draw(list, row);
        if self.plant == Plant::RoomFirst && answer.0 == 13 && row.len() < model::cells(list.len())
        {
            return (5, model::cells(list.len()));
        }
        if let (Plant::After, (0, n)) = (self.plant, answer) {
            if let Some(cell) = row.get_mut(model::cells(n)) {
                *cell ^= 1;
            }
        }
        answer
    }

    fn read(&self, row: &[u8], list: &mut [u8]) -> Answer {
        if let Some(block) = self.fnc2_in_b(row) {
            return (13, block);
        }
        if self.grows_far(row) {
            return (14, self.drawn_check(row));
        }
        let n = symbols_in(row.len());
        if let Some(answer) = self.beside_length(n, row.len(), n) {
            return answer;
        }
        match (self.plant, True.read(row, list)) {
            (Plant::SameWeight, (14, right)) => in_either_order(row, list).unwrap_or((14, right)),
            (Plant::DrawnCheck, (14, _)) => (14, self.drawn_check(row)),
            (Plant::Replaced, (14, right)) => True.read(&self.with_check(row, right), list),
            (Plant::CheckFirst, (15, place)) => match True.read(&with_stop(row), &mut []) {
                (14, right) => (14, right),
                _ => (15, place),
            },
            (Plant::Worn, (16, block)) => (12, block),
            (Plant::Unknown, (12, block)) => (16, block),
            (Plant::WornPlace, (16, block)) => (16, 11 * block),
            (Plant::WornLast, (16, block)) => match self.after_worn(row, block) {
                (number @ (12 | 13), later) => (number, later),
                _ => (16, block),
            },
            (_, answer) => answer,
        }
    }

    fn spell(&self, list: &[u8], text: &mut [u32]) -> Answer {
        let wrong = self.refused_97(Plant::Spell97, list);
        if let Some(answer) = wrong.or_else(|| self.beside_length(list.len(), list.len(), 0)) {
            return answer;
        }
        match (self.plant, True.spell(list, &mut text.to_vec())) {
            (Plant::Room, (0, need)) if need == text.len() => (5, need + 1),
            (Plant::Without97, (0 | 5, _)) => True.spell(&without_fnc2(list), text),
            _ => True.spell(list, text),
        }
    }

    fn scan(&self, list: &[u8], bytes: &mut [u8]) -> Answer {
        let wrong = self.refused_97(Plant::Scan97, list);
        if let Some(answer) = wrong.or_else(|| self.beside_length(list.len(), list.len(), 0)) {
            return answer;
        }
        let good = |list: &[u8]| matches!(True.scan(list, &mut []).0, 0 | 5);
        match misread(self.plant, list) {
            Some(other) if good(list) && good(&other) => True.scan(&other, bytes),
            _ => True.scan(list, bytes),
        }
    }

    fn pack(&self, row: &[u8], record: &mut [u8]) -> Answer {
        let n = symbols_in(row.len());
        let head = self.wrong_head(n);
        let wrong = head.and_then(|head| self.packed_under(row, &head, record));
        let beside = || self.beside_length(n, row.len(), model::record_bytes(n));
        if let Some(answer) = wrong.or_else(beside) {
            return answer;
        }
        match (self.plant, True.pack(row, record)) {
            (Plant::Packed, (0, _)) => (0, row.len()),
            (_, answer) => answer,
        }
    }

    fn unpack(&self, record: &[u8], row: &mut [u8]) -> Answer {
        if let Some(answer) = self.wrong_of_version_2(record, row) {
            return answer;
        }
        match (self.plant, True.unpack(record, row)) {
            (Plant::Spare, (23, last)) => {
                let mut clean = record.to_vec();
                clean[last] = 0;
                True.unpack(&clean, row)
            }
            (Plant::VersionLast, (21, version)) => {
                match True.unpack(&[&[1], &record[1..]].concat(), &mut []) {
                    (number @ (22 | 23), second) => (number, second),
                    _ => (21, version),
                }
            }
            (_, answer) => answer,
        }
    }

    fn code128(&self, text: &str) -> Result<Vec<u8>, Error> {
        match (self.plant, True.code128(text)) {
            (Plant::DropIn, Err(Error::Character)) => Err(Error::Length),
            (Plant::RetiredDropIn, Err(_)) if barcoders_takes(text) => Err(Error::Length),
            (_, answer) => answer,
        }
    }
}
