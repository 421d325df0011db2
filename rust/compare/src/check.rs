//! Compares one call with what it must answer, counts it, and keeps it in full if it differs.
use crate::ask::{self, Crate, MOST_DRAWN};
use crate::ean13;
use crate::face::{Answer, Face};
use crate::listed;
use crate::model::{accept, cells, refuse, retired, Model, Said, LIMIT};
use slatmonief::error::Error;
use std::fmt::Debug;

/// What is compared: one of the jobs, one of the laws between them, or a count over a whole part.
#[derive(Clone, Copy, Debug, PartialEq, Eq)]
pub enum Subject {
    /// Encode, compared with the crate.
    Encode,
    /// The type with the crate's signatures, compared with the crate.
    DropIn,
    /// Draw, compared with the model.
    Draw,
    /// Read, compared with the model.
    Read,
    /// Spell, compared with the model.
    Spell,
    /// Scan, compared with the model.
    Scan,
    /// Pack, compared with the model.
    Pack,
    /// Unpack, compared with the model.
    Unpack,
    /// A text that the crate accepts: its row is read, its symbols are drawn and spelled, and Ź
    /// moved ahead of its pair gives the same row.
    TextLaw,
    /// A symbol list that is drawn: its row is read, and its spelling is encoded by the crate and,
    /// if it has no ź, by the library.
    ListLaw,
    /// A symbol list that is scanned: Shift changes neither the number of bytes nor refusal 5, and
    /// without Shift the bytes are as document 01 had them.
    ShiftLaw,
    /// Cells that are packed: unpack gives them back.
    RowLaw,
    /// A record that is unpacked: pack gives it back.
    RecordLaw,
    /// Write of EAN-13, compared with the crate and with a model.
    Ean13Write,
    /// Read of EAN-13, compared with a model.
    Ean13Read,
    /// The type for EAN-13 with the crate's signatures, compared with the crate.
    Ean13Type,
    /// A text that is written as EAN-13: its row is read, and what is read is written again.
    Ean13Law,
    /// A count or a set over a whole part; the input is only shown.
    Count,
}

/// Every subject that can be compared again, and its name on the command line.
pub const SUBJECTS: [(&str, Subject); 17] = [
    ("encode", Subject::Encode),
    ("drop-in", Subject::DropIn),
    ("draw", Subject::Draw),
    ("read", Subject::Read),
    ("spell", Subject::Spell),
    ("scan", Subject::Scan),
    ("pack", Subject::Pack),
    ("unpack", Subject::Unpack),
    ("text-law", Subject::TextLaw),
    ("list-law", Subject::ListLaw),
    ("shift-law", Subject::ShiftLaw),
    ("row-law", Subject::RowLaw),
    ("record-law", Subject::RecordLaw),
    ("ean13-write", Subject::Ean13Write),
    ("ean13-read", Subject::Ean13Read),
    ("ean13-type", Subject::Ean13Type),
    ("ean13-law", Subject::Ean13Law),
];

/// The calls with more than 255 symbols that are counted once they are accepted, and how a run
/// names them.
pub const LONG: [(Subject, &str); 4] = [
    (Subject::Encode, "encode with more than 255 symbols"),
    (Subject::Read, "read with more than 255 symbols"),
    (Subject::Pack, "pack to version 2"),
    (Subject::Unpack, "unpack from version 2"),
];

/// A difference that is not allowed.
#[derive(Clone, Debug)]
pub struct Fault {
    /// What was compared.
    pub subject: Subject,
    /// The input; bytes are widened to 32 bits.
    pub input: Vec<u32>,
    /// The length of the lent buffer.
    pub room: usize,
    /// What the buffer was filled with.
    pub mark: u8,
    /// The right answer, in words.
    pub expected: String,
    /// The answer that was given, in words.
    pub got: String,
}

/// The answer number of a right answer (0 is accepted), or the difference.
pub type Outcome = Result<u32, Box<Fault>>;

/// The refusals have numbers below this.
pub const NUMBERS: usize = 34;

/// How much was compared.
#[derive(Clone, Debug)]
pub struct Tally {
    /// Texts, lists, rows and records that were tried; each counts once, with all its buffers.
    pub inputs: u64,
    /// Calls that were accepted.
    pub accepted: u64,
    /// Calls that were refused, by the number of the refusal.
    pub refused: [u64; NUMBERS],
    /// Laws that were tested, and held.
    pub laws: u64,
    /// Calls of the type with the crate's signatures.
    pub drop_in: u64,
    /// Accepted inputs of encode that are too long for the crate to draw.
    pub undrawn: u64,
    /// Accepted calls with more than 255 symbols, for each row of `LONG`.
    pub long: [u64; LONG.len()],
    /// Calls of encode for each row of the list.
    pub listed: [u64; listed::LIST.len()],
    /// Calls of write and of read of EAN-13 that were accepted.
    pub ean13_accepted: [u64; 2],
    /// Calls of the type for EAN-13 with the crate's signatures.
    pub ean13_types: u64,
    /// Calls of write of EAN-13 for each row of its list.
    pub ean13_listed: [u64; ean13::LIST.len()],
}

impl Default for Tally {
    /// Nothing.
    fn default() -> Tally {
        Tally {
            inputs: 0,
            accepted: 0,
            refused: [0; NUMBERS],
            laws: 0,
            drop_in: 0,
            undrawn: 0,
            long: [0; LONG.len()],
            listed: [0; listed::LIST.len()],
            ean13_accepted: [0; 2],
            ean13_types: 0,
            ean13_listed: [0; ean13::LIST.len()],
        }
    }
}

impl Tally {
    /// Adds another tally.
    pub fn add(&mut self, other: &Tally) {
        self.inputs += other.inputs;
        self.accepted += other.accepted;
        self.laws += other.laws;
        self.drop_in += other.drop_in;
        self.undrawn += other.undrawn;
        add_each(&mut self.refused, &other.refused);
        add_each(&mut self.long, &other.long);
        add_each(&mut self.listed, &other.listed);
        add_each(&mut self.ean13_accepted, &other.ean13_accepted);
        self.ean13_types += other.ean13_types;
        add_each(&mut self.ean13_listed, &other.ean13_listed);
    }

    /// The number of calls.
    pub fn calls(&self) -> u64 {
        self.accepted + self.refused.iter().sum::<u64>()
    }

    /// Counts one call on an input of this length: by its answer number, and for `LONG`.
    fn call(&mut self, subject: Subject, length: usize, (number, second): Answer) {
        if number != 0 {
            self.refused[number as usize] += 1;
            return;
        }
        self.accepted += 1;
        self.ean13_accepted[0] += u64::from(subject == Subject::Ean13Write);
        self.ean13_accepted[1] += u64::from(subject == Subject::Ean13Read);
        let long = symbols_of(subject, length, second) > 255;
        let row = LONG.iter().position(|&(counted, _)| counted == subject);
        if let Some(row) = row.filter(|_| long) {
            self.long[row] += 1;
        }
    }
}

/// The number of symbols of an accepted call, from the length of its input and its second number.
fn symbols_of(subject: Subject, length: usize, second: usize) -> usize {
    match subject {
        Subject::Spell | Subject::Scan => length,
        Subject::Pack => (length - 24) / 11,
        Subject::Unpack => (second - 24) / 11,
        _ => second,
    }
}

/// Adds to each count the one at its place.
fn add_each(mine: &mut [u64], theirs: &[u64]) {
    mine.iter_mut()
        .zip(theirs)
        .for_each(|(mine, theirs)| *mine += theirs);
}

/// An element of a lent buffer.
pub trait Element: Copy + PartialEq + Debug {
    /// The element that fills a buffer with this mark.
    fn of_mark(mark: u8) -> Self;
}

impl Element for u8 {
    fn of_mark(mark: u8) -> u8 {
        mark
    }
}

impl Element for u32 {
    fn of_mark(mark: u8) -> u32 {
        u32::from_ne_bytes([mark; 4])
    }
}

/// The number of elements before and after the lent part, which no call may change.
const FENCE: usize = 16;

/// Lends the middle of a marked buffer.
fn lend<T: Element>(
    buffer: &mut Vec<T>,
    room: usize,
    mark: T,
    call: impl FnOnce(&mut [T]) -> Answer,
) -> Answer {
    buffer.clear();
    buffer.resize(room + 2 * FENCE, mark);
    call(&mut buffer[FENCE..FENCE + room])
}

/// Whether the answer and every element of the buffer are right.
fn agrees<T: Element>(buffer: &[T], mark: T, answer: Answer, said: &Said<T>) -> bool {
    let end = FENCE + said.front.len();
    answer == (said.number, said.second)
        && buffer.len() >= end + FENCE
        && buffer[FENCE..end] == said.front[..]
        && buffer[..FENCE]
            .iter()
            .chain(&buffer[end..])
            .all(|&element| element == mark)
}

/// An answer in words, with every element of the buffer if it was changed, and of the fences if
/// they were.
fn in_words<T: Element>(number: u32, second: usize, buffer: &[T], mark: T) -> String {
    let lent = &buffer[FENCE..buffer.len() - FENCE];
    let fences = buffer[..FENCE]
        .iter()
        .chain(&buffer[buffer.len() - FENCE..])
        .any(|&element| element != mark);
    let outside = if fences {
        format!(
            "; around it {:?} and {:?}",
            &buffer[..FENCE],
            &buffer[buffer.len() - FENCE..]
        )
    } else {
        String::new()
    };
    if lent.iter().all(|&element| element == mark) {
        return format!(
            "{number} {second}, the {} elements of the buffer as lent{outside}",
            lent.len()
        );
    }
    format!("{number} {second}, buffer {lent:?}{outside}")
}

/// The buffer after the right answer.
fn should_be<T: Element>(said: &Said<T>, room: usize, mark: T) -> Vec<T> {
    let mut buffer = vec![mark; room + 2 * FENCE];
    let end = (FENCE + said.front.len()).min(buffer.len());
    buffer[FENCE..end].copy_from_slice(&said.front[..end - FENCE]);
    buffer
}

/// Bytes widened to 32 bits, as the input of a fault.
pub fn wide(bytes: &[u8]) -> Vec<u32> {
    bytes.iter().map(|&byte| u32::from(byte)).collect()
}

/// What one thread works with: the library, the model, the counts and two buffers.
pub struct Worker<'a> {
    /// The library, or a wrong one.
    pub face: &'a dyn Face,
    /// The model.
    pub model: &'a Model,
    /// The counts so far.
    pub tally: Tally,
    bytes: Vec<u8>,
    points: Vec<u32>,
}

macro_rules! with_model {
    (
        $(#[$doc:meta])*
        $name:ident,
        $(#[$known_doc:meta])*
        $known:ident, $subject:ident, $scratch:ident, $element:ty
    ) => {
        $(#[$doc])*
        pub fn $name(&mut self, input: &[u8], room: usize, mark: u8) -> Outcome {
            let said = self.model.$name(input, room);
            self.$known(input, &said, room, mark)
        }
        $(#[$known_doc])*
        pub fn $known(
            &mut self,
            input: &[u8],
            said: &Said<$element>,
            room: usize,
            mark: u8,
        ) -> Outcome {
            let filled = <$element>::of_mark(mark);
            let face = self.face;
            let answer = lend(&mut self.$scratch, room, filled, |out| face.$name(input, out));
            if !agrees(&self.$scratch, filled, answer, said) {
                let (subject, buffer) = (Subject::$subject, &self.$scratch);
                return Err(fault(subject, wide(input), room, mark, said, answer, buffer));
            }
            self.tally.call(Subject::$subject, input.len(), answer);
            Ok(answer.0)
        }
    };
}

/// A difference of one job, in full.
fn fault<T: Element>(
    subject: Subject,
    input: Vec<u32>,
    room: usize,
    mark: u8,
    said: &Said<T>,
    answer: Answer,
    buffer: &[T],
) -> Box<Fault> {
    let filled = T::of_mark(mark);
    let expected = in_words(
        said.number,
        said.second,
        &should_be(said, room, filled),
        filled,
    );
    let got = in_words(answer.0, answer.1, buffer, filled);
    Box::new(Fault {
        subject,
        input,
        room,
        mark,
        expected,
        got,
    })
}

/// A difference of a law or a count.
pub fn broken(subject: Subject, input: Vec<u32>, expected: String, got: String) -> Box<Fault> {
    Box::new(Fault {
        subject,
        input,
        room: 0,
        mark: 0xA7,
        expected,
        got,
    })
}

/// What encode must answer to a text, from the crate's answer, the place of refusal 3 and, if the
/// crate accepts the text, the place of its first ź.
fn encode_said(text: &[u32], said: &Crate, place: usize, room: usize) -> Said<u8> {
    match said {
        Crate::NoText(place) => refuse(1, *place),
        Crate::Length => refuse(2, 0),
        Crate::Character => refuse(3, place),
        Crate::Row(row) => match ((row.len() - 24) / 11, retired(text)) {
            (_, Some(first)) => refuse(19, first),
            (n, None) if n > LIMIT => refuse(4, n),
            (_, None) if room < row.len() => refuse(5, row.len()),
            (n, None) => accept(n, row.clone()),
        },
    }
}

impl<'a> Worker<'a> {
    /// A worker with nothing counted.
    pub fn new(face: &'a dyn Face, model: &'a Model) -> Worker<'a> {
        Worker {
            face,
            model,
            tally: Tally::default(),
            bytes: Vec::new(),
            points: Vec::new(),
        }
    }

    /// Compares a job that writes bytes with what it must answer.
    pub(crate) fn bytes_job(
        &mut self,
        subject: Subject,
        input: &[u8],
        said: &Said<u8>,
        room: usize,
        mark: u8,
        call: impl FnOnce(&mut [u8]) -> Answer,
    ) -> Outcome {
        let answer = lend(&mut self.bytes, room, mark, call);
        if !agrees(&self.bytes, mark, answer, said) {
            let buffer = &self.bytes;
            return Err(fault(
                subject,
                wide(input),
                room,
                mark,
                said,
                answer,
                buffer,
            ));
        }
        self.tally.call(subject, input.len(), answer);
        Ok(answer.0)
    }

    /// Counts an input of encode.
    pub fn count_text(&mut self, crates: &Crate) {
        let undrawn = matches!(crates, Crate::Row(row) if row.len() > cells(MOST_DRAWN));
        self.tally.inputs += 1;
        self.tally.undrawn += u64::from(undrawn);
    }

    /// Compares encode with the crate.
    pub fn encode(&mut self, text: &[u32], room: usize, mark: u8) -> Outcome {
        let said = ask::ask(text);
        let place = place_for(text, &said);
        self.encode_known(text, &said, place, room, mark)
    }

    /// Compares encode with a known answer of the crate.
    pub fn encode_known(
        &mut self,
        text: &[u32],
        crates: &Crate,
        place: usize,
        room: usize,
        mark: u8,
    ) -> Outcome {
        let said = encode_said(text, crates, place, room);
        let face = self.face;
        let answer = lend(&mut self.bytes, room, mark, |row| face.encode(text, row));
        if !agrees(&self.bytes, mark, answer, &said) {
            return Err(fault(
                Subject::Encode,
                text.to_vec(),
                room,
                mark,
                &said,
                answer,
                &self.bytes,
            ));
        }
        self.tally.call(Subject::Encode, text.len(), answer);
        for row in listed::rows_of(text, crates, place, answer.0) {
            self.tally.listed[row as usize] += 1;
        }
        Ok(answer.0)
    }

    /// Compares `Code128`, the type with the crate's signatures, with a known answer of the crate.
    /// A ź must give `Error::Character`, and more than 4,000 symbols without one `Error::Length`.
    pub fn drop_in(&mut self, text: &[u32], crates: &Crate) -> Result<(), Box<Fault>> {
        let Ok(words) = ask::text_of(text) else {
            return Ok(());
        };
        let expected = match crates {
            Crate::Row(_) if retired(text).is_some() => Err(Error::Character),
            Crate::Row(row) if row.len() <= cells(LIMIT) => Ok(row),
            Crate::Character => Err(Error::Character),
            _ => Err(Error::Length),
        };
        let answer = self.face.code128(&words);
        if expected != answer.as_ref().map_err(|&error| error) {
            return Err(broken(
                Subject::DropIn,
                text.to_vec(),
                format!("{expected:?}"),
                format!("{answer:?}"),
            ));
        }
        self.tally.drop_in += 1;
        Ok(())
    }

    with_model! {
        /// Compares read with the model.
        read,
        /// Compares read with a known answer.
        read_known, Read, bytes, u8
    }
    with_model! {
        /// Compares draw with the model.
        draw,
        /// Compares draw with a known answer.
        draw_known, Draw, bytes, u8
    }
    with_model! {
        /// Compares spell with the model.
        spell,
        /// Compares spell with a known answer.
        spell_known, Spell, points, u32
    }
    with_model! {
        /// Compares scan with the model.
        scan,
        /// Compares scan with a known answer.
        scan_known, Scan, bytes, u8
    }
    with_model! {
        /// Compares pack with the model.
        pack,
        /// Compares pack with a known answer.
        pack_known, Pack, bytes, u8
    }
    with_model! {
        /// Compares unpack with the model.
        unpack,
        /// Compares unpack with a known answer.
        unpack_known, Unpack, bytes, u8
    }
}

/// The place of refusal 3 if the crate refuses by `Character`, otherwise 0.
pub fn place_for(text: &[u32], said: &Crate) -> usize {
    match said {
        Crate::Character => ask::place(text),
        _ => 0,
    }
}
