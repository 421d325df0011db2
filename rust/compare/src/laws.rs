//! The laws between the jobs, in the library and in the crate; and one comparison again, for
//! shrinking and for `--case`.
use crate::ask;
use crate::check::{broken, wide, Element, Fault, Subject, Worker};
use crate::face::Answer;
use crate::model::{self, LIMIT};
use std::fmt::Debug;

/// The front that a job writes, as a vector, or its refusal.
fn made<T: Element>(
    room: usize,
    length: fn(usize) -> usize,
    call: impl FnOnce(&mut [T]) -> Answer,
) -> Result<Vec<T>, Answer> {
    let mut buffer = vec![T::of_mark(0xA7); room];
    match call(&mut buffer) {
        (0, n) if length(n) <= room => Ok(buffer[..length(n)].to_vec()),
        answer => Err(answer),
    }
}

/// How much longer a buffer is than what a job can need for its input.
const MORE: usize = 50;

/// What encode must give for a text that the crate accepts with this row: the row, or refusal 19 at
/// the first ź.
pub fn given(text: &[u32], row: &[u8]) -> Result<Vec<u8>, Answer> {
    match model::retired(text) {
        Some(place) => Err((19, place)),
        None => Ok(row.to_vec()),
    }
}

/// The length of the front, for a job that answers the number of its elements.
fn itself(n: usize) -> usize {
    n
}

impl Worker<'_> {
    /// The row that encode writes; a text has no more symbols than code points.
    pub fn made_row(&self, text: &[u32]) -> Result<Vec<u8>, Answer> {
        let room = model::cells(text.len()) + MORE;
        made(room, model::cells, |row| self.face.encode(text, row))
    }

    /// The row that draw writes.
    fn drawn(&self, list: &[u8]) -> Result<Vec<u8>, Answer> {
        let room = model::cells(list.len()) + MORE;
        made(room, model::cells, |row| self.face.draw(list, row))
    }

    /// The list that read writes.
    fn list_read(&self, row: &[u8]) -> Result<Vec<u8>, Answer> {
        let room = row.len() / 11 + MORE;
        made(room, itself, |list| self.face.read(row, list))
    }

    /// The text that spell writes.
    fn spelled(&self, list: &[u8]) -> Result<Vec<u32>, Answer> {
        let room = 2 * list.len() + MORE;
        made(room, itself, |text| self.face.spell(list, text))
    }

    /// The bytes that scan writes.
    fn sent(&self, list: &[u8]) -> Result<Vec<u8>, Answer> {
        let room = 2 * list.len() + MORE;
        made(room, itself, |bytes| self.face.scan(list, bytes))
    }

    /// The record that pack writes.
    pub fn packed(&self, row: &[u8]) -> Result<Vec<u8>, Answer> {
        let room = row.len().div_ceil(8) + MORE;
        made(room, itself, |record| self.face.pack(row, record))
    }

    /// The cells that unpack writes.
    fn unpacked(&self, record: &[u8]) -> Result<Vec<u8>, Answer> {
        let room = 8 * record.len() + MORE;
        made(room, itself, |row| self.face.unpack(record, row))
    }

    /// Compares two values, for a law.
    fn same<T: PartialEq + Debug>(
        &self,
        law: Subject,
        input: &[u32],
        what: &str,
        expected: T,
        got: T,
    ) -> Result<(), Box<Fault>> {
        if expected == got {
            return Ok(());
        }
        Err(broken(
            law,
            input.to_vec(),
            format!("{what}: {expected:?}"),
            format!("{got:?}"),
        ))
    }

    /// A text that the crate accepts: the symbols of its row are read, drawn and spelled, and the
    /// text with Ź moved has the same row, in the crate and, if there is no ź, in the library.
    pub fn text_law(&mut self, text: &[u32]) -> Result<(), Box<Fault>> {
        let law = Subject::TextLaw;
        let Some(row) = ask::row(text).filter(|row| row.len() <= model::cells(LIMIT)) else {
            return Ok(());
        };
        let moved = model::moved(text);
        self.same(
            law,
            text,
            "the crate's row of the moved text",
            Some(&row),
            ask::row(&moved).as_ref(),
        )?;
        self.same(
            law,
            text,
            "encode of the moved text",
            given(&moved, &row),
            self.made_row(&moved),
        )?;
        self.same(law, text, "encode", given(text, &row), self.made_row(text))?;
        let list = self.model.read(&row, LIMIT).front;
        self.same(
            law,
            text,
            "the list read from the row",
            Ok(&list),
            self.list_read(&row).as_ref(),
        )?;
        self.same(
            law,
            text,
            "the row of the list",
            Ok(&row),
            self.drawn(&list).as_ref(),
        )?;
        self.same(
            law,
            text,
            "the spelling is the moved text",
            Ok(&moved),
            self.spelled(&list).as_ref(),
        )?;
        self.tally.laws += 1;
        Ok(())
    }

    /// A list that is drawn: its row is read back, and its spelling has the same row, in the crate
    /// and, if there is no ź, in the library. If there is, the list is tried with 96 for 97 too.
    pub fn list_law(&mut self, list: &[u8]) -> Result<(), Box<Fault>> {
        let law = Subject::ListLaw;
        let Ok(row) = self.drawn(list) else {
            return Ok(());
        };
        let shown = wide(list);
        self.same(
            law,
            &shown,
            "the list read from its row",
            Ok(list),
            self.list_read(&row).as_deref(),
        )?;
        let text = self.spelled(list);
        let Ok(text) = text else {
            return self.same(law, &shown, "the list is spelled", Ok(Vec::new()), text);
        };
        self.spelling(&shown, &text, &row)?;
        if model::retired(&text).is_some() {
            return self.list_law(&model::without_97(list));
        }
        self.tally.laws += 1;
        Ok(())
    }

    /// What the law of lists says of the spelling: the crate's row of it, what encode gives for it,
    /// and no Ź inside a pair.
    fn spelling(&self, shown: &[u32], text: &[u32], row: &Vec<u8>) -> Result<(), Box<Fault>> {
        let law = Subject::ListLaw;
        self.same(
            law,
            shown,
            "encode of the spelling",
            given(text, row),
            self.made_row(text),
        )?;
        self.same(
            law,
            shown,
            "the crate's row of the spelling",
            Some(row),
            ask::row(text).as_ref(),
        )?;
        self.same(
            law,
            shown,
            "the spelling has no Ź inside a pair",
            text,
            &model::moved(text),
        )
    }

    /// A list that is scanned: Shift changes neither the number of bytes nor refusal 5, and without
    /// Shift the bytes are as document 01 had them.
    pub fn shift_law(&mut self, list: &[u8]) -> Result<(), Box<Fault>> {
        let (law, shown) = (Subject::ShiftLaw, wide(list));
        if self.model.scan(list, usize::MAX).number != 0 {
            return Ok(());
        }
        let (before, any) = model::unshifted(list);
        let need = match before.len() {
            0 => (0, 0),
            need => (5, need),
        };
        self.same(
            law,
            &shown,
            "the answer with no room, as without Shift",
            need,
            self.face.scan(list, &mut []),
        )?;
        let bytes = self.sent(list);
        self.same(
            law,
            &shown,
            "the number of bytes without Shift",
            Ok(before.len()),
            bytes.as_ref().map(Vec::len).map_err(|&answer| answer),
        )?;
        if !any {
            self.same(law, &shown, "the bytes of document 01", Ok(before), bytes)?;
        }
        self.tally.laws += 1;
        Ok(())
    }

    /// Cells that are packed are unpacked to the same cells.
    pub fn row_law(&mut self, row: &[u8]) -> Result<(), Box<Fault>> {
        let Ok(record) = self.packed(row) else {
            return Ok(());
        };
        let back = self.unpacked(&record);
        self.same(
            Subject::RowLaw,
            &wide(row),
            "unpack of pack",
            Ok(row),
            back.as_deref(),
        )?;
        self.tally.laws += 1;
        Ok(())
    }

    /// A record that is unpacked is packed to the same bytes.
    pub fn record_law(&mut self, record: &[u8]) -> Result<(), Box<Fault>> {
        let Ok(row) = self.unpacked(record) else {
            return Ok(());
        };
        let back = self.packed(&row);
        self.same(
            Subject::RecordLaw,
            &wide(record),
            "pack of unpack",
            Ok(record),
            back.as_deref(),
        )?;
        self.tally.laws += 1;
        Ok(())
    }

    /// Compares a subject again, for shrinking and for `--case`.
    pub fn again(
        &mut self,
        subject: Subject,
        input: &[u32],
        room: usize,
        mark: u8,
    ) -> Result<(), Box<Fault>> {
        let bytes: Vec<u8> = input.iter().map(|&element| element as u8).collect();
        match subject {
            Subject::Encode => self.encode(input, room, mark).map(drop),
            Subject::DropIn => self.drop_in(input, &ask::ask(input)),
            Subject::Draw => self.draw(&bytes, room, mark).map(drop),
            Subject::Read => self.read(&bytes, room, mark).map(drop),
            Subject::Spell => self.spell(&bytes, room, mark).map(drop),
            Subject::Scan => self.scan(&bytes, room, mark).map(drop),
            Subject::Pack => self.pack(&bytes, room, mark).map(drop),
            Subject::Unpack => self.unpack(&bytes, room, mark).map(drop),
            Subject::TextLaw => self.text_law(input),
            Subject::ListLaw => self.list_law(&bytes),
            Subject::ShiftLaw => self.shift_law(&bytes),
            Subject::RowLaw => self.row_law(&bytes),
            Subject::RecordLaw => self.record_law(&bytes),
            Subject::Ean13Write => self.ean13_write(&bytes, room, mark).map(drop),
            Subject::Ean13Read => self.ean13_read(&bytes, room, mark).map(drop),
            Subject::Ean13Type => self.ean13_type(&bytes),
            Subject::Ean13Law => self.ean13_law(&bytes),
            Subject::Count => Ok(()),
        }
    }
}
