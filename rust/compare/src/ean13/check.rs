//! Compares one call of EAN-13: write with the crate and with the model, read with the model, the
//! type with the crate's signatures with the crate's type.
use super::ask::{ask, typed, Crate};
use super::model::{self, CELLS, DIGITS};
use super::rows_of;
use crate::check::{broken, wide, Fault, Outcome, Subject, Worker};
use crate::model::Said;

/// Whether the model answers as the crate does: with the same row, or by the refusal that stands
/// for the crate's error. Bytes that are no UTF-8 have no row.
fn as_the_crate(said: &Said<u8>, crates: &Crate) -> bool {
    match crates {
        Crate::NoText => matches!(said.number, 30 | 31),
        Crate::Length => said.number == 30,
        Crate::Character => said.number == 31,
        Crate::Checksum => said.number == 32,
        Crate::Row(row) if said.number == 5 => said.second == row.len(),
        Crate::Row(row) => said.number == 0 && said.front == *row,
    }
}

impl Worker<'_> {
    /// Compares write with the model, which must answer as the crate does.
    pub fn ean13_write(&mut self, text: &[u8], room: usize, mark: u8) -> Outcome {
        let (said, crates) = (model::write(text, room), ask(text));
        if !as_the_crate(&said, &crates) {
            let (crates, said) = (
                format!("the crate: {crates:?}"),
                format!("the model: {said:?}"),
            );
            return Err(broken(Subject::Ean13Write, wide(text), crates, said));
        }
        let face = self.face;
        let number = self.bytes_job(Subject::Ean13Write, text, &said, room, mark, |row| {
            face.ean13_write(text, row)
        })?;
        for row in rows_of(text, &crates, number) {
            self.tally.ean13_listed[row as usize] += 1;
        }
        Ok(number)
    }

    /// Compares read with the model.
    pub fn ean13_read(&mut self, row: &[u8], room: usize, mark: u8) -> Outcome {
        let (said, face) = (model::read(row, room), self.face);
        self.bytes_job(Subject::Ean13Read, row, &said, room, mark, |text| {
            face.ean13_read(row, text)
        })
    }

    /// Compares read on a row that it must refuse, whatever the model says; the model must refuse
    /// it too.
    pub fn ean13_refused(&mut self, row: &[u8], room: usize, mark: u8) -> Result<(), Box<Fault>> {
        match self.ean13_read(row, room, mark)? {
            33 => Ok(()),
            number => Err(broken(
                Subject::Count,
                wide(row),
                "33: the row is not written for any text".into(),
                format!("{number}, by the model too"),
            )),
        }
    }

    /// Compares the type with the crate's signatures with the crate's own: the row, the debug
    /// output or the error. Bytes that are no UTF-8 are left out.
    pub fn ean13_type(&mut self, text: &[u8]) -> Result<(), Box<Fault>> {
        let Ok(words) = std::str::from_utf8(text) else {
            return Ok(());
        };
        let (expected, got) = (typed(words), self.face.ean13_type(words));
        if expected != got {
            let (expected, got) = (format!("{expected:?}"), format!("{got:?}"));
            return Err(broken(Subject::Ean13Type, wide(text), expected, got));
        }
        self.tally.ean13_types += 1;
        Ok(())
    }

    /// A text that is written: its row is read to its twelve digits and a check, and these thirteen
    /// have the same row.
    pub fn ean13_law(&mut self, text: &[u8]) -> Result<(), Box<Fault>> {
        let (mut row, mut back, mut again) = ([0xA7; CELLS], [0xA7; DIGITS], [0xA7; CELLS]);
        if self.face.ean13_write(text, &mut row).0 != 0 {
            return Ok(());
        }
        let read = self.face.ean13_read(&row, &mut back);
        let written = self.face.ean13_write(&back, &mut again);
        if (read, written) != ((0, DIGITS), (0, CELLS)) || back[..12] != text[..12] || again != row
        {
            let expected = format!(
                "{:?} is read from its row, and its row is the same",
                &text[..12]
            );
            let got = format!("{read:?} {back:?}, {written:?} {again:?}");
            return Err(broken(Subject::Ean13Law, wide(text), expected, got));
        }
        self.tally.laws += 1;
        Ok(())
    }
}
