//! The label program as one would write it with the crate barcoders: a line of code points in, a
//! line of cells out.
//!
//! It writes what the label program writes, with one difference: the crate does not give the place
//! where parsing stops, so that the second number of refusal 3 is a `?` here. It holds a whole line
//! in memory, however long the line is. The crate takes ź (FNC2), so the filter refuses it itself.
use barcoders::error::Error;
use barcoders::sym::code128::Code128;
use std::io::{self, BufRead, Write};

/// The most bytes that a line may have. Such a line has at most 2,048 symbols, so no label is too
/// long.
const LINE: usize = 4096;

/// The number that is written with one to six upper-case hex digits.
fn number(digits: &[u8]) -> Option<u32> {
    if !(1..=6).contains(&digits.len()) {
        return None;
    }
    digits.iter().try_fold(0, |value, &digit| match digit {
        b'0'..=b'9' => Some(value << 4 | u32::from(digit - b'0')),
        b'A'..=b'F' => Some(value << 4 | u32::from(digit - b'A' + 10)),
        _ => None,
    })
}

/// Reads the code points of a line into `points`; false if the line has another form.
fn read_line(line: &[u8], points: &mut Vec<u32>) -> bool {
    points.clear();
    if line.is_empty() {
        return true;
    }
    if line.len() > LINE {
        return false;
    }
    line.split(|&byte| byte == b' ')
        .all(|digits| number(digits).map(|point| points.push(point)).is_some())
}

/// Writes the code points to `text`, or returns the place of the first one that is not a scalar
/// value.
fn read_points(points: &[u32], text: &mut String) -> Result<(), usize> {
    text.clear();
    for (place, &point) in points.iter().enumerate() {
        text.push(char::from_u32(point).ok_or(place)?);
    }
    Ok(())
}

/// Writes the answer to a text: the cells of its row, or the refusal.
fn write_text(text: &str, out: &mut Vec<u8>) -> io::Result<()> {
    match Code128::new(text).map(|barcode| barcode.encode()) {
        Err(Error::Length) => write!(out, "2 0"),
        Err(_) => write!(out, "3 ?"),
        Ok(row) => match text.chars().position(|c| c == 'ź') {
            Some(place) => write!(out, "19 {place}"),
            None => {
                write!(out, "0 {} ", (row.len() - 24) / 11)?;
                out.extend(row.iter().map(|cell| b'0' + cell));
                Ok(())
            }
        },
    }
}

/// Answers every line of the input, with the same buffers.
pub fn run(mut input: impl BufRead, mut output: impl Write) -> io::Result<()> {
    let (mut line, mut points, mut text, mut out) =
        (Vec::new(), Vec::new(), String::new(), Vec::new());
    while input.read_until(b'\n', &mut line)? > 0 {
        let content = line.strip_suffix(b"\n").unwrap_or(&line);
        if read_line(content, &mut points) {
            match read_points(&points, &mut text) {
                Ok(()) => write_text(&text, &mut out)?,
                Err(place) => write!(out, "1 {place}")?,
            }
        } else {
            out.push(b'?');
        }
        out.push(b'\n');
        output.write_all(&out)?;
        line.clear();
        out.clear();
    }
    output.flush()
}
