//! What the calls that return a `Vec` or a `String` reserve: by the length of the input, and no
//! more than for the longest answer.
use slatmonief::sym::code128::Code128;
use slatmonief::sym::ean13::EAN13;
use slatmonief::{error::Error, *};
use std::alloc::{GlobalAlloc, Layout, System};
use std::cell::Cell;

thread_local! {
    /// The most bytes that this thread has reserved by one call since it was last set to 0.
    static MOST: Cell<usize> = const { Cell::new(0) };
    /// The bytes that this thread has reserved in all since it was last set to 0.
    static ALL: Cell<usize> = const { Cell::new(0) };
}

/// The system's allocator, which also notes what it is asked for.
struct Noted;

fn note(size: usize) {
    MOST.with(|most| most.set(most.get().max(size)));
    ALL.with(|all| all.set(all.get() + size));
}

// SAFETY: each call is the system's own.
unsafe impl GlobalAlloc for Noted {
    unsafe fn alloc(&self, layout: Layout) -> *mut u8 {
        note(layout.size());
        System.alloc(layout)
    }
    unsafe fn alloc_zeroed(&self, layout: Layout) -> *mut u8 {
        note(layout.size());
        System.alloc_zeroed(layout)
    }
    unsafe fn realloc(&self, place: *mut u8, layout: Layout, size: usize) -> *mut u8 {
        note(size);
        System.realloc(place, layout, size)
    }
    unsafe fn dealloc(&self, place: *mut u8, layout: Layout) {
        System.dealloc(place, layout)
    }
}

#[global_allocator]
static NOTED: Noted = Noted;

/// What a call returns, and the most bytes that it reserves at once.
fn noted<T>(call: impl FnOnce() -> T) -> (T, usize) {
    MOST.with(|most| most.set(0));
    let result = call();
    (result, MOST.with(Cell::get))
}

/// What a call returns, and the bytes that it reserves in all, given back or not.
fn summed<T>(call: impl FnOnce() -> T) -> (T, usize) {
    ALL.with(|all| all.set(0));
    let result = call();
    (result, ALL.with(Cell::get))
}

/// A label of 14 symbols: no call reserves more than its row of 178 cells, or a little over.
#[test]
fn a_short_label_reserves_little() {
    let (row, most) = noted(|| encode_str("ƁPARCEL-123456").unwrap());
    assert_eq!((row.len(), most), (178, 178));
    let (symbols, most) = noted(|| read_row(&row).unwrap());
    assert_eq!((symbols.len(), most), (14, 14));
    let (drawn, most) = noted(|| draw_symbols(&symbols).unwrap());
    assert_eq!((drawn.len(), most), (178, 178));
    let (text, most) = noted(|| spell_symbols(&symbols).unwrap());
    assert_eq!((text.len(), most), (15, 4 * 27));
    let (sent, most) = noted(|| scan_symbols(&symbols).unwrap());
    assert_eq!((sent.len(), most), (13, 26));
    let (record, most) = noted(|| pack_row(&row).unwrap());
    assert_eq!((record.len(), most), (25, 26));
    let (cells, most) = noted(|| unpack_record(&record).unwrap());
    assert_eq!((cells.len(), most), (178, 184));
}

/// The text of a short label takes four bytes for each of its own, and its row is as long as it is.
#[test]
fn a_short_text_is_copied_once() {
    let text = "ƁPARCEL-123456";
    let (row, all) = summed(|| encode_str(text).unwrap());
    assert_eq!((row.len(), all), (178, 4 * text.len() + 178));
    let (barcode, all) = summed(|| Code128::new(text).unwrap());
    assert_eq!((barcode.encode(), all), (row, 4 * text.len() + 178));
}

/// The longest text that goes to the library reserves its copy and the longest row.
#[test]
fn the_longest_text_reserves_the_bound() {
    let bound = 4 * MOST_CODE_POINTS + MOST_CELLS;
    let text = format!("Ć{}", "12".repeat(3_999));
    let (row, all) = summed(|| encode_str(&text).unwrap());
    assert_eq!((row.len(), all), (MOST_CELLS, bound));
    for text in [&text[..text.len() - 1], &text.replace('1', "\u{1F600}")] {
        let (refusal, all) = summed(|| encode_str(text).unwrap_err());
        assert_eq!((refusal.number(), all), (3, bound));
    }
    let longer = format!("{text}1");
    let (refusal, all) = summed(|| encode_str(&longer).unwrap_err());
    assert_eq!((refusal.number(), all), (3, 0));
}

/// A text of 100 megabytes, Ɓ and 50 million times Ź, reserves nothing, whatever its refusal.
#[test]
fn a_text_of_100_megabytes_reserves_nothing() {
    let mut text = format!("Ɓ{}", "Ź".repeat(50_000_000));
    assert_eq!(text.len(), 100_000_002);
    let (refusal, all) = summed(|| encode_str(&text).unwrap_err());
    let numbers = (refusal.number(), refusal.second());
    assert_eq!((numbers, all), ((4, 50_000_001), 0));
    let (error, all) = summed(|| Code128::new(&text).unwrap_err());
    assert_eq!((error, all), (Error::Length, 0));
    text.push('é');
    let (refusal, all) = summed(|| encode_str(&text).unwrap_err());
    let numbers = (refusal.number(), refusal.second());
    assert_eq!((numbers, all), ((3, 50_000_001), 0));
    assert_eq!(refusal.offset(), Some(100_000_002));
}

/// A million elements: no call reserves more than the longest answer takes.
#[test]
fn no_input_reserves_more_than_the_limit() {
    let million = vec![1; 1_000_000];
    let (refusal, most) = noted(|| read_row(&million).unwrap_err());
    assert_eq!((refusal.number(), most), (10, MOST_SYMBOLS));
    let (refusal, most) = noted(|| draw_symbols(&million).unwrap_err());
    assert_eq!((refusal.number(), most), (10, MOST_CELLS));
    let (refusal, most) = noted(|| spell_symbols(&million).unwrap_err());
    assert_eq!((refusal.number(), most), (10, 4 * MOST_CODE_POINTS));
    let (refusal, most) = noted(|| scan_symbols(&million).unwrap_err());
    assert_eq!((refusal.number(), most), (10, MOST_SCANNED));
    let (refusal, most) = noted(|| pack_row(&million).unwrap_err());
    assert_eq!((refusal.number(), most), (10, MOST_RECORD));
    let (refusal, most) = noted(|| unpack_record(&million).unwrap_err());
    assert_eq!((refusal.number(), most), (22, MOST_CELLS));
}

/// EAN-13 reserves the row or the digits, and nothing else.
#[test]
fn an_ean13_number_reserves_its_row() {
    let (row, all) = summed(|| ean13::write_str("4006381333931").unwrap());
    assert_eq!((row.len(), row.capacity(), all), (95, 95, 95));
    let (text, all) = summed(|| ean13::read_row(&row).unwrap());
    assert_eq!(
        (text.as_str(), text.capacity(), all),
        ("4006381333931", 13, 13)
    );
    let (barcode, all) = summed(|| EAN13::new(text).unwrap());
    assert_eq!(all, 0);
    let (encoded, all) = summed(|| barcode.encode());
    assert_eq!((encoded, all), (row, 95));
}

/// What EAN-13 refuses reserves nothing, however long it is.
#[test]
fn a_refused_ean13_reserves_nothing() {
    let million = "1".repeat(1_000_000);
    for (text, number, error) in [
        ("", 30, Error::Length),
        (&million, 30, Error::Length),
        ("40063813339é", 31, Error::Character),
        ("4006381333930", 32, Error::Checksum),
    ] {
        let (refusal, all) = summed(|| ean13::write_str(text).unwrap_err());
        assert_eq!((refusal.number(), all), (number, 0));
        let (refused, all) = summed(|| EAN13::new(text).unwrap_err());
        assert_eq!((refused, all), (error, 0));
    }
    for row in [&[], &[1; 95][..], million.as_bytes()] {
        let (refusal, all) = summed(|| ean13::read_row(row).unwrap_err());
        assert_eq!((refusal.number(), all), (33, 0));
    }
}

/// Records that declare far more than they have: what is reserved goes by what arrived.
#[test]
fn a_declared_size_reserves_nothing() {
    for record in [[1, 255, 0], [2, 15, 160], [2, 255, 255]] {
        let (refusal, most) = noted(|| unpack_record(&record).unwrap_err());
        assert_eq!((refusal.number(), most), (22, 8));
    }
}
