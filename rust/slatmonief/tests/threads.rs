//! Calls from many threads at once, each with its own buffers: the answers are those of one thread.
//! On x86-64 they all run in the library at once; on Arm the bridge has a process for each.
use slatmonief::sym::code128::Code128;
use slatmonief::sym::ean13::EAN13;
use slatmonief::*;
use std::sync::Barrier;
use std::thread;

/// How many threads call at once.
const THREADS: usize = 8;

/// What one text leads to: the answer of every job on a lent buffer, with what stands in the buffer
/// afterwards, and what the calls that return a `Vec` or a `String` give.
#[derive(Debug, PartialEq)]
struct Answers {
    lent: Vec<(Result<usize, Refusal>, Vec<u8>)>,
    spelled: (Result<usize, Refusal>, Vec<u32>),
    returned: Vec<Result<Vec<u8>, Refusal>>,
    texts: Vec<Result<String, Refusal>>,
    barcodes: (Result<Code128, error::Error>, Result<EAN13, error::Error>),
}

/// The answer of a job, and its buffer.
fn lent<T: Copy>(
    blank: T,
    room: usize,
    job: impl FnOnce(&mut [T]) -> Result<usize, Refusal>,
) -> (Result<usize, Refusal>, Vec<T>) {
    let mut buffer = vec![blank; room];
    (job(&mut buffer), buffer)
}

/// Asks every job, about this text and about what it is encoded to; or, if it is refused, about the
/// bytes of the text themselves.
fn ask(text: &str, room: usize) -> Answers {
    let points: Vec<u32> = text.chars().map(u32::from).collect();
    let row = encode_str(text).unwrap_or_else(|_| text.into());
    let list = read_row(&row).unwrap_or_else(|_| text.into());
    let record = pack_row(&row).unwrap_or_else(|_| text.into());
    let goods = ean13::write_str(text).unwrap_or_else(|_| text.into());
    Answers {
        lent: vec![
            lent(9, room, |out| encode(&points, out)),
            lent(9, room, |out| draw(&list, out)),
            lent(200, room, |out| read(&row, out)),
            lent(200, room, |out| scan(&list, out)),
            lent(9, room, |out| pack(&row, out)),
            lent(9, room, |out| unpack(&record, out)),
            lent(9, room, |out| ean13::write(text.as_bytes(), out)),
            lent(9, room, |out| ean13::read(&goods, out)),
        ],
        spelled: lent(7, room, |out| spell(&list, out)),
        returned: vec![
            encode_str(text),
            draw_symbols(&list),
            read_row(&row),
            scan_symbols(&list),
            pack_row(&row),
            unpack_record(&record),
            ean13::write_str(text),
        ],
        texts: vec![spell_symbols(&list), ean13::read_row(&goods)],
        barcodes: (Code128::new(text), EAN13::new(text)),
    }
}

/// Labels of many lengths and EAN-13 numbers, some of which are refused.
fn texts() -> Vec<String> {
    let mut texts: Vec<String> = ["", "A", "Hello", "ÀHello", "Ć1", "Ɓź", "Ɓ€", "ĆŹ1Ź2"]
        .map(String::from)
        .into();
    let numbers = [
        "400638133393",
        "4006381333931",
        "4006381333930",
        "9783161484100",
        "978-316148410",
        "0036000291452",
        "999999999999",
        "75010313113",
    ];
    texts.extend(numbers.map(String::from));
    for n in [0, 1, 2, 7, 13, 99, 254, 255, 256, 1_000, 3_999, 4_000] {
        texts.push(format!("Ɓ{}", "aB7".repeat(n).get(..n).unwrap_or_default()));
        texts.push(format!("Ć{}", "37".repeat(n)));
    }
    texts
}

#[test]
fn many_threads_at_once() {
    let texts = texts();
    let rooms = [0, 60, MOST_CELLS];
    let asked = || texts.iter().flat_map(|text| rooms.map(|room| (text, room)));
    let alone: Vec<Answers> = asked().map(|(text, room)| ask(text, room)).collect();
    assert_eq!(alone.len(), 120);
    let barrier = Barrier::new(THREADS);
    thread::scope(|scope| {
        for first in 0..THREADS {
            let (alone, asked, barrier) = (&alone, &asked, &barrier);
            scope.spawn(move || {
                barrier.wait();
                // Each begins elsewhere, so that different jobs and labels meet.
                let inputs = asked().zip(alone).cycle().skip(first * 15).take(120);
                for ((text, room), answers) in inputs {
                    assert_eq!(ask(text, room), *answers);
                }
            });
        }
    });
}
