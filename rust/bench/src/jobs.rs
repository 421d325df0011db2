//! Times the seven jobs of Code 128 against plain Rust, and encode against the crate.
use crate::report::Table;
use crate::timing::{measure, Side};
use barcoders::sym::code128::Code128;
use bench::inputs::{labels, Kind, Label};
use bench::plain::{self, Answer};
use slatmonief::Refusal;
use std::fmt::Debug;
use std::hint::black_box;

/// The sizes of the labels.
const SIZES: [usize; 4] = [2, 14, 50, 255];

/// The kinds of label; `Mixed` has no target for encode.
const KINDS: [Kind; 4] = [Kind::A, Kind::B, Kind::C, Kind::Mixed];

/// The kinds of label for scan, to which Shift makes a difference.
const SCANNED: [Kind; 5] = [Kind::A, Kind::B, Kind::C, Kind::Mixed, Kind::Shift];

/// The kinds and sizes of a table; a label of two symbols has no Shift.
fn lines<const N: usize>(kinds: [Kind; N]) -> impl Iterator<Item = (Kind, usize)> {
    kinds
        .into_iter()
        .flat_map(|kind| SIZES.map(|n| (kind, n)))
        .filter(|&(kind, n)| kind != Kind::Shift || n > 2)
}

/// The number of labels in a batch. It is larger for short labels, so that the processor does not
/// learn their symbols by heart.
fn count(n: usize) -> usize {
    (4096 / n).clamp(16, 256)
}

/// The size of every lent buffer: enough for any job.
const ROOM: usize = slatmonief::MOST_CELLS;

/// Every lent buffer begins at the beginning of a page of memory: a write across the end of a page
/// takes about 12 ns more, and without this it would occur with one buffer and not with another.
const PAGE: usize = 4096;

/// The target for the library's time, as a part of the crate's time.
const OF_CRATE: f64 = 0.06;

/// The target for the library's time, as a part of plain Rust's time.
pub const OF_PLAIN: f64 = 1.5;

/// A side that calls a job on its inputs, always with the same buffer.
pub fn lent<'a, I, O, R>(inputs: &[&'a [I]], job: impl Fn(&[I], &mut [O]) -> R + 'a) -> Side<'a>
where
    O: Copy + Default + 'a,
{
    let mut memory = vec![O::default(); ROOM + PAGE].into_boxed_slice();
    let start = memory.as_ptr().align_offset(PAGE);
    Side::new(inputs.to_vec(), move |input| {
        let buffer = &mut memory[start..start + ROOM];
        black_box(job(input, buffer));
        black_box(buffer);
    })
}

/// Asserts that both sides answer the same and leave the same buffer on every input.
pub fn agree<I, O>(
    inputs: &[&[I]],
    job: impl Fn(&[I], &mut [O]) -> Result<usize, Refusal>,
    plain: impl Fn(&[I], &mut [O]) -> Answer,
) where
    O: Copy + Default + PartialEq + Debug,
{
    for input in inputs {
        let (mut ours, mut theirs) = (vec![O::default(); ROOM], vec![O::default(); ROOM]);
        let answer = job(input, &mut ours).expect("the inputs are all accepted");
        assert_eq!((0, answer), plain(input, &mut theirs));
        assert_eq!(ours, theirs);
    }
}

/// Asserts that the crate makes the same rows as the library.
fn agree_with_crate(labels: &[Label]) {
    for label in labels {
        let row = Code128::new(&label.text)
            .expect("the inputs are all accepted")
            .encode();
        assert_eq!(row, label.row);
        assert_eq!(
            row,
            slatmonief::encode_str(&label.text).expect("the inputs are all accepted")
        );
    }
}

/// The first columns of a line of a table.
fn key(kind: Kind, n: usize) -> String {
    format!("{} | {n}", kind.name())
}

/// The target, which mixed labels do not have: they are only reported.
fn unless_mixed(kind: Kind, target: f64) -> Option<f64> {
    (kind != Kind::Mixed).then_some(target)
}

/// Times encode against the crate and against plain Rust, in the same rounds; and the `Code128` of
/// the library's Rust crate, which makes vectors, against the crate's.
pub fn encode(rounds: usize) -> Vec<Table> {
    let mut of_crate = Table::new("Encode beside the crate", "set | n", "ns", "crate");
    let mut of_plain = Table::new("Encode beside plain Rust", "set | n", "ns", "plain");
    let mut same_face = Table::new(
        "`Code128::new(text)` and `encode()` of the library's Rust face beside the crate's",
        "set | n",
        "ns",
        "crate",
    );
    for (kind, n) in lines(KINDS) {
        let labels = labels(kind, n, count(n));
        let points: Vec<&[u32]> = labels.iter().map(|l| &l.points[..]).collect();
        let texts: Vec<&str> = labels.iter().map(|l| &l.text[..]).collect();
        agree(&points, slatmonief::encode, plain::encode);
        agree_with_crate(&labels);
        let mut sides = [
            lent(&points, slatmonief::encode),
            lent(&points, plain::encode),
            Side::new(texts.clone(), |text: &str| {
                drop(black_box(Code128::new(text).unwrap().encode()))
            }),
            Side::new(texts, |text: &str| {
                drop(black_box(
                    slatmonief::sym::code128::Code128::new(text)
                        .unwrap()
                        .encode(),
                ))
            }),
        ];
        let times = measure(&mut sides, rounds);
        of_crate.add(
            key(kind, n),
            &times[0],
            &times[2],
            unless_mixed(kind, OF_CRATE),
        );
        of_plain.add(
            key(kind, n),
            &times[0],
            &times[1],
            unless_mixed(kind, OF_PLAIN),
        );
        same_face.add(key(kind, n), &times[3], &times[2], None);
    }
    vec![of_crate, of_plain, same_face]
}

/// Times read against the plain nested search and against a reader with a table, in the same
/// rounds.
pub fn read(rounds: usize) -> Vec<Table> {
    let mut of_plain = Table::new(
        "Read beside plain Rust with the same nested search",
        "set | n",
        "ns",
        "plain",
    );
    let mut of_table = Table::new(
        "Read beside a table-driven reader (the limit)",
        "set | n",
        "ns",
        "table",
    );
    for n in SIZES {
        let labels = labels(Kind::Mixed, n, count(n));
        let rows: Vec<&[u8]> = labels.iter().map(|l| &l.row[..]).collect();
        agree(&rows, slatmonief::read, plain::read);
        agree(&rows, slatmonief::read, plain::table_read);
        let mut sides = [
            lent(&rows, slatmonief::read),
            lent(&rows, plain::read),
            lent(&rows, plain::table_read),
        ];
        let times = measure(&mut sides, rounds);
        of_plain.add(key(Kind::Mixed, n), &times[0], &times[1], Some(OF_PLAIN));
        of_table.add(key(Kind::Mixed, n), &times[0], &times[2], None);
    }
    vec![of_plain, of_table]
}

/// Times a job against plain Rust on some kinds of label. A macro, so that both sides are called
/// directly by the job's name.
macro_rules! against_plain {
    ($(#[$doc:meta])* $job:ident, $title:literal, $input:ident, $kinds:expr, $target:expr) => {
        $(#[$doc])*
        pub fn $job(rounds: usize) -> Vec<Table> {
            let title = concat!($title, " beside plain Rust");
            let mut table = Table::new(title, "set | n", "ns", "plain");
            for (kind, n) in lines($kinds) {
                let labels = labels(kind, n, count(n));
                let inputs: Vec<&[u8]> = labels.iter().map(|l| &l.$input[..]).collect();
                agree(&inputs, slatmonief::$job, plain::$job);
                let mut sides = [lent(&inputs, slatmonief::$job), lent(&inputs, plain::$job)];
                let times = measure(&mut sides, rounds);
                table.add(key(kind, n), &times[0], &times[1], $target);
            }
            vec![table]
        }
    };
}

against_plain! {
    /// Times draw; it is only reported, since encode makes the same passes.
    draw, "Draw", symbols, [Kind::Mixed], None
}
against_plain! {
    /// Times spell on every kind of label: what it writes for a number depends on the set.
    spell, "Spell", symbols, KINDS, Some(OF_PLAIN)
}
against_plain! {
    /// Times scan, on the same labels and on labels with a Shift.
    scan, "Scan", symbols, SCANNED, Some(OF_PLAIN)
}
against_plain! {
    /// Times pack, which works on cells only.
    pack, "Pack", row, [Kind::Mixed], Some(OF_PLAIN)
}
against_plain! {
    /// Times unpack, which works on bytes only.
    unpack, "Unpack", record, [Kind::Mixed], Some(OF_PLAIN)
}
