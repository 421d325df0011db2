//! The label program written with the crate barcoders, to time the label program against:
//! `filter < labels.txt > rows.txt`.
use std::io::{self, BufReader, BufWriter};

/// The sizes of the two buffers, as in the label program.
const INPUT: usize = 65536;
const OUTPUT: usize = 88096;

/// Runs the filter from standard input to standard output, both buffered.
fn main() -> io::Result<()> {
    let input = BufReader::with_capacity(INPUT, io::stdin().lock());
    let output = BufWriter::with_capacity(OUTPUT, io::stdout().lock());
    bench::filter::run(input, output)
}
