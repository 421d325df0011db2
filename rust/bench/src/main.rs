//! Times the library against the crate and against plain Rust, and prints the tables of
//! docs/BENCHMARKS.md: `cargo run --release -p bench [-- [PART...] [--rounds N]]`.
mod ean13;
mod growth;
mod jobs;
mod program;
mod report;
mod timing;

use report::Table;
use std::process::{Command, ExitCode};
use std::{env, fs, io, thread};

/// The parts of a run, in their order.
const PARTS: [&str; 11] = [
    "encode", "draw", "read", "spell", "scan", "pack", "unpack", "ean13", "growth", "label",
    "memory",
];

/// The number of rounds, unless the command line gives another.
const ROUNDS: usize = 101;

/// What the command line asks for.
struct Options {
    parts: Vec<String>,
    rounds: usize,
}

/// Reads the command line; without a part, all parts are meant.
fn options(args: impl Iterator<Item = String>) -> Option<Options> {
    let mut options = Options {
        parts: Vec::new(),
        rounds: ROUNDS,
    };
    let mut args = args;
    while let Some(arg) = args.next() {
        match arg.as_str() {
            "--rounds" => options.rounds = args.next()?.parse().ok().filter(|&n| n > 0)?,
            part if PARTS.contains(&part) => options.parts.push(arg),
            _ => return None,
        }
    }
    if options.parts.is_empty() {
        options.parts = PARTS.map(String::from).to_vec();
    }
    Some(options)
}

/// Prints the machine and the compiler.
fn print_machine() {
    let info = fs::read_to_string("/proc/cpuinfo").unwrap_or_default();
    let model = info
        .lines()
        .find(|line| line.starts_with("model name"))
        .and_then(|line| line.split(": ").nth(1))
        .unwrap_or("unknown");
    let cores = thread::available_parallelism().map_or(1, |n| n.get());
    let rustc = Command::new(env::var("RUSTC").unwrap_or_else(|_| "rustc".to_string()))
        .arg("--version")
        .output();
    let rustc = rustc.map_or_else(
        |_| "unknown".to_string(),
        |output| String::from_utf8_lossy(&output.stdout).trim().to_string(),
    );
    println!("Processor: {model}, {cores} cores. Compiler: {rustc}.");
}

/// Runs one part and prints it; returns the number of its targets and a sentence for each that is
/// not reached.
fn run(part: &str, rounds: usize) -> io::Result<(usize, Vec<String>)> {
    let tables: Vec<Table> = match part {
        "encode" => jobs::encode(rounds),
        "draw" => jobs::draw(rounds),
        "read" => jobs::read(rounds),
        "spell" => jobs::spell(rounds),
        "scan" => jobs::scan(rounds),
        "pack" => jobs::pack(rounds),
        "unpack" => jobs::unpack(rounds),
        "ean13" => ean13::run(rounds),
        "growth" => return Ok(growth::run(rounds)),
        "label" => program::time()?,
        _ => return program::memory().map(|_| (0, Vec::new())),
    };
    tables.iter().for_each(Table::print);
    let (asked, missed): (Vec<usize>, Vec<Vec<String>>) =
        tables.iter().map(Table::verdicts).unzip();
    Ok((asked.iter().sum(), missed.concat()))
}

/// Runs the parts that are asked for, and prints at the end which targets are not reached.
fn run_all(options: &Options) -> io::Result<()> {
    print_machine();
    println!(
        "In each round the sides come in turn; the ratio is that of the medians, its quartiles \
         are those of the rounds."
    );
    let (mut asked, mut missed) = (0, Vec::new());
    for part in PARTS
        .iter()
        .filter(|part| options.parts.iter().any(|p| p == *part))
    {
        let (targets, not_reached) = run(part, options.rounds)?;
        asked += targets;
        missed.extend(not_reached);
    }
    println!(
        "\n### Targets\n\n{} of {asked} reached.",
        asked - missed.len()
    );
    missed.iter().for_each(|m| println!("- Not reached: {m}"));
    Ok(())
}

/// Prints the usage if the command line cannot be read; times only an optimised build.
fn main() -> ExitCode {
    let Some(options) = options(env::args().skip(1)) else {
        eprintln!(
            "cargo run --release -p bench [-- [PART...] [--rounds N]], where PART is one of: {}",
            PARTS.join(", ")
        );
        return ExitCode::from(2);
    };
    if cfg!(debug_assertions) {
        eprintln!("bench: only an optimised build says anything: cargo run --release -p bench");
        return ExitCode::from(2);
    }
    match run_all(&options) {
        Ok(()) => ExitCode::SUCCESS,
        Err(error) => {
            eprintln!("bench: {error}");
            ExitCode::FAILURE
        }
    }
}
