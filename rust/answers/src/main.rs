//! Asks the crate barcoders 2.0.0, and makes the list of its answers that crates/replay replays.
//!
//! ```text
//! cargo run --release -p answers               writes crates/replay/stdin and crates/replay/stdout
//! cargo run --release -p answers -- --check    compares the two files with what it would write
//! cargo run --release -p answers -- --ask      answers each line of standard input
//! ```
//!
//! The first two take another folder than crates/replay as their last argument. README.md says what
//! a line is and what is in the list.
mod ask;
mod inputs;
mod points;

use ask::Asker;
use std::collections::HashSet;
use std::io::{self, BufRead, BufWriter, Write};
use std::path::{Path, PathBuf};
use std::process::ExitCode;

/// The most bytes of a line that crates/replay reads.
const MOST_BYTES: usize = 4096;

/// The two files of the list, as the crate answers today, with 19 where it takes a ź.
struct Files {
    stdin: String,
    stdout: String,
}

/// Makes the list, and prints how many inputs it has of each kind.
fn make() -> Files {
    let asker = Asker::new();
    let mut files = Files {
        stdin: String::new(),
        stdout: String::new(),
    };
    let mut counts = [("rows", 0), ("Character", 0), ("Length", 0), ("retired", 0)];
    let (mut numbers, mut checks) = (HashSet::new(), HashSet::new());
    for text in inputs::inputs(&asker) {
        let (input, answer) = (points::line_of(&text), asker.listed(&text));
        assert!(input.len() <= MOST_BYTES, "a line of {} bytes", input.len());
        let kind = match (asker.retired(&text), asker.symbols(&text)) {
            (Some(_), _) => 3,
            (None, Err(name)) => 1 + usize::from(name == "Length"),
            (None, Ok(symbols)) => {
                let (check, list) = symbols.split_last().unwrap();
                checks.insert(*check);
                numbers.extend(list.iter().copied());
                0
            }
        };
        counts[kind].1 += 1;
        files.stdin += &(input + "\n");
        files.stdout += &(answer + "\n");
    }
    assert_eq!(numbers.len(), 106, "a number that no row of the list has");
    assert_eq!(checks.len(), 103, "a check that no row of the list has");
    let kinds = counts.map(|(name, count)| format!("{count} {name}"));
    println!(
        "{} inputs: {}",
        files.stdin.lines().count(),
        kinds.join(", ")
    );
    files
}

/// Whether a file differs from what it should be; prints the first line that does.
fn differs(path: &Path, want: &str) -> bool {
    let have = match std::fs::read_to_string(path) {
        Ok(have) => have,
        Err(error) => {
            println!("{}: {error}", path.display());
            return true;
        }
    };
    if have == want {
        return false;
    }
    let (mut have_lines, mut want_lines) = (have.split('\n'), want.split('\n'));
    let mut place = 1;
    loop {
        match (have_lines.next(), want_lines.next()) {
            (Some(have), Some(want)) if have == want => place += 1,
            (have, want) => {
                println!("{} line {place} differs", path.display());
                println!("  it has          {}", have.unwrap_or("nothing"));
                println!("  it should have  {}", want.unwrap_or("nothing"));
                return true;
            }
        }
    }
}

/// Each file of the list in a folder, with what belongs in it.
fn pairs(folder: &Path) -> [(PathBuf, String); 2] {
    let files = make();
    [
        (folder.join("stdin"), files.stdin),
        (folder.join("stdout"), files.stdout),
    ]
}

/// Writes the list to a folder.
fn write(folder: &Path) -> Result<(), String> {
    for (path, text) in &pairs(folder) {
        std::fs::write(path, text).map_err(|error| format!("{}: {error}", path.display()))?;
    }
    Ok(())
}

/// Compares the list in a folder with what it should be.
fn check(folder: &Path) -> Result<(), String> {
    let wrong = pairs(folder)
        .iter()
        .filter(|(path, want)| differs(path, want))
        .count();
    if wrong > 0 {
        return Err("the list is not what the crate answers, with 19 for ź".to_string());
    }
    println!("the list is what the crate answers, with 19 for ź");
    Ok(())
}

/// Answers each line of standard input by a line on standard output.
fn answer_lines() -> Result<(), String> {
    let asker = Asker::new();
    let mut out = BufWriter::new(io::stdout().lock());
    for (place, line) in io::stdin().lock().lines().enumerate() {
        let line = line.map_err(|error| format!("line {}: {error}", place + 1))?;
        let text = points::text_of(&line)
            .map_err(|word| format!("line {}: {word} is not a scalar value", place + 1))?;
        writeln!(out, "{}", asker.line(&text)).map_err(|error| error.to_string())?;
    }
    out.flush().map_err(|error| error.to_string())
}

/// What the command line asks for.
enum Asked {
    Write(PathBuf),
    Check(PathBuf),
    Answers,
}

/// Reads the command line.
fn asked(words: impl Iterator<Item = String>) -> Result<Asked, String> {
    let (mut check, mut ask) = (false, false);
    let mut folder = PathBuf::from(concat!(env!("CARGO_MANIFEST_DIR"), "/../../crates/replay"));
    for word in words {
        match word.as_str() {
            "--check" => check = true,
            "--ask" => ask = true,
            _ if word.starts_with('-') => {
                return Err(format!(
                    "{word} is not an option; the options are --check and --ask"
                ))
            }
            _ => folder = PathBuf::from(word),
        }
    }
    Ok(match (ask, check) {
        (true, _) => Asked::Answers,
        (_, true) => Asked::Check(folder),
        _ => Asked::Write(folder),
    })
}

/// Reads the command line and does what it asks for.
fn run() -> Result<(), String> {
    match asked(std::env::args().skip(1))? {
        Asked::Write(folder) => write(&folder),
        Asked::Check(folder) => check(&folder),
        Asked::Answers => answer_lines(),
    }
}

/// Status 0 only if all went well and, for `--check`, no line differs.
fn main() -> ExitCode {
    match run() {
        Ok(()) => ExitCode::SUCCESS,
        Err(why) => {
            eprintln!("answers: {why}");
            ExitCode::FAILURE
        }
    }
}
