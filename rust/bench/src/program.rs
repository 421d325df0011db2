//! The label program against the same filter with the crate: time and memory.
use crate::report::Table;
use bench::inputs::{label, list, Kind, Numbers};
use std::fs::{self, File};
use std::io::{self, BufReader, BufWriter, Read, Write};
use std::path::{Path, PathBuf};
use std::process::{Child, Command, Stdio};
use std::time::{Duration, Instant};
use std::{env, thread};

/// The sizes of the labels. Each has its number of lines in a file, its number of rounds and, for
/// one size, the target for the program's time, as a part of the filter's time. 680 symbols make a
/// line of 4,077 bytes in set C, where 4,096 are allowed.
const SIZES: [(usize, usize, usize, Option<f64>); 5] = [
    (2, 100_000, 15, None),
    (14, 100_000, 15, Some(0.15)),
    (50, 100_000, 7, None),
    (255, 100_000, 5, None),
    (LONG, 10_000, 5, None),
];

/// The largest size.
const LONG: usize = 680;

/// A program waits for input if it is asleep at this many looks in a row.
const LOOKS: usize = 5;

/// The most looks at a program.
const PATIENCE: usize = 500;

/// The two programs.
struct Programs {
    label: PathBuf,
    filter: PathBuf,
}

/// A folder for the files; it is removed when this value is dropped.
struct Folder(PathBuf);

impl Folder {
    /// Makes an empty folder for this process.
    fn new() -> io::Result<Folder> {
        let path = env::temp_dir().join(format!("slatmonief-bench-{}", std::process::id()));
        fs::create_dir_all(&path)?;
        Ok(Folder(path))
    }

    /// A file in it.
    fn file(&self, name: &str) -> PathBuf {
        self.0.join(name)
    }
}

impl Drop for Folder {
    fn drop(&mut self) {
        let _ = fs::remove_dir_all(&self.0);
    }
}

/// Finds the label program: by the variable SLATMONIEF_LABEL, or where bin/build puts it.
fn find_label() -> io::Result<PathBuf> {
    let built = || Path::new(env!("CARGO_MANIFEST_DIR")).join("../../target/bin/label");
    let path = env::var_os("SLATMONIEF_LABEL").map_or_else(built, PathBuf::from);
    match path.is_file() {
        true => Ok(path),
        false => Err(io::Error::other(
            "there is no label program: build it with bin/build, or name it in SLATMONIEF_LABEL",
        )),
    }
}

/// Finds the filter in the folder of this program. `cargo run` builds only this program, so the
/// filter is built here.
fn find_filter() -> io::Result<PathBuf> {
    let path = env::current_exe()?.with_file_name("filter");
    if let (Some(cargo), Some(target)) = (env::var_os("CARGO"), path.ancestors().nth(2)) {
        let mut build = Command::new(cargo);
        build
            .args([
                "build",
                "--quiet",
                "--offline",
                "--release",
                "--package",
                "bench",
                "--bin",
                "filter",
                "--target-dir",
            ])
            .arg(target);
        let status = build.current_dir(env!("CARGO_MANIFEST_DIR")).status()?;
        if !status.success() {
            return Err(io::Error::other(format!(
                "the filter cannot be built: cargo build --bin filter: {status}"
            )));
        }
    }
    match path.is_file() {
        true => Ok(path),
        false => Err(io::Error::other(
            "the filter is not there: cargo build --release -p bench --bins",
        )),
    }
}

/// Writes one label as a line: its code points in upper-case hex, with one space between two.
fn write_line(out: &mut impl Write, points: &[u32]) -> io::Result<()> {
    for (i, point) in points.iter().enumerate() {
        write!(out, "{}{point:X}", if i == 0 { "" } else { " " })?;
    }
    out.write_all(b"\n")
}

/// Writes `lines` labels of n symbols each, of sets A, B and C in turn.
fn write_lines(out: &mut impl Write, n: usize, lines: usize) -> io::Result<()> {
    let mut random = Numbers::new(n as u64);
    for i in 0..lines {
        let kind = [Kind::A, Kind::B, Kind::C][i % 3];
        write_line(out, &label(list(&mut random, kind, n)).points)?;
    }
    Ok(())
}

/// The seconds that a program takes from one file to another, or to /dev/null.
fn seconds(program: &Path, input: &Path, output: Option<&Path>) -> io::Result<f64> {
    let stdin = File::open(input)?;
    let stdout = output.map_or(Ok(Stdio::null()), |path| {
        File::create(path).map(Stdio::from)
    })?;
    let start = Instant::now();
    let status = Command::new(program).stdin(stdin).stdout(stdout).status()?;
    let time = start.elapsed().as_secs_f64();
    assert!(status.success(), "a program fails");
    Ok(time)
}

/// Asserts that two files are equal byte for byte.
fn assert_equal(a: &Path, b: &Path) -> io::Result<()> {
    let length = fs::metadata(a)?.len();
    assert!(
        length > 0 && length == fs::metadata(b)?.len(),
        "the outputs differ in length"
    );
    let (mut a, mut b) = (
        BufReader::new(File::open(a)?),
        BufReader::new(File::open(b)?),
    );
    let (mut x, mut y) = (vec![0; 1 << 20], vec![0; 1 << 20]);
    let mut left = length as usize;
    while left > 0 {
        let part = left.min(x.len());
        a.read_exact(&mut x[..part])?;
        b.read_exact(&mut y[..part])?;
        assert!(x[..part] == y[..part], "the outputs differ");
        left -= part;
    }
    Ok(())
}

/// The seconds of both programs, each run `runs` times, in turn.
fn in_turn(
    programs: &Programs,
    runs: usize,
    input: &Path,
    outputs: Option<(&Path, &Path)>,
) -> io::Result<(Vec<f64>, Vec<f64>)> {
    let (mut ours, mut other) = (Vec::new(), Vec::new());
    for _ in 0..runs {
        ours.push(seconds(&programs.label, input, outputs.map(|o| o.0))?);
        other.push(seconds(&programs.filter, input, outputs.map(|o| o.1))?);
    }
    Ok((ours, other))
}

/// Times the label program against the filter, to /dev/null and to a file; the two files must be
/// equal.
pub fn time() -> io::Result<Vec<Table>> {
    let programs = Programs {
        label: find_label()?,
        filter: find_filter()?,
    };
    let folder = Folder::new()?;
    let (input, ours, other) = (
        folder.file("lines"),
        folder.file("ours"),
        folder.file("other"),
    );
    let mut table = Table::new(
        "The label program beside the same filter over the crate",
        "output | n | lines | rounds",
        "s",
        "filter",
    );
    for (n, lines, runs, target) in SIZES {
        let mut file = BufWriter::new(File::create(&input)?);
        write_lines(&mut file, n, lines)?;
        file.into_inner()?;
        let key = |output: &str| format!("{output} | {n} | {lines} lines | {runs} rounds");
        let (a, b) = in_turn(&programs, runs, &input, None)?;
        table.add(key("/dev/null"), &a, &b, target);
        let (a, b) = in_turn(&programs, runs, &input, Some((&ours, &other)))?;
        assert_equal(&ours, &other)?;
        table.add(key("a file"), &a, &b, target);
    }
    Ok(vec![table])
}

/// The value of a name in what the system says about a process.
fn status(process: u32, name: &str) -> io::Result<String> {
    let path = format!("/proc/{process}/status");
    let status =
        fs::read_to_string(&path).map_err(|error| io::Error::other(format!("{path}: {error}")))?;
    let line = status.lines().find_map(|line| line.strip_prefix(name));
    line.map(|line| line.trim().to_string())
        .ok_or_else(|| io::Error::other(format!("{path} has no {name}")))
}

/// Waits until a program waits for more input. It is an error if the program ends or does not come
/// to rest.
fn settle(run: &mut Child) -> io::Result<()> {
    let mut asleep = 0;
    for _ in 0..PATIENCE {
        thread::sleep(Duration::from_millis(20));
        if let Some(status) = run.try_wait()? {
            return Err(io::Error::other(format!(
                "a program ends before its input does: {status}"
            )));
        }
        asleep = if status(run.id(), "State:")?.starts_with('S') {
            asleep + 1
        } else {
            0
        };
        if asleep == LOOKS {
            return Ok(());
        }
    }
    Err(io::Error::other("a program does not come to rest"))
}

/// The number in a value of the system that is given in KB.
fn kilobytes(line: &str) -> io::Result<usize> {
    let number = line
        .strip_suffix(" kB")
        .and_then(|number| number.parse().ok());
    number.ok_or_else(|| io::Error::other(format!("no number of KB: {line}")))
}

/// The most memory, in KB, that a program has held until it has read the text `times` times and
/// waits for more.
fn peak(program: &Path, text: &[u8], times: usize) -> io::Result<usize> {
    let mut run = Command::new(program)
        .stdin(Stdio::piped())
        .stdout(Stdio::null())
        .spawn()?;
    let mut stdin = run.stdin.take().expect("a pipe was asked for");
    for _ in 0..times {
        stdin.write_all(text)?;
    }
    let most = settle(&mut run).and_then(|()| kilobytes(&status(run.id(), "VmHWM:")?));
    if most.is_err() {
        run.kill()?;
    }
    drop(stdin);
    let ended = run.wait()?;
    assert!(most.is_err() || ended.success(), "a program fails");
    most
}

/// Prints the most memory of both programs for ten and for a million lines of n = 14, and for a
/// thousand of the largest size.
pub fn memory() -> io::Result<()> {
    let programs = Programs {
        label: find_label()?,
        filter: find_filter()?,
    };
    let (mut ten, mut thousand, mut long) = (Vec::new(), Vec::new(), Vec::new());
    write_lines(&mut ten, 14, 10)?;
    write_lines(&mut thousand, 14, 1000)?;
    write_lines(&mut long, LONG, 1000)?;
    println!("\n### The most memory, KB, one run each\n");
    println!("| program | ten lines, n = 14 | a million | a thousand, n = {LONG} |");
    println!("|---|---:|---:|---:|");
    for (name, program) in [
        ("label", &programs.label),
        ("filter over the crate", &programs.filter),
    ] {
        println!(
            "| {name} | {} | {} | {} |",
            peak(program, &ten, 1)?,
            peak(program, &thousand, 1000)?,
            peak(program, &long, 1)?
        );
    }
    Ok(())
}
