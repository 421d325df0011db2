//! `--ask`: answers as in the list, but for ź, and stops at a line that it cannot read.
use std::io::Write;
use std::process::{Command, Output, Stdio};

/// A file of the list.
fn list(name: &str) -> String {
    let folder = concat!(env!("CARGO_MANIFEST_DIR"), "/../../crates/replay/");
    std::fs::read_to_string(format!("{folder}{name}")).expect("a file of the list")
}

/// What the program does with these lines.
fn ask(lines: String) -> Output {
    let mut program = Command::new(env!("CARGO_BIN_EXE_answers"));
    program
        .arg("--ask")
        .stdin(Stdio::piped())
        .stdout(Stdio::piped())
        .stderr(Stdio::piped());
    let mut run = program.spawn().expect("the program starts");
    let mut stdin = run.stdin.take().expect("a pipe to the program");
    let writer = std::thread::spawn(move || stdin.write_all(lines.as_bytes()));
    let output = run.wait_with_output().expect("the program ends");
    writer
        .join()
        .expect("the writer ends")
        .expect("the program reads all of its input");
    output
}

/// Where the list has 19 and the place of the first ź (17A), the crate answers with a row; all
/// other lines are what it answers.
#[test]
fn the_answers_are_those_of_the_list() {
    let (inputs, listed) = (list("stdin"), list("stdout"));
    let output = ask(inputs.clone());
    assert!(output.status.success());
    let said = String::from_utf8(output.stdout).expect("text");
    let lines = inputs.lines().zip(listed.lines()).zip(said.lines());
    let mut retired = 0;
    for ((input, listed), said) in lines {
        let fnc2 = input.split(' ').position(|point| point == "17A");
        match fnc2.filter(|_| said.starts_with('1')) {
            Some(place) => assert_eq!(listed, format!("19 {place}"), "{input}"),
            None => assert_eq!(listed, said, "{input}"),
        }
        retired += usize::from(listed.starts_with("19 "));
    }
    let count = inputs.lines().count();
    assert_eq!(
        (listed.lines().count(), said.lines().count()),
        (count, count)
    );
    assert!(retired > 100, "{retired}");
}

/// What the crate itself answers to a text with ź.
#[test]
fn the_crate_takes_fnc2() {
    let output = ask("181 17A\n".to_string());
    assert!(output.status.success());
    let said = String::from_utf8(output.stdout).expect("text");
    assert!(said.ends_with(" 104 97 98\n"), "{said}");
}

#[test]
fn a_line_that_is_not_a_text() {
    let output = ask("C0\nC0 D800\n".to_string());
    assert_eq!(output.status.code(), Some(1));
    let lone = b"11010000100110110011001100011101011 103 0\n";
    assert_eq!(output.stdout, lone);
    assert_eq!(
        output.stderr,
        b"answers: line 2: D800 is not a scalar value\n"
    );
}
