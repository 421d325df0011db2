//! The lines that a run prints.
use crate::ask::MOST_DRAWN;
use crate::check::{Fault, Subject, Tally, LONG, SUBJECTS};
use crate::ean13;
use crate::listed::LIST;

/// The line of one part: how many inputs and calls, how many of these were accepted and refused by
/// each number, and how many laws held.
pub fn part_line(name: &str, tally: &Tally, seed: u64, seconds: f64) -> String {
    let mut line = format!("{name}: {} inputs", tally.inputs);
    if tally.calls() > 0 {
        line += &format!(", {} calls: accepted {}", tally.calls(), tally.accepted);
        for (number, count) in tally
            .refused
            .iter()
            .enumerate()
            .filter(|(_, &count)| count > 0)
        {
            line += &format!(", {number}: {count}");
        }
    }
    if tally.laws > 0 {
        line += &format!("; laws held {}", tally.laws);
    }
    if tally.drop_in + tally.ean13_types > 0 {
        let types = tally.drop_in + tally.ean13_types;
        line += &format!("; by the crate's signatures {types}");
    }
    line + &format!(" (seed {seed}, {seconds:.1} s)")
}

/// How many calls of encode belong to each row of the list.
pub fn listed_line(tally: &Tally) -> String {
    let rows: Vec<String> = LIST
        .iter()
        .map(|&(listed, name)| format!("{name}: {}", tally.listed[listed as usize]))
        .collect();
    format!(
        "calls of encode under each row of docs/DIFFERENCES.md: {}",
        rows.join("; ")
    )
}

/// How many calls with more than 255 symbols were accepted.
fn long_calls(tally: &Tally) -> String {
    let calls: Vec<String> = LONG
        .iter()
        .zip(tally.long)
        .map(|((_, name), count)| format!("{name}: {count}"))
        .collect();
    format!("accepted calls of {}", calls.join("; of "))
}

/// How many texts the type with the crate's signatures encoded, how many calls had more than 255
/// symbols, and how many rows the crate did not draw.
pub fn others_line(tally: &Tally) -> String {
    let undrawn = format!(
        "texts of more than {MOST_DRAWN} symbols, counted and not drawn by the crate: {}",
        tally.undrawn
    );
    format!(
        "texts by the type with the crate's signatures: {}; {}; {undrawn}",
        tally.drop_in,
        long_calls(tally)
    )
}

/// How many calls of EAN-13's write belong to each row of its list, how many calls of its jobs were
/// accepted, and how many texts the type with the crate's signatures encoded.
pub fn ean13_line(tally: &Tally) -> String {
    let rows: Vec<String> = ean13::LIST
        .iter()
        .map(|&(listed, name)| format!("{name}: {}", tally.ean13_listed[listed as usize]))
        .collect();
    let [written, read] = tally.ean13_accepted;
    format!(
        "EAN-13, calls of write under each row of docs/DIFFERENCES.md: {}; accepted calls of \
         write: {written}; of read: {read}; texts by the type with the crate's signatures: {}",
        rows.join("; "),
        tally.ean13_types
    )
}

/// The last line of a run: the inputs of each kind of part.
pub fn total_line([encode, rest, ean13]: [u64; 3], seed: u64, seconds: f64) -> String {
    format!(
        "compare: {encode} inputs for encode, {rest} for the rest of Code 128, {ean13} for EAN-13, \
         no difference that is not listed (seed {seed}, {seconds:.0} s)"
    )
}

/// The word that `--case` takes for a fault.
pub fn case_word(fault: &Fault) -> Option<String> {
    let &(name, _) = SUBJECTS
        .iter()
        .find(|(_, subject)| *subject == fault.subject)?;
    let input: Vec<String> = fault
        .input
        .iter()
        .map(|element| format!("{element:X}"))
        .collect();
    Some(format!(
        "{name}:{}:{:X}:{}",
        fault.room,
        fault.mark,
        input.join(",")
    ))
}

/// Reads a word that `case_word` made.
pub fn case_of(word: &str) -> Option<(Subject, Vec<u32>, usize, u8)> {
    let parts: Vec<&str> = word.split(':').collect();
    let [name, room, mark, input] = parts[..] else {
        return None;
    };
    let &(_, subject) = SUBJECTS.iter().find(|(known, _)| *known == name)?;
    let elements = input
        .split(',')
        .filter(|element| !element.is_empty())
        .map(|element| u32::from_str_radix(element, 16).ok());
    Some((
        subject,
        elements.collect::<Option<Vec<u32>>>()?,
        room.parse().ok()?,
        u8::from_str_radix(mark, 16).ok()?,
    ))
}

/// A difference in full: the part, the small input, both answers, and the commands that show it
/// again.
pub fn fault_lines(
    part: &str,
    fault: &Fault,
    met: &Fault,
    wrong: &str,
    seed: u64,
    random: u64,
) -> String {
    let mut lines = format!(
        "DIFFERENCE in part {part}, subject {:?}, not listed\n",
        fault.subject
    );
    let count = fault.input.len();
    lines += &format!(
        "input:    {:X?} (hex; {count} elements), buffer of {} filled with {:X}\n",
        fault.input, fault.room, fault.mark
    );
    lines += &format!("expected: {}\nhere:     {}\n", fault.expected, fault.got);
    lines += &match fault.subject {
        Subject::Count => "not made smaller: the claim is about the whole part, and this is the \
                           input for which it failed\n"
            .into(),
        _ => format!(
            "first found with {} elements: {:X?}, buffer of {} filled with {:X}\n",
            met.input.len(),
            met.input,
            met.room,
            met.mark
        ),
    };
    lines += &format!("seed:     {seed}\n");
    if let Some(word) = case_word(fault) {
        lines += &format!("command:  cargo run --release -p compare --{wrong} --case {word}\n");
    }
    lines
        + &format!(
            "command of the part: cargo run --release -p compare --{wrong} --seed {seed} \
             --random {random} {part}"
        )
}
