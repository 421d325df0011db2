//! `compare [--seed N] [--random N] [--threads N] [--wrong NAME] [--case WORD] [part …]`: each word
//! `part` names the parts that begin with it.
use compare::ask;
use compare::check::{Tally, Worker};
use compare::ean13::wrong;
use compare::face::{Face, True, Wrong, PLANTS};
use compare::model::Model;
use compare::run::Run;
use compare::{report, Part, PARTS};
use std::process::ExitCode;
use std::time::Instant;

/// What the command line asks for.
struct Asked {
    seed: u64,
    random: u64,
    threads: usize,
    wrong: Option<String>,
    case: Option<String>,
    only: Vec<String>,
}

/// The value of an option.
fn value<T: std::str::FromStr>(option: &str, word: Option<String>) -> Result<T, String> {
    word.and_then(|word| word.parse().ok())
        .ok_or(format!("{option} takes a value"))
}

/// Reads the command line.
fn asked(mut words: impl Iterator<Item = String>) -> Result<Asked, String> {
    let mut asked = Asked {
        seed: 1,
        random: 400_000,
        threads: 2,
        wrong: None,
        case: None,
        only: Vec::new(),
    };
    while let Some(word) = words.next() {
        match word.as_str() {
            "--seed" => asked.seed = value(&word, words.next())?,
            "--random" => asked.random = value(&word, words.next())?,
            "--threads" => asked.threads = value(&word, words.next())?,
            "--wrong" => asked.wrong = Some(value(&word, words.next())?),
            "--case" => asked.case = Some(value(&word, words.next())?),
            name if PARTS.iter().any(|part| part.name.starts_with(name)) => asked.only.push(word),
            _ => {
                return Err(format!(
                    "{word} is neither an option nor a part; the parts are {}",
                    PARTS.map(|part| part.name).join(" ")
                ))
            }
        }
    }
    Ok(asked)
}

/// What is compared: the library, or the library with a wrong answer planted in it.
fn face(asked: &Asked) -> Result<Box<dyn Face>, String> {
    let Some(name) = &asked.wrong else {
        return Ok(Box::new(True));
    };
    let code128 = PLANTS.iter().find(|(known, _)| known == name);
    let ean13 = wrong::PLANTS.iter().find(|(known, _)| known == name);
    match (code128, ean13) {
        (Some(&(_, plant)), _) => Ok(Box::new(Wrong::new(plant))),
        (_, Some(&(_, plant))) => Ok(Box::new(wrong::Wrong(plant))),
        (None, None) => Err(format!(
            "--wrong takes one of {} {}",
            PLANTS.map(|(name, _)| name).join(" "),
            wrong::PLANTS.map(|(name, _)| name).join(" ")
        )),
    }
}

/// Compares one case again.
fn one_case(face: &dyn Face, model: &Model, word: &str) -> Result<(), String> {
    let (subject, input, room, mark) = report::case_of(word)
        .ok_or("--case takes job:room:mark:input, as a difference prints it")?;
    match Worker::new(face, model).again(subject, &input, room, mark) {
        Ok(()) => println!("case {word}: no difference"),
        Err(fault) => {
            return Err(format!(
                "case {word}: a difference\nexpected: {}\nhere:     {}",
                fault.expected, fault.got
            ))
        }
    }
    Ok(())
}

/// Whether the command line asks for this part.
fn wanted(asked: &Asked, part: &Part) -> bool {
    asked.only.is_empty()
        || asked
            .only
            .iter()
            .any(|name| part.name.starts_with(name.as_str()))
}

/// Does one part and prints a line for it.
fn one_part(asked: &Asked, run: &Run, part: &Part) -> Result<Tally, String> {
    let begun = Instant::now();
    let tally = compare::compare(part, run).map_err(|faults| {
        let wrong = asked
            .wrong
            .iter()
            .map(|name| format!(" --wrong {name}"))
            .collect::<String>();
        report::fault_lines(
            part.name,
            &faults.1,
            &faults.0,
            &wrong,
            asked.seed,
            asked.random,
        )
    })?;
    if tally.inputs == 0 {
        return Err(format!(
            "part {} compared no input (--random {})",
            part.name, asked.random
        ));
    }
    let seconds = begun.elapsed().as_secs_f64();
    println!(
        "{}",
        report::part_line(part.name, &tally, asked.seed, seconds)
    );
    Ok(tally)
}

/// Does every part that is asked for; the first difference ends the run.
fn whole_run(asked: &Asked, run: &Run) -> Result<(), String> {
    let (begun, mut total, mut inputs) = (Instant::now(), Tally::default(), [0; 3]);
    for part in PARTS.iter().filter(|part| wanted(asked, part)) {
        let tally = one_part(asked, run, part)?;
        inputs[part.kind as usize] += tally.inputs;
        total.add(&tally);
    }
    let unmet = if PARTS.iter().all(|part| wanted(asked, part)) {
        compare::unmet(&total)
    } else {
        Vec::new()
    };
    if !unmet.is_empty() {
        return Err(format!("the run did not meet {}", unmet.join(", ")));
    }
    println!("{}", report::listed_line(&total));
    println!("{}", report::others_line(&total));
    println!("{}", report::ean13_line(&total));
    let seconds = begun.elapsed().as_secs_f64();
    println!("{}", report::total_line(inputs, asked.seed, seconds));
    Ok(())
}

/// Reads the command line and does what it asks for.
fn all() -> Result<(), String> {
    let asked = asked(std::env::args().skip(1))?;
    let (face, model) = (face(&asked)?, Model::new(ask::patterns()));
    if let Some(word) = &asked.case {
        return one_case(&*face, &model, word);
    }
    let run = Run {
        face: &*face,
        model: &model,
        seed: asked.seed,
        random: asked.random,
        threads: asked.threads,
    };
    whole_run(&asked, &run)
}

/// Status 0 only if no difference was found.
fn main() -> ExitCode {
    match all() {
        Ok(()) => ExitCode::SUCCESS,
        Err(words) => {
            println!("{words}");
            ExitCode::FAILURE
        }
    }
}
