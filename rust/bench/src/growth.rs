//! How the time of each job grows with n, from 1 to 4,000: a straight line is fitted to its times.
use crate::jobs::lent;
use crate::report::short;
use crate::timing::{measure, median, Side};
use bench::inputs::{labels, Kind, Label};

/// The sizes that are timed. Where encode, read or the record takes another way, at 128, 255 and
/// 512 symbols, the size after it is timed too.
const SIZES: [usize; 17] = [
    1, 2, 4, 8, 16, 32, 64, 128, 129, 255, 256, 512, 513, 1000, 2000, 3000, 4000,
];

/// From this size on, a departure from the line counts, and a step. Below it, the constant part is
/// most of the time.
const FROM: usize = 16;

/// The rounds here are this many times the rounds elsewhere, since one wrong time bends the line.
const TIMES: usize = 3;

/// The fewest rounds.
const LEAST: usize = 101;

/// The number of labels of a size: from n = 32 on, all sizes have about the same number of symbols,
/// so that they fill the same memory. It is larger than elsewhere: the search takes longer for some
/// symbols than for others, and many symbols are alike on average.
fn count(n: usize) -> usize {
    (16384 / n).clamp(4, 512)
}

/// A growth is called straight if, from n = 16 on, no time departs from the line by more than this
/// part of it, and from one size to the next the time per symbol rises by no more than this part.
const STRAIGHT: f64 = 0.15;

/// A size, and the time, the departure or the step at it.
type Point = (f64, f64);

/// A job and the set of its labels, and its time at every size.
type Grown = (&'static str, Vec<f64>);

/// One form of a label that a job takes.
type Form = fn(&Label) -> &[u8];

/// The line t = a + b·n through the points from n = 16 on; the largest departures from it, from
/// there on as a part of the line (`far`), below that in ns (`near`); and the largest rise of the
/// time per symbol from one size to the next (`step`).
struct Fit {
    a: f64,
    b: f64,
    far: Point,
    near: Point,
    step: Point,
}

/// The largest departure, above or below the line.
fn largest(departures: impl Iterator<Item = Point>) -> Point {
    departures
        .max_by(|x, y| x.1.abs().total_cmp(&y.1.abs()))
        .unwrap_or_default()
}

/// The line by least squares of the departures as parts of the times. If they were taken in ns, the
/// largest sizes would decide alone.
fn line(points: &[Point]) -> (f64, f64) {
    let sum = |f: fn(&Point) -> f64| points.iter().map(|p| f(p) / p.1.powi(2)).sum::<f64>();
    let all = sum(|_| 1.0);
    let (x, y) = (sum(|p| p.0) / all, sum(|p| p.1) / all);
    let b = (sum(|p| p.0 * p.1) - all * x * y) / (sum(|p| p.0 * p.0) - all * x * x);
    (y - b * x, b)
}

/// Fits the line and finds what departs from it.
fn fit(times: &[f64]) -> Fit {
    let points: Vec<Point> = SIZES
        .iter()
        .map(|&n| n as f64)
        .zip(times.iter().copied())
        .collect();
    let (near, far): (Vec<Point>, Vec<Point>) = points.into_iter().partition(|p| p.0 < FROM as f64);
    let (a, b) = line(&far);
    let steps = far.windows(2).map(|pair| {
        let [before, after] = [pair[0], pair[1]].map(|p| p.1 / p.0);
        (pair[1].0, after / before - 1.0)
    });
    Fit {
        a,
        b,
        far: largest(far.iter().map(|p| (p.0, p.1 / (a + b * p.0) - 1.0))),
        near: largest(near.iter().map(|p| (p.0, p.1 - (a + b * p.0)))),
        step: steps.max_by(|x, y| x.1.total_cmp(&y.1)).unwrap_or_default(),
    }
}

/// The median time of a job at every size, on one form of the labels; each round goes through all
/// sizes.
fn grow<'a, I, O, R>(
    labels: &'a [Vec<Label>],
    rounds: usize,
    form: fn(&Label) -> &[I],
    job: impl Fn(&[I], &mut [O]) -> R + Copy + 'a,
) -> Vec<f64>
where
    O: Copy + Default + 'a,
{
    let side = |labels: &'a Vec<Label>| {
        let inputs: Vec<&[I]> = labels.iter().map(form).collect();
        lent(&inputs, job)
    };
    let mut sides: Vec<Side> = labels.iter().map(side).collect();
    measure(&mut sides, rounds)
        .iter()
        .map(|times| median(times))
        .collect()
}

/// Prints a number of every job at every size.
fn print_table(title: &str, jobs: &[Grown], cell: fn(usize, f64) -> f64) {
    println!("\n### {title}\n");
    let sizes = SIZES.map(|n| n.to_string());
    println!("| job, set | {} |", sizes.join(" | "));
    println!("|---|{}", "---:|".repeat(SIZES.len()));
    for (name, times) in jobs {
        let cells = SIZES.iter().zip(times).map(|(&n, &t)| short(cell(n, t)));
        println!("| {name} | {} |", cells.collect::<Vec<_>>().join(" | "));
    }
}

/// Prints the line of every job; returns a sentence for each that is not straight.
fn print_lines(jobs: &[Grown]) -> Vec<String> {
    println!("\n### The line t = a + b·n through these times from n = {FROM} to 4,000\n");
    println!(
        "| job, set | a, ns | b, ns | largest departure, n < {FROM}, ns \
         | n ≥ {FROM}, of the line | largest step of the time per symbol | at most {STRAIGHT} |"
    );
    println!("|---|---:|---:|---:|---:|---:|---|");
    let mut bent = Vec::new();
    for (name, times) in jobs {
        let fit = fit(times);
        let straight = fit.far.1.abs() <= STRAIGHT && fit.step.1 <= STRAIGHT;
        let verdict = if straight {
            "straight"
        } else {
            "**not straight**"
        };
        let near = format!("{:+.1} at n = {}", fit.near.1, fit.near.0);
        let [far, step] = [fit.far, fit.step].map(|(n, part)| format!("{part:+.3} at n = {n}"));
        let (a, b) = (fit.a, fit.b);
        println!("| {name} | {a:.1} | {b:.3} | {near} | {far} | {step} | {verdict} |");
        if !straight {
            bent.push(format!(
                "Growth of {name}: departs from the line by {far}, largest step {step}"
            ));
        }
    }
    bent
}

/// Labels of every size.
fn sizes(kind: Kind) -> Vec<Vec<Label>> {
    SIZES.iter().map(|&n| labels(kind, n, count(n))).collect()
}

/// Times every job at every size, encode in every set, and prints the tables; returns the number of
/// rows and a sentence for each that is not straight.
pub fn run(rounds: usize) -> (usize, Vec<String>) {
    let rounds = (TIMES * rounds).max(LEAST);
    let encode = |kind| grow(&sizes(kind), rounds, |l| &l.points, slatmonief::encode);
    let (list, row, record): (Form, Form, Form) = (|l| &l.symbols, |l| &l.row, |l| &l.record);
    let b = sizes(Kind::B);
    let jobs = [
        ("encode, A", encode(Kind::A)),
        ("encode, B", encode(Kind::B)),
        ("encode, C", encode(Kind::C)),
        ("encode, mixed", encode(Kind::Mixed)),
        ("draw, B", grow(&b, rounds, list, slatmonief::draw)),
        ("read, B", grow(&b, rounds, row, slatmonief::read)),
        ("spell, B", grow(&b, rounds, list, slatmonief::spell)),
        ("scan, B", grow(&b, rounds, list, slatmonief::scan)),
        ("pack, B", grow(&b, rounds, row, slatmonief::pack)),
        ("unpack, B", grow(&b, rounds, record, slatmonief::unpack)),
    ];
    let of = |what: &str| format!("{what} from n = 1 to 4,000, ns, medians of {rounds} rounds");
    print_table(&of("Time of the library's jobs"), &jobs, |_, t| t);
    print_table(&of("Time per symbol"), &jobs, |n, t| t / n as f64);
    (jobs.len(), print_lines(&jobs))
}
