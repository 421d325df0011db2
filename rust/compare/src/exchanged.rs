//! Compares read on rows in which two symbols have changed places. What read must answer is worked
//! out here from the list, as request 9 says it, and the model is asked besides.
use crate::check::{broken, wide, Subject, Tally, Worker};
use crate::inputs;
use crate::model::{accept, refuse, Said, LIMIT};
use crate::random::Random;
use crate::run::{Result, Run};
use std::sync::atomic::{AtomicBool, Ordering};

/// How far apart two data symbols are that change places.
const DISTANCES: [usize; 8] = [1, 2, 102, 103, 104, 206, 1030, 3914];
/// Up to this number of symbols every two blocks so far apart change places, in longer rows some.
const EVERY: usize = 260;
/// The numbers of symbols of the longer rows. The check of 3,914 symbols weighs a multiple of 103.
const LONG: [usize; 3] = [1031, 3914, LIMIT];

/// Two different blocks of a row of n symbols that changed places; the right one may be the check.
#[derive(Clone, Copy)]
struct Exchange {
    n: usize,
    left: usize,
    right: usize,
    accepted: bool,
}

impl Exchange {
    /// Whether these are the blocks, and the right one is no check.
    fn is(self, left: usize, right: usize) -> bool {
        (self.left, self.right) == (left, right) && right < self.n
    }

    /// Whether these are data symbols so far apart, and read accepts the row.
    fn accepted_apart(self, distance: usize) -> bool {
        self.accepted && self.right < self.n && self.right - self.left == distance
    }

    /// Whether these are the last symbol and the check of n symbols, and read accepts the row.
    fn accepted_check(self, n: usize) -> bool {
        self.accepted && (self.n, self.right) == (n, n)
    }
}

/// An exchange that the part must meet: its name, and whether this is one.
type Wanted = (&'static str, fn(Exchange) -> bool);

/// Every exchange that the part must meet.
const WANTED: [Wanted; 13] = [
    ("neighbours at 102 and 103", |met| met.is(102, 103)),
    ("neighbours at 103 and 104", |met| met.is(103, 104)),
    ("neighbours at 205 and 206", |met| met.is(205, 206)),
    ("neighbours at 206 and 207", |met| met.is(206, 207)),
    ("neighbours at 3913 and 3914", |met| met.is(3913, 3914)),
    ("neighbours at 3914 and 3915", |met| met.is(3914, 3915)),
    ("the last two", |met| met.is(met.n - 2, met.n - 1)),
    ("103 apart and accepted", |met| met.accepted_apart(103)),
    ("206 apart and accepted", |met| met.accepted_apart(206)),
    ("3914 apart and accepted", |met| met.accepted_apart(3914)),
    ("check of 103 accepted", |met| met.accepted_check(103)),
    ("check of 206 accepted", |met| met.accepted_check(206)),
    ("check of 3914 accepted", |met| met.accepted_check(3914)),
];

/// The right check of a list: the START weighs 1, and the symbol at place i weighs i.
fn right_check(list: &[u8]) -> usize {
    let data = (1..)
        .zip(&list[1..])
        .map(|(i, &number)| i * usize::from(number));
    (usize::from(list[0]) + data.sum::<usize>()) % 103
}

/// Exchanges two blocks of eleven cells.
fn exchange(row: &mut [u8], left: usize, right: usize) {
    let (front, back) = row.split_at_mut(11 * right);
    front[11 * left..11 * left + 11].swap_with_slice(&mut back[..11]);
}

/// What read must answer to a row with these symbols, if it accepts the check that is drawn or not.
fn said(list: &[u8], accepted: bool, room: usize) -> Said<u8> {
    match accepted {
        false => refuse(14, right_check(list)),
        true if room < list.len() => refuse(5, list.len()),
        true => accept(list.len(), list.to_vec()),
    }
}

/// The buffer lengths to try: all four if read accepts, and for neighbours around the multiples of
/// 103 and at the end; otherwise one of the four, by the left block, to save time.
fn rooms(n: usize, left: usize, right: usize, accepted: bool) -> Vec<usize> {
    let mut rooms = vec![0, n - 1, n, LIMIT];
    let edge = right - left == 1 && (matches!(right % 103, 0 | 1) || right + 1 >= n);
    if !accepted && !edge {
        return vec![rooms[left % 4]];
    }
    rooms.dedup();
    rooms
}

/// Compares read with the known answer, which the model must give too: one call is held to both.
fn held(worker: &mut Worker, row: &[u8], said: &Said<u8>, room: usize) -> Result<()> {
    let model = worker.model.read(row, room);
    if model != *said {
        let (said, model) = (format!("{said:?}"), format!("the model: {model:?}"));
        return Err(broken(Subject::Count, wide(row), said, model));
    }
    worker.read_known(row, said, room, 0xA7).map(drop)
}

/// Compares read on the row of a list in which two blocks change places. Read accepts it if the
/// blocks are alike, if they are data and a multiple of 103 apart, or if the right one is the check
/// and the number of symbols is such a multiple. Gives the exchange if the blocks differ.
fn exchanged_at(
    worker: &mut Worker,
    list: &[u8],
    left: usize,
    right: usize,
) -> Result<Option<Exchange>> {
    let n = list.len();
    let (mut blocks, mut row) = (list.to_vec(), worker.model.row_of_list(list));
    blocks.push(right_check(list) as u8);
    let alike = blocks[left] == blocks[right];
    blocks.swap(left, right);
    exchange(&mut row, left, right);
    // By this many times their difference the sum moves away from the check; 103 is prime.
    let times = if right < n { right - left } else { n };
    let accepted = alike || times % 103 == 0;
    worker.tally.inputs += 1;
    for room in rooms(n, left, right, accepted) {
        held(worker, &row, &said(&blocks[..n], accepted, room), room)?;
    }
    let met = Exchange {
        n,
        left,
        right,
        accepted,
    };
    Ok((!alike).then_some(met))
}

/// The blocks that change places in a row of n symbols: data symbols at every distance, and the
/// last of them with the check.
fn pairs(n: usize) -> impl Iterator<Item = (usize, usize)> {
    DISTANCES
        .into_iter()
        .flat_map(move |far| (1..n.saturating_sub(far)).map(move |left| (left, left + far)))
        .filter(move |&(left, right)| n <= EVERY || chosen(n, left, right))
        .chain([(n - 1, n)])
}

/// Whether two data symbols of a long row change places: neighbours around a multiple of 103, those
/// further apart around every tenth multiple, some of those furthest apart, and the last ones.
fn chosen(n: usize, left: usize, right: usize) -> bool {
    let each = match right - left {
        1 => 103,
        3914 => 20,
        _ => 1030,
    };
    matches!((left + 2) % each, 0..=3) || right + 1 == n
}

/// A random list of n symbols whose last number is not its check, so that the row of every n has
/// an exchange of these two. In a long list no two neighbours are alike, since a place that is
/// wanted is in one row alone.
fn list(run: &Run, n: usize) -> Vec<u8> {
    let mut random = Random::new(run.seed, "read-exchanged", n as u64);
    loop {
        let mut list = inputs::list(&mut random, n);
        if n > EVERY {
            part_neighbours(&mut list);
        }
        if usize::from(list[n - 1]) != right_check(&list) {
            return list;
        }
    }
}

/// Changes each data number that is like the one before it.
fn part_neighbours(list: &mut [u8]) {
    for place in 2..list.len() {
        if list[place] == list[place - 1] {
            list[place] = (list[place] + 1) % 103;
        }
    }
}

/// Each of these numbers of symbols, from 3 on, with a random list and the exchanges in its row. It
/// is a difference if an exchange that is wanted is not met.
pub fn among(run: &Run, lengths: &[usize]) -> Result<Tally> {
    let met = WANTED.map(|_| AtomicBool::new(false));
    let tally = run.blocks(lengths.len() as u64, |worker, block| {
        let list = list(run, lengths[block as usize]);
        for (left, right) in pairs(list.len()) {
            if let Some(exchange) = exchanged_at(worker, &list, left, right)? {
                for ((_, wanted), met) in WANTED.iter().zip(&met) {
                    met.fetch_or(wanted(exchange), Ordering::Relaxed);
                }
            }
        }
        Ok(())
    })?;
    let unmet: Vec<&str> = WANTED
        .iter()
        .zip(met)
        .filter(|(_, met)| !met.load(Ordering::Relaxed))
        .map(|((name, _), _)| *name)
        .collect();
    if !unmet.is_empty() {
        let (wanted, got) = (unmet.join(", "), "not met".into());
        return Err(broken(Subject::Count, vec![], wanted, got));
    }
    Ok(tally)
}

/// Every number of symbols from 3 to 260, and then the longer rows.
pub fn all(run: &Run) -> Result<Tally> {
    let lengths: Vec<usize> = (3..=EVERY).chain(LONG).collect();
    among(run, &lengths)
}
