//! Compares read of EAN-13 on rows, written and damaged.
use super::ask::{ask, Crate};
use super::model::{self, Set, BLOCKS, CELLS, DIGITS, SETS};
use super::write::twelve;
use crate::check::{broken, wide, Subject, Tally, Worker};
use crate::random::Random;
use crate::run::{Result, Run};

/// The drawn digits of a random number, each in its set.
fn number(random: &mut Random) -> [(Set, u8); BLOCKS] {
    model::blocks(&model::values(&twelve(random)))
}

/// The row of a random number.
fn written(random: &mut Random) -> Vec<u8> {
    model::drawn(&number(random))
}

/// Any seven cells.
fn word(word: usize) -> [u8; 7] {
    std::array::from_fn(|cell| (word >> cell & 1) as u8)
}

/// The row with other cells for one of its digits.
fn with_block(row: &[u8], block: usize, cells: [u8; 7]) -> Vec<u8> {
    let (mut row, place) = (row.to_vec(), model::place(block));
    row[place..place + 7].copy_from_slice(&cells);
    row
}

/// Compares read on a row. If it is accepted, the crate must write it for the digits that are read,
/// and these must be written and read again.
fn compared(worker: &mut Worker, row: &[u8], room: usize, mark: u8) -> Result<()> {
    if worker.ean13_read(row, room, mark)? != 0 {
        return Ok(());
    }
    let digits = model::read(row, DIGITS).front;
    let crates = ask(&digits);
    if crates != Crate::Row(row.to_vec()) {
        let (expected, got) = (
            format!("refused, or the row of the crate: {crates:?}"),
            "accepted",
        );
        return Err(broken(Subject::Count, wide(row), expected, got.into()));
    }
    worker.ean13_law(&digits)
}

/// Compares read on a row that is an input of its own.
fn visit(worker: &mut Worker, row: &[u8], room: usize, mark: u8) -> Result<()> {
    worker.tally.inputs += 1;
    compared(worker, row, room, mark)
}

/// Does the work on random numbers, each as a block of its own, since each has many rows.
fn numbers(
    run: &Run,
    part: &str,
    count: u64,
    work: impl Fn(&mut Worker, [(Set, u8); BLOCKS], &[u8]) -> Result<()> + Sync,
) -> Result<Tally> {
    run.blocks(count, |worker, block| {
        let number = number(&mut Random::new(run.seed, part, block));
        work(worker, number, &model::drawn(&number))
    })
}

/// Random numbers with each drawn digit redrawn: as each other digit of its own set, and as each
/// digit of the other two sets. Read refuses all of them.
pub fn redrawn(run: &Run) -> Result<Tally> {
    let count = run.random / 200;
    numbers(run, "ean13-redrawn", count, |worker, number, good| {
        visit(worker, good, DIGITS, 0xA7)?;
        for (block, own) in number.into_iter().enumerate() {
            for (set, digit) in model::every().filter(|&other| other != own) {
                let row = with_block(good, block, model::pattern(set, digit));
                worker.tally.inputs += 1;
                worker.ean13_refused(&row, DIGITS, 0xA7)?;
            }
        }
        Ok(())
    })
}

/// Random numbers with any seven cells for each drawn digit. Read refuses all of them but the
/// digit's own.
pub fn words(run: &Run) -> Result<Tally> {
    let count = (run.random / 10_000).max(1);
    numbers(run, "ean13-words", count, |worker, _, good| {
        for block in 0..BLOCKS {
            for row in (0..128).map(|cells| with_block(good, block, word(cells))) {
                worker.tally.inputs += 1;
                match row == good {
                    true => worker.ean13_read(&row, DIGITS, 0xA7).map(drop)?,
                    false => worker.ean13_refused(&row, DIGITS, 0xA7)?,
                }
            }
        }
        Ok(())
    })
}

/// Random numbers with each cell flipped, and set to values that are neither 0 nor 1. Read refuses
/// all of them.
pub fn cells(run: &Run) -> Result<Tally> {
    let count = run.random / 1000;
    numbers(run, "ean13-cells", count, |worker, _, good| {
        for place in 0..CELLS {
            let mut row = good.to_vec();
            for cell in [1 - good[place], 2, 255] {
                row[place] = cell;
                worker.tally.inputs += 1;
                worker.ean13_refused(&row, DIGITS, 0x5C)?;
            }
        }
        Ok(())
    })
}

/// Damages a row in one place: a cell, or a digit that is replaced by another one.
fn damage(random: &mut Random, row: &mut Vec<u8>) {
    match random.below(3) {
        0 => {
            let place = random.below(CELLS);
            row[place] = random.pick(&[0, 1, 1 - row[place].min(1), 2, 128, 255]);
        }
        _ => {
            let (set, digit) = (random.pick(&SETS), random.below(10) as u8);
            *row = with_block(row, random.below(BLOCKS), model::pattern(set, digit));
        }
    }
}

/// Digits of random sets: left mostly A and B, right mostly C. The parity and the check decide.
fn of_any_sets(random: &mut Random) -> Vec<u8> {
    let blocks: [(Set, u8); BLOCKS] = std::array::from_fn(|block| {
        let set = match (random.below(64), block < 6) {
            (0, _) => random.pick(&SETS),
            (_, true) => random.pick(&[Set::A, Set::B]),
            (_, false) => Set::C,
        };
        (set, random.below(10) as u8)
    });
    model::drawn(&blocks)
}

/// A written row in which two neighbouring digits have changed places.
fn exchanged(random: &mut Random) -> Vec<u8> {
    let mut blocks = number(random);
    let left = random.below(BLOCKS - 1);
    (blocks[left].1, blocks[left + 1].1) = (blocks[left + 1].1, blocks[left].1);
    model::drawn(&blocks)
}

/// A random row: any cells, any cells between the guards, digits of any sets, a number with any
/// check, a number from right to left or with bars for spaces, two digits exchanged, or a number
/// that is damaged in up to three places.
fn row(random: &mut Random) -> Vec<u8> {
    let mut row = written(random);
    match random.below(16) {
        0 => row.fill_with(|| random.below(2) as u8),
        1 => (0..BLOCKS).for_each(|block| row = with_block(&row, block, word(random.below(128)))),
        2..=6 => row = of_any_sets(random),
        7..=9 => {
            let check = model::pattern(Set::C, random.below(10) as u8);
            row = with_block(&row, BLOCKS - 1, check);
        }
        10 => row.reverse(),
        11 => row.iter_mut().for_each(|cell| *cell = 1 - *cell),
        12 | 13 => row = exchanged(random),
        _ => (0..random.below(4)).for_each(|_| damage(random, &mut row)),
    }
    row
}

/// Random rows.
pub fn rows(run: &Run) -> Result<Tally> {
    run.random_blocks("ean13-rows", run.random / 2, |worker, random| {
        let row = row(random);
        let room = match random.below(8) {
            0 => random.below(DIGITS),
            1 => DIGITS + 1 + random.below(40),
            _ => DIGITS,
        };
        visit(worker, &row, room, random.mark())
    })
}

/// The lengths of rows: every one up to 200, and some that are 95 in 8 or 16 bits.
fn row_lengths() -> Vec<usize> {
    (0..=200).chain([256 + CELLS, 65_536 + CELLS]).collect()
}

/// Rows of every length: a written row cut or made longer by itself, by spaces or by bars, at its
/// end or at its beginning.
pub fn lengths(run: &Run) -> Result<Tally> {
    let lengths = row_lengths();
    run.blocks(lengths.len() as u64, |worker, block| {
        let mut random = Random::new(run.seed, "ean13-row-lengths", block);
        let (good, length) = (written(&mut random), lengths[block as usize]);
        let (kept, more) = (length.min(CELLS), length.saturating_sub(CELLS));
        let mut rows = vec![good.iter().copied().cycle().take(length).collect()];
        for cell in [0, 1] {
            rows.push([&good[..kept], &vec![cell; more]].concat());
            rows.push([&vec![cell; more], &good[CELLS - kept..]].concat());
        }
        for row in rows {
            worker.tally.inputs += 1;
            for room in [0, 12, DIGITS, DIGITS + 1] {
                match length {
                    CELLS => compared(worker, &row, room, random.mark())?,
                    _ => worker.ean13_refused(&row, room, random.mark())?,
                }
            }
        }
        Ok(())
    })
}

/// Every buffer length up to 20, for written rows, for rows with a wrong check and for others.
pub fn rooms(run: &Run) -> Result<Tally> {
    run.blocks(21, |worker, room| {
        let mut random = Random::new(run.seed, "ean13-read-rooms", room);
        for _ in 0..20 {
            let mut other = written(&mut random);
            visit(worker, &other, room as usize, random.mark())?;
            damage(&mut random, &mut other);
            visit(worker, &other, room as usize, random.mark())?;
            visit(worker, &other[..CELLS - 1], room as usize, random.mark())?;
        }
        Ok(())
    })
}
