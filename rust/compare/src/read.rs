//! Compares read and pack on rows, good and damaged.
use crate::ask;
use crate::check::{broken, wide, Subject, Tally, Worker};
use crate::inputs;
use crate::model::{self, refuse, Model, LIMIT, STOP, SWITCH};
use crate::random::Random;
use crate::run::{Result, Run};
use std::collections::HashSet;
use std::sync::Mutex;

/// The rows of one and two symbols that the crate writes for some text.
fn rows_of_crate() -> HashSet<Vec<u8>> {
    let digits = 0x30..0x3Au32;
    let pairs = digits
        .clone()
        .flat_map(|first| digits.clone().map(move |second| vec![first, second]));
    let tails: Vec<Vec<u32>> = std::iter::once(vec![])
        .chain(inputs::alphabet().into_iter().map(|one| vec![one]))
        .chain(pairs)
        .collect();
    let texts = SWITCH
        .iter()
        .flat_map(|&start| tails.iter().map(move |tail| [&[start], &tail[..]].concat()));
    texts
        .filter_map(|text| ask::row(&text))
        .filter(|row| row.len() <= model::cells(2))
        .collect()
}

/// Compares read on a row, which it may accept only if the crate writes it.
fn read_as_written(
    worker: &mut Worker,
    written: &HashSet<Vec<u8>>,
    row: &[u8],
    n: usize,
) -> Result<()> {
    worker.tally.inputs += 1;
    if worker.read(row, n + row.len() % 2, 0xA7)? == 0 && !written.contains(row) {
        return Err(broken(
            Subject::Count,
            wide(row),
            "refused: the crate writes no such row".into(),
            "accepted".into(),
        ));
    }
    Ok(())
}

/// All rows of one and two symbols made of the 106 patterns. Read accepts exactly those that the
/// crate writes: 3 and 3 times 103.
pub fn all(run: &Run) -> Result<Tally> {
    let written = rows_of_crate();
    let tally = run.blocks(106, |worker, first| {
        for second in 0..106 {
            let row = worker.model.row(&[first as u8, second]);
            read_as_written(worker, &written, &row, 1)?;
            for third in 0..106 {
                let row = worker.model.row(&[first as u8, second, third]);
                read_as_written(worker, &written, &row, 2)?;
            }
        }
        Ok(())
    })?;
    let expected = 3 + 3 * 103;
    if tally.accepted != expected || written.len() as u64 != expected {
        let got = format!(
            "{} accepted, {} written by the crate",
            tally.accepted,
            written.len()
        );
        return Err(broken(
            Subject::Count,
            vec![],
            format!("{expected} accepted and written"),
            got,
        ));
    }
    Ok(tally)
}

/// The numbers of symbols in rows that are damaged at every block: short ones, some that end near
/// the places 103 and 206, and both sides of 255.
const SHORT: [usize; 18] = [
    1, 1, 1, 2, 3, 5, 9, 14, 17, 40, 103, 104, 105, 206, 207, 208, 255, 256,
];

/// A list, and the blocks at which its row is damaged.
pub type Damaged = (Vec<u8>, Vec<usize>);

/// The short rows, at every block with the check; and then the long ones, at some blocks.
fn damaged(run: &Run, part: &str, long: &[(usize, Vec<usize>)]) -> Vec<Damaged> {
    let mut random = Random::new(run.seed, part, 0);
    let short = SHORT.map(|n| (n, (0..=n).collect()));
    short
        .iter()
        .chain(long)
        .map(|(n, blocks)| (inputs::list(&mut random, *n), blocks.clone()))
        .collect()
}

/// Does the work at each of these blocks of the row of each list.
fn at_blocks(
    run: &Run,
    lists: &[Damaged],
    work: impl Fn(&mut Worker, &[u8], usize) -> Result<()> + Sync,
) -> Result<Tally> {
    let places: Vec<(&[u8], usize)> = lists
        .iter()
        .flat_map(|(list, blocks)| blocks.iter().map(move |&block| (&list[..], block)))
        .collect();
    run.blocks(places.len() as u64, |worker, number| {
        let (list, block) = places[number as usize];
        work(worker, list, block)
    })
}

/// Does the work at every block of the short rows, and at a few of one of 1,000 symbols and of the
/// longest.
fn at_every_block(
    run: &Run,
    part: &str,
    work: impl Fn(&mut Worker, &[u8], usize) -> Result<()> + Sync,
) -> Result<Tally> {
    let few = [1000, LIMIT].map(|n| (n, vec![0, 103, n / 2, n - 1, n]));
    at_blocks(run, &damaged(run, part, &few), work)
}

/// The blocks from this one on that are around a multiple of 103, and the last two blocks.
fn around_103(n: usize, from: usize) -> Vec<usize> {
    (from..=n)
        .filter(|&block| matches!(block % 103, 0 | 1 | 102) || block + 2 > n)
        .collect()
}

/// The multiples of 103 at which a row within the limit has data: 103 to 3,914.
fn multiples() -> impl Iterator<Item = usize> {
    (103..LIMIT).step_by(103)
}

/// The long rows in which symbols are replaced: around every multiple of 103, or around the last of
/// them; and for each multiple a row whose check is there and one whose last data symbol is there.
fn replaced_long() -> Vec<(usize, Vec<usize>)> {
    let around = [
        (310, 0),
        (1031, 0),
        (2061, 2059),
        (3914, 3810),
        (3915, 3810),
        (LIMIT, 0),
    ]
    .map(|(n, from)| (n, around_103(n, from)));
    let ends = multiples().flat_map(|last| [last, last + 1].map(|n| (n, vec![last])));
    around.into_iter().chain(ends).collect()
}

/// The numbers that replace a symbol: every one in a short row, and in the longest at the multiples
/// of 103; elsewhere every twelfth, by turns, and all from 102 on.
fn replacing(n: usize, block: usize) -> impl Iterator<Item = u8> {
    let every = n <= 310 || (n == LIMIT && block % 103 == 0);
    let twelfth = (block / 103 % 12) as u8;
    (0..106).filter(move |&number| every || number >= 102 || number % 12 == twelfth)
}

/// A symbol replaced by another: the number of symbols, the block, and whether read accepts it.
type Replaced = (usize, usize, bool);

/// What the part must meet at each multiple of 103: in the longest row an acceptance there and a
/// refusal on each side; a refusal if the check is there, an acceptance if the last data symbol is.
fn wanted() -> impl Iterator<Item = Replaced> {
    multiples().flat_map(|place| {
        [
            (LIMIT, place - 1, false),
            (LIMIT, place, true),
            (LIMIT, place + 1, false),
            (place, place, false),
            (place + 1, place, true),
        ]
    })
}

/// One symbol replaced at this place. Read refuses, except for a data symbol at a multiple of 103
/// that is replaced by a number up to 102. What another number up to 102 gives is added to `met`.
fn replaced_at(
    worker: &mut Worker,
    list: &[u8],
    block: usize,
    met: &Mutex<HashSet<Replaced>>,
) -> Result<()> {
    let good = worker.model.row_of_list(list);
    let data = (1..list.len()).contains(&block);
    for number in replacing(list.len(), block) {
        let mut row = good.clone();
        row[11 * block..11 * block + 11].copy_from_slice(worker.model.pattern(number));
        let allowed = row == good || (data && block % 103 == 0 && number <= 102);
        worker.tally.inputs += 1;
        let accepted = worker.read(&row, list.len(), 0xA7)? == 0;
        if accepted != allowed {
            let expected = format!("block {block} replaced by {number}: accepted is {allowed}");
            let got = format!("accepted is {accepted}");
            return Err(broken(Subject::Count, wide(&row), expected, got));
        }
        if row != good && number <= 102 {
            let mut met = met.lock().expect("no thread panicked");
            met.insert((list.len(), block, accepted));
        }
    }
    Ok(())
}

/// One symbol replaced: at every place of a short row, and around multiples of 103 in a long one.
pub fn replaced(run: &Run) -> Result<Tally> {
    replaced_among(run, &damaged(run, "read-replaced", &replaced_long()))
}

/// One symbol replaced at each of these blocks. It is a difference if what is wanted is not met.
pub fn replaced_among(run: &Run, lists: &[Damaged]) -> Result<Tally> {
    let met = Mutex::new(HashSet::new());
    let tally = at_blocks(run, lists, |worker, list, block| {
        replaced_at(worker, list, block, &met)
    })?;
    let met = met.into_inner().expect("no thread panicked");
    let unmet: Vec<String> = wanted()
        .filter(|wanted| !met.contains(wanted))
        .map(|(n, block, accepted)| match accepted {
            true => format!("block {block} of {n} accepted"),
            false => format!("block {block} of {n} refused"),
        })
        .collect();
    if !unmet.is_empty() {
        let (wanted, got) = (unmet.join(", "), "not met".into());
        return Err(broken(Subject::Count, vec![], wanted, got));
    }
    Ok(tally)
}

/// One cell changed at every place of these blocks, and of the stop after the check: flipped, or
/// set to a value that is neither 0 nor 1.
pub fn cells(run: &Run) -> Result<Tally> {
    at_every_block(run, "read-cells", |worker, list, block| {
        let good = worker.model.row_of_list(list);
        let end = if block == list.len() {
            good.len()
        } else {
            11 * block + 11
        };
        (11 * block..end).try_for_each(|place| spoiled_at(worker, &good, place))
    })
}

/// Compares read and pack with one cell flipped or set to another value.
fn spoiled_at(worker: &mut Worker, good: &[u8], place: usize) -> Result<()> {
    let mut row = good.to_vec();
    let record = model::record_bytes((row.len() - 24) / 11);
    for cell in [1 - good[place], 2, 3, 128, 255] {
        row[place] = cell;
        worker.tally.inputs += 1;
        worker.read(&row, LIMIT, 0x5C)?;
        worker.pack(&row, record, 0x5C)?;
        if cell <= 1 {
            flipped_at(worker, &row, place)?;
        }
    }
    Ok(())
}

/// Compares read on a row whose cell at this place is flipped, with buffers from none to the
/// longest: refusal 16 with the block, or 15 with the place if it is one of the last 13 cells.
fn flipped_at(worker: &mut Worker, row: &[u8], place: usize) -> Result<()> {
    let n = (row.len() - 24) / 11;
    let said = if place < 11 * (n + 1) {
        refuse(16, place / 11)
    } else {
        refuse(15, place)
    };
    let mut rooms = vec![0, n - 1, n, LIMIT];
    rooms.dedup();
    rooms
        .into_iter()
        .try_for_each(|room| worker.read_known(row, &said, room, 0xA7).map(drop))
}

/// Two cells of one block flipped, every two of each block. If the block is then no pattern, read
/// refuses by 12, since the number of bar cells stays even; the model knows the other answers.
pub fn pairs(run: &Run) -> Result<Tally> {
    at_every_block(run, "read-pairs", |worker, list, block| {
        let good = worker.model.row_of_list(list);
        let cells = 11 * block..11 * block + 11;
        for first in cells.clone() {
            for second in first + 1..cells.end {
                let mut row = good.clone();
                row[first] ^= 1;
                row[second] ^= 1;
                worker.tally.inputs += 1;
                worker.read(&row, LIMIT, 0xA7)?;
                let number = worker.model.number(&row[cells.clone()]);
                if number.is_none() {
                    worker.read_known(&row, &refuse(12, block), LIMIT, 0xA7)?;
                }
            }
        }
        Ok(())
    })
}

/// The refusals of a wrong block.
const WAYS: [u32; 3] = [12, 13, 16];

/// Two wrong blocks, and also a wrong stop: read answers the left block, whatever is wrong to the
/// right of it. Each block is the left one, beside the next block and beside the check.
pub fn beside(run: &Run) -> Result<Tally> {
    at_every_block(run, "read-beside", |worker, list, left| {
        let n = list.len();
        let mut random = Random::new(run.seed, "read-beside", (n + left) as u64);
        let mut rights = vec![left + 1, n];
        rights.dedup();
        rights.retain(|&right| left < right && right <= n);
        rights
            .into_iter()
            .try_for_each(|right| both_wrong(worker, &mut random, list, left, right))
    })
}

/// Compares read on a row with two wrong blocks, each in every way, with the right stop and with a
/// wrong one.
fn both_wrong(
    worker: &mut Worker,
    random: &mut Random,
    list: &[u8],
    left: usize,
    right: usize,
) -> Result<()> {
    let ways = WAYS
        .into_iter()
        .flat_map(|here| WAYS.map(|there| (here, there)));
    for (here, there) in ways {
        let mut row = worker.model.row_of_list(list);
        spoil_block(random, worker.model, &mut row, left, here);
        spoil_block(random, worker.model, &mut row, right, there);
        let stop = row.len() - 1 - random.below(13);
        for _ in 0..2 {
            worker.tally.inputs += 1;
            worker.read(&row, list.len(), 0xA7)?;
            worker.read_known(&row, &refuse(here, left), list.len(), 0xA7)?;
            row[stop] ^= 1;
        }
    }
    Ok(())
}

/// Makes a block of a good row wrong, so that read refuses it by this number: 12 for all spaces or
/// the front of the stop, 13 for a number that may not stand there, 16 for one cell flipped.
fn spoil_block(random: &mut Random, model: &Model, row: &mut [u8], block: usize, number: u32) {
    let cells = &mut row[11 * block..11 * block + 11];
    match (number, block) {
        (12, _) if random.chance(50) => cells.fill(0),
        (12, _) => cells.copy_from_slice(&STOP[..11]),
        (13, 0) => cells.copy_from_slice(model.pattern(random.below(103) as u8)),
        (13, _) => cells.copy_from_slice(model.pattern(103 + random.below(3) as u8)),
        _ => cells[random.below(11)] ^= 1,
    }
}

/// Random rows, damaged in up to four places.
pub fn random(run: &Run) -> Result<Tally> {
    run.random_blocks("read-random", run.random / 10, |worker, random| {
        let n = inputs::length(random);
        let mut row = worker.model.row_of_list(&inputs::list(random, n));
        for _ in 0..random.below(5) {
            inputs::damage_row(random, worker.model, &mut row);
        }
        worker.tally.inputs += 1;
        worker.read(&row, inputs::room(random, n), random.mark())?;
        worker.pack(
            &row,
            inputs::room(random, model::record_bytes(n)),
            random.mark(),
        )?;
        worker.row_law(&row)
    })
}

/// Lengths of rows: every length close to that of the longest row and up to 2,900, that of some
/// rows between them, and some that would overflow 8, 12 or 16 bits.
fn row_lengths() -> Vec<usize> {
    let rows = [511, 512, 1000, 4095, 4096, 65_536, 65_537].map(model::cells);
    let beside = rows.into_iter().flat_map(|length| length - 1..=length + 1);
    let longest = model::cells(LIMIT);
    (longest - 13..=longest + 13)
        .chain(0..=2900)
        .chain(beside)
        .chain([4096, 65_535, 65_536, 65_536 + 35, 65_536 + longest])
        .collect()
}

/// Rows of every length: zeros, ones, the cells of a long good row over and over, and these with a
/// stop at the end.
pub fn lengths(run: &Run) -> Result<Tally> {
    let lengths = row_lengths();
    run.blocks(lengths.len() as u64, |worker, block| {
        let mut random = Random::new(run.seed, "row-lengths", block);
        let length = lengths[block as usize];
        let n = (length / 11).clamp(1, LIMIT);
        let good = worker.model.row_of_list(&inputs::list(&mut random, n));
        let mut stopped: Vec<u8> = good.iter().copied().cycle().take(length).collect();
        stopped.truncate(length.saturating_sub(13));
        stopped.extend(STOP);
        for row in [
            vec![0; length],
            vec![1; length],
            good.iter().copied().cycle().take(length).collect(),
            stopped,
        ] {
            worker.tally.inputs += 1;
            worker.read(&row, inputs::room(&mut random, n), random.mark())?;
            let need = model::record_bytes(n);
            worker.pack(&row, inputs::room(&mut random, need), random.mark())?;
        }
        Ok(())
    })
}

/// The numbers of symbols in `rooms`: each one up to 260, some up to the limit, and those close to
/// it.
fn room_lengths() -> Vec<usize> {
    let between = [300, 511, 512, 513, 1000, 2047, 2048, 3914];
    (1..=260).chain(between).chain(LIMIT - 2..=LIMIT).collect()
}

/// Every job with buffer lengths close to the one that is needed: a list of any numbers, the same
/// without 97, so that encode takes its spelling, and a list in each set alone, so that spell and
/// scan write the most (7,999 and 7,998 elements if n is 4,000) and the least.
pub fn rooms(run: &Run) -> Result<Tally> {
    let lengths = room_lengths();
    run.blocks(lengths.len() as u64, |worker, block| {
        let mut random = Random::new(run.seed, "rooms", block);
        let n = lengths[block as usize];
        let list = inputs::list(&mut random, n);
        rooms_of(worker, &mut random, &list)?;
        rooms_of(worker, &mut random, &model::without_97(&list))?;
        (0..3).try_for_each(|set| {
            let list = inputs::list_in(&mut random, n, set);
            rooms_of(worker, &mut random, &list)
        })
    })
}

/// The buffer lengths to try: all of them if a short buffer is needed, otherwise those close to it.
fn rooms_for(need: usize) -> Vec<usize> {
    if need <= 100 {
        return (0..=need + 3).collect();
    }
    inputs::near(need)
}

/// Compares the seven jobs on one list, its row, its spelling and its record.
fn rooms_of(worker: &mut Worker, random: &mut Random, list: &[u8]) -> Result<()> {
    let model: &Model = worker.model;
    let row = model.row_of_list(list);
    let (text, sent) = (
        model.spell(list, usize::MAX).front,
        model.scan(list, usize::MAX).front,
    );
    let record = model.pack(&row, usize::MAX).front;
    worker.tally.inputs += 1;
    let said = ask::ask(&text);
    for room in rooms_for(row.len()) {
        worker.encode_known(&text, &said, 0, room, random.mark())?;
        worker.draw(list, room, random.mark())?;
        worker.unpack(&record, room, random.mark())?;
    }
    rooms_for(list.len())
        .into_iter()
        .try_for_each(|room| worker.read(&row, room, random.mark()).map(drop))?;
    rooms_for(text.len())
        .into_iter()
        .try_for_each(|room| worker.spell(list, room, random.mark()).map(drop))?;
    rooms_for(sent.len())
        .into_iter()
        .try_for_each(|room| worker.scan(list, room, random.mark()).map(drop))?;
    rooms_for(record.len())
        .into_iter()
        .try_for_each(|room| worker.pack(&row, room, random.mark()).map(drop))?;
    worker.list_law(list)?;
    worker.text_law(&text)?;
    worker.row_law(&row)?;
    worker.record_law(&record)
}
