//! Compares draw, spell and scan on symbol lists, good and damaged.
use crate::ask;
use crate::check::{place_for, Tally, Worker};
use crate::inputs;
use crate::model::{accept, cells, refuse, Said, LIMIT};
use crate::random::Random;
use crate::run::{Result, Run};

/// Compares the three jobs on one list, each with buffer lengths close to the one that is needed;
/// and tests the law of lists.
fn close(worker: &mut Worker, list: &[u8]) -> Result<()> {
    worker.tally.inputs += 1;
    let spelled = worker.model.spell(list, usize::MAX);
    if spelled.number != 0 {
        worker.draw(list, 60, 0xA7)?;
        worker.spell(list, 60, 0xA7)?;
        return worker.scan(list, 60, 0xA7).map(drop);
    }
    for room in inputs::near(cells(list.len())) {
        worker.draw(list, room, 0xA7)?;
    }
    for room in inputs::near(spelled.front.len()) {
        worker.spell(list, room, 0x5C)?;
    }
    for room in inputs::near(worker.model.scan(list, usize::MAX).front.len()) {
        worker.scan(list, room, 0xA7)?;
    }
    worker.list_law(list)
}

/// Numbers that change the set, that are at the ends of a range, or that are not allowed.
const SPECIAL: [u8; 14] = [0, 63, 64, 94, 95, 96, 97, 98, 99, 100, 101, 102, 103, 255];

/// All lists of one and two numbers from 0 to 255, a block for each first number; and each START
/// with up to four special numbers.
pub fn all(run: &Run) -> Result<Tally> {
    run.blocks(256 + 3 * 14, |worker, block| {
        if block < 256 {
            close(worker, &[block as u8])?;
            return (0..=255).try_for_each(|second| close(worker, &[block as u8, second]));
        }
        let (start, first) = ((block - 256) / 14, (block - 256) % 14);
        walk(
            worker,
            &mut vec![103 + start as u8, SPECIAL[first as usize]],
            &SPECIAL,
            3,
            &|worker, list| match list {
                [_, _] => Ok(()), // compared above
                _ => plain(worker, list),
            },
        )
    })
}

/// Does the work on this list and on all lists that continue it with up to `depth` of `numbers`.
fn walk(
    worker: &mut Worker,
    list: &mut Vec<u8>,
    numbers: &[u8],
    depth: usize,
    work: &impl Fn(&mut Worker, &[u8]) -> Result<()>,
) -> Result<()> {
    work(worker, list)?;
    for &number in numbers.iter().filter(|_| depth > 0) {
        list.push(number);
        walk(worker, list, numbers, depth - 1, work)?;
        list.pop();
    }
    Ok(())
}

/// Compares the three jobs on one list with enough room; for a short list tests the law of lists
/// too.
fn plain(worker: &mut Worker, list: &[u8]) -> Result<()> {
    worker.tally.inputs += 1;
    worker.draw(list, 100, 0xA7)?;
    worker.spell(list, 10, 0xA7)?;
    worker.scan(list, 10, 0xA7)?;
    if list.len() > 4 {
        return Ok(());
    }
    worker.list_law(list)
}

/// Random lists with random room, more than half of them good; for the good ones the law of lists
/// is tested.
pub fn random(run: &Run) -> Result<Tally> {
    run.random_blocks("lists-random", run.random / 20, |worker, random| {
        let n = inputs::length(random);
        let mut list = inputs::list(random, n);
        for _ in 0..[0, 0, 0, 1, 2][random.below(5)] {
            inputs::damage_list(random, &mut list);
        }
        with_any_room(worker, random, &list)?;
        worker.list_law(&list)
    })
}

/// Compares the three jobs on any list with random room.
fn with_any_room(worker: &mut Worker, random: &mut Random, list: &[u8]) -> Result<()> {
    worker.tally.inputs += 1;
    let (spelled, sent) = (
        worker.model.spell(list, usize::MAX).front.len(),
        worker.model.scan(list, usize::MAX).front.len(),
    );
    worker.draw(list, inputs::room(random, cells(list.len())), random.mark())?;
    worker.spell(list, inputs::room(random, spelled), random.mark())?;
    worker
        .scan(list, inputs::room(random, sent), random.mark())
        .map(drop)
}

/// The lengths of lists: each one on either side of the limit and up to 300, and some that would
/// overflow 8, 12 or 16 bits.
fn list_lengths() -> Vec<usize> {
    let between = [511, 512, 513, 767, 768, 1000, 2047, 2048, 2049];
    let above = [4095, 4096, 4097, 65_535, 65_536, 65_537];
    (LIMIT - 4..=LIMIT + 5)
        .chain(0..=300)
        .chain(between)
        .chain(above)
        .chain([65_536 + 255, 65_536 + LIMIT])
        .collect()
}

/// Lists of these lengths, good and bad.
pub fn lengths(run: &Run) -> Result<Tally> {
    let lengths = list_lengths();
    run.blocks(lengths.len() as u64, |worker, block| {
        let mut random = Random::new(run.seed, "list-lengths", block);
        let length = lengths[block as usize];
        let good = inputs::list(&mut random, length);
        let mut last = good.clone();
        last.iter_mut()
            .last()
            .into_iter()
            .for_each(|number| *number = 103);
        let pairs = (0..length)
            .map(|place| if place == 0 { 105 } else { (place % 100) as u8 })
            .collect();
        for list in [good, last, pairs, vec![0; length], vec![104; length]] {
            with_any_room(worker, &mut random, &list)?;
            worker.list_law(&list)?;
        }
        Ok(())
    })
}

/// Lists with a Shift, and the bytes that request 1 of document 02 gives them.
pub const SHIFTED: [(&[u8], &[u8]); 8] = [
    (&[103, 98, 65], &[0x61]),
    (&[104, 98, 65], &[0x01]),
    (&[103, 98, 98, 65], &[0x61]),
    (&[103, 98, 99, 12], &[0x31, 0x32]),
    (&[105, 98], &[0x39, 0x38]),
    (&[104, 98], &[]),
    (&[103, 98, 65, 65], &[0x61, 0x01]),
    (&[104, 98, 100, 65], &[0x61]),
];

/// Numbers that may stand beside a Shift: some at the ends of a range, and all from 95 on.
const BESIDE_SHIFT: [u8; 12] = [0, 33, 64, 65, 95, 96, 97, 98, 99, 100, 101, 102];

/// The lists of `SHIFTED`, scanned to exactly those bytes; and each START with up to three of the
/// numbers beside a Shift.
pub fn shift(run: &Run) -> Result<Tally> {
    run.blocks(1 + 3, |worker, block| match block {
        0 => SHIFTED
            .iter()
            .try_for_each(|(list, bytes)| shift_known(worker, list, bytes)),
        _ => walk(
            worker,
            &mut vec![102 + block as u8],
            &BESIDE_SHIFT,
            3,
            &|worker, list| {
                close(worker, list)?;
                worker.shift_law(list)
            },
        ),
    })
}

/// What a job must answer in this room, if it writes these elements in enough room.
fn known<T: Clone>(front: &[T], room: usize) -> Said<T> {
    match room < front.len() {
        true => refuse(5, front.len()),
        false => accept(front.len(), front.to_vec()),
    }
}

/// Compares scan on one list with these bytes, whatever the model says, in too little room, in
/// enough and in more.
fn shift_known(worker: &mut Worker, list: &[u8], bytes: &[u8]) -> Result<()> {
    worker.tally.inputs += 1;
    for room in inputs::near(bytes.len()) {
        worker.scan_known(list, &known(bytes, room), room, 0xA7)?;
    }
    worker.shift_law(list)
}

/// Random lists with many Shifts and random room; some of any length up to the limit.
pub fn shift_random(run: &Run) -> Result<Tally> {
    run.random_blocks("lists-shift-random", run.random / 10, |worker, random| {
        let n = inputs::any_length(random);
        let list = inputs::list_of_shifts(random, n);
        with_any_room(worker, random, &list)?;
        worker.shift_law(&list)
    })
}

/// Lists with 97, and the text and the bytes that documents 01 and 02 give them.
pub const WITH_97: [(&[u8], &str, &[u8]); 8] = [
    (&[103, 97], "Àź", &[]),
    (&[104, 97], "Ɓź", &[]),
    (&[105, 97], "Ć97", &[0x39, 0x37]),
    (&[104, 33, 97, 34, 97], "ƁAźBź", &[0x41, 0x42]),
    (&[105, 97, 101, 97, 65], "Ć97Àź\u{1}", &[0x39, 0x37, 0x01]),
    (&[103, 97, 99, 97], "ÀźĆ97", &[0x39, 0x37]),
    (&[103, 98, 97, 65], "ÀŽź\u{1}", &[0x01]),
    (&[104, 100, 97, 101, 97], "ƁżźÀź", &[]),
];

/// Numbers that may stand beside 97: some at the ends of a range, Shift, the switches and FNC1.
const BESIDE_97: [u8; 9] = [0, 65, 95, 97, 98, 99, 100, 101, 102];

/// The lists of `WITH_97`, spelled and scanned to exactly what stands there; and each START with up
/// to three of the numbers beside 97.
pub fn retired(run: &Run) -> Result<Tally> {
    run.blocks(1 + 3, |worker, block| match block {
        0 => WITH_97
            .iter()
            .try_for_each(|(list, text, bytes)| retired_known(worker, list, text, bytes)),
        _ => walk(
            worker,
            &mut vec![102 + block as u8],
            &BESIDE_97,
            3,
            &|worker, list| {
                close(worker, list)?;
                read_and_encoded(worker, list)
            },
        ),
    })
}

/// Compares spell and scan on one list with this text and these bytes, whatever the model says, and
/// draw, read and encode as for every list.
fn retired_known(worker: &mut Worker, list: &[u8], text: &str, bytes: &[u8]) -> Result<()> {
    let points: Vec<u32> = text.chars().map(u32::from).collect();
    for room in inputs::near(points.len()) {
        worker.spell_known(list, &known(&points, room), room, 0x5C)?;
    }
    for room in inputs::near(bytes.len()) {
        worker.scan_known(list, &known(bytes, room), room, 0xA7)?;
    }
    close(worker, list)?;
    read_and_encoded(worker, list)
}

/// Compares read on the row of a good list, and encode on its spelling; the crate decides what
/// encode must answer.
fn read_and_encoded(worker: &mut Worker, list: &[u8]) -> Result<()> {
    let (row, n) = (worker.model.row_of_list(list), list.len());
    for room in [n - 1, n, n + 1] {
        worker.read(&row, room, 0x5C)?;
    }
    let text = worker.model.spell(list, usize::MAX).front;
    let said = ask::ask(&text);
    for room in [0, row.len() - 1, row.len()] {
        worker.encode_known(&text, &said, place_for(&text, &said), room, 0xA7)?;
    }
    Ok(())
}

/// Random lists with many 97 and random room; some of any length up to the limit.
pub fn retired_random(run: &Run) -> Result<Tally> {
    run.random_blocks("lists-retired", run.random / 80, |worker, random| {
        let n = inputs::any_length(random);
        let list = inputs::list_of_97(random, n);
        with_any_room(worker, random, &list)?;
        worker.list_law(&list)?;
        read_and_encoded(worker, &list)
    })
}
