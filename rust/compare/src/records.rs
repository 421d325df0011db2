//! Compares pack and unpack on rows and records, good and damaged.
use crate::check::{Tally, Worker};
use crate::inputs;
use crate::model::{self, bytes_of, cells, head_of, LIMIT};
use crate::random::Random;
use crate::run::{Result, Run};

/// The most symbols of a row whose record is damaged at every place; both versions are among them.
const EVERY: usize = 260;

/// A readable row of n symbols, random cells, and bars only.
pub fn rows(worker: &Worker, random: &mut Random, n: usize) -> [Vec<u8>; 3] {
    let list = inputs::list(random, n);
    [
        worker.model.row_of_list(&list),
        inputs::cells(random, n),
        vec![1; cells(n)],
    ]
}

/// For every n up to 260: rows are packed and unpacked; then the record is cut, made longer and
/// damaged.
pub fn all(run: &Run) -> Result<Tally> {
    run.blocks(EVERY as u64, |worker, block| {
        let mut random = Random::new(run.seed, "records-all", block);
        let n = block as usize + 1;
        for row in rows(worker, &mut random, n) {
            let record = worker.model.pack(&row, usize::MAX).front;
            close(worker, &mut random, &row, &record)?;
            let places: Vec<usize> = (0..record.len()).collect();
            cut(worker, &record, row.len(), &places)?;
            spoiled(worker, &mut random, &record, row.len(), &places)?;
            last_bytes(worker, &record, row.len())?;
        }
        Ok(())
    })
}

/// Compares pack and unpack with buffer lengths close to the one that is needed; and tests that
/// each undoes the other.
pub fn close(worker: &mut Worker, random: &mut Random, row: &[u8], record: &[u8]) -> Result<()> {
    worker.tally.inputs += 2;
    for room in inputs::near(record.len()) {
        worker.pack(row, room, random.mark())?;
    }
    for room in inputs::near(row.len()) {
        worker.unpack(record, room, random.mark())?;
    }
    worker.row_law(row)?;
    worker.record_law(record)
}

/// Compares unpack on the record cut at these lengths, and with more bytes after it.
pub fn cut(worker: &mut Worker, record: &[u8], room: usize, lengths: &[usize]) -> Result<()> {
    for &length in lengths {
        worker.tally.inputs += 1;
        worker.unpack(&record[..length], room, 0xA7)?;
    }
    for more in [1, 2, 255, 256, 65_536] {
        worker.tally.inputs += 1;
        let longer = [record, &vec![0; more]].concat();
        worker.unpack(&longer, room, 0xA7)?;
    }
    Ok(())
}

/// Compares unpack on the record with each of these bytes changed.
pub fn spoiled(
    worker: &mut Worker,
    random: &mut Random,
    record: &[u8],
    room: usize,
    places: &[usize],
) -> Result<()> {
    let mut spoiled = record.to_vec();
    for &place in places {
        for byte in [record[place] ^ (1 << random.below(8)), random.byte()] {
            spoiled[place] = byte;
            worker.tally.inputs += 1;
            worker.unpack(&spoiled, inputs::room(random, room), random.mark())?;
        }
        spoiled[place] = record[place];
    }
    Ok(())
}

/// Compares unpack on the record with every value of the last byte, so with every value of the
/// spare bits.
pub fn last_bytes(worker: &mut Worker, record: &[u8], room: usize) -> Result<()> {
    let mut other = record.to_vec();
    let last = record.len() - 1;
    for byte in 0..=255 {
        other[last] = byte;
        worker.tally.inputs += 1;
        worker.unpack(&other, room, 0xA7)?;
    }
    Ok(())
}

/// Compares unpack on zeros of this length after a head, which is cut off where there is no room
/// for it.
pub fn zeros(worker: &mut Worker, head: &[u8], length: usize, room: usize) -> Result<()> {
    let mut record = head.to_vec();
    record.resize(length, 0);
    worker.tally.inputs += 1;
    worker.unpack(&record, room, 0xA7).map(drop)
}

/// Every version byte with every count up to 255, in two bytes for version 2: in a record of the
/// right length for the count, one byte shorter, one byte longer, and of two bytes alone.
pub fn heads(run: &Run) -> Result<Tally> {
    run.blocks(256, |worker, version| {
        for count in 0..=255 {
            let head = head_of(version as u8, count);
            let right = bytes_of(version as u8, count);
            [right, right - 1, right + 1, 2]
                .into_iter()
                .try_for_each(|length| zeros(worker, &head, length, cells(count)))?;
        }
        Ok(())
    })
}

/// The lengths of records: each one up to 400, and close to the longest.
fn record_lengths() -> Vec<usize> {
    let longest = model::record_bytes(LIMIT);
    (0..=400).chain(longest - 5..=longest + 5).collect()
}

/// Records of every length, with several versions and counts: those of the longest records of both
/// versions, the first of version 2, and counts that no record may have.
pub fn lengths(run: &Run) -> Result<Tally> {
    let lengths = record_lengths();
    run.blocks(lengths.len() as u64, |worker, block| {
        let mut random = Random::new(run.seed, "record-lengths", block);
        let length = lengths[block as usize];
        for head in [
            head_of(1, 255),
            head_of(1, 0),
            head_of(1, 1),
            head_of(1, random.below(256)),
            head_of(2, 255),
            head_of(2, 256),
            head_of(2, LIMIT),
            head_of(2, LIMIT + 1),
            head_of(2, random.below(65_536)),
            vec![0, 1],
            vec![255, 255],
        ] {
            let mut record = head;
            record.extend((0..length).map(|_| random.byte()));
            record.truncate(length);
            worker.tally.inputs += 1;
            let room = inputs::room(&mut random, 8 * length);
            worker.unpack(&record, room, random.mark())?;
            worker.record_law(&record)?;
        }
        Ok(())
    })
}

/// Random records: random cells, mostly of the right length, some bytes changed.
pub fn random(run: &Run) -> Result<Tally> {
    run.random_blocks("records-random", run.random / 20, |worker, random| {
        let n = inputs::length(random);
        let row = inputs::cells(random, n);
        let mut record = worker.model.pack(&row, usize::MAX).front;
        for _ in 0..[0, 0, 1, 1, 2, 3][random.below(6)] {
            damage(random, &mut record);
        }
        worker.tally.inputs += 2;
        worker.pack(&row, inputs::room(random, record.len()), random.mark())?;
        worker.unpack(&record, inputs::room(random, row.len()), random.mark())?;
        worker.row_law(&row)?;
        worker.record_law(&record)
    })
}

/// Damages a record in one place: a byte, the last byte, the version or the count, or the length.
fn damage(random: &mut Random, record: &mut Vec<u8>) {
    if record.is_empty() {
        return;
    }
    let (place, last) = (random.below(record.len()), record.len() - 1);
    match random.below(6) {
        0 => record[place] = random.byte(),
        1 | 2 => record[last] ^= 1 << random.below(4),
        3 => record[random.below(3).min(last)] = random.pick(&[0, 1, 2, 3, 15, 160, 255]),
        4 => record.truncate(place),
        _ => record.push(random.pick(&[0, 1, 128])),
    }
}
