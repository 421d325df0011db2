//! Compares pack and unpack where the two versions of the record meet: the rows around 255 symbols
//! and up to the limit, every count of both versions, and records with the other version's head.
use crate::check::{broken, wide, Subject, Tally, Worker};
use crate::model::{bytes_of, cells, head_of, version_for, LIMIT};
use crate::random::Random;
use crate::records::{close, cut, last_bytes, rows as rows_of, spoiled, zeros};
use crate::run::{Result, Run};
use std::collections::HashMap;

/// The numbers of symbols: the last of version 1 and the first of version 2, the last of all, some
/// whose count has a byte of 0 or 255, and the first of all.
const SYMBOLS: [usize; 22] = [
    255, 256, LIMIT, 254, 257, 258, 511, 512, 513, 767, 768, 1000, 1279, 1280, 2047, 2048, 3839,
    3840, 3914, 3999, 1, 2,
];

/// For each of these n: rows are packed and unpacked; then the record is cut, made longer, damaged
/// and given another head. Each row has its own record.
pub fn rows(run: &Run) -> Result<Tally> {
    run.blocks(SYMBOLS.len() as u64, |worker, block| {
        let mut random = Random::new(run.seed, "records-versions", block);
        let n = SYMBOLS[block as usize];
        for (which, row) in rows_of(worker, &mut random, n).iter().enumerate() {
            let record = worker.model.pack(row, usize::MAX).front;
            close(worker, &mut random, row, &record)?;
            let places = some_places(record.len());
            cut(worker, &record, row.len(), &places)?;
            spoiled(worker, &mut random, &record, row.len(), &places)?;
            other_heads(worker, n, &record)?;
            if which == 0 {
                last_bytes(worker, &record, row.len())?;
            }
        }
        each_its_own(worker, &mut random, n)
    })
}

/// All places of a short record; of a long one the first and the last, and some between them.
fn some_places(length: usize) -> Vec<usize> {
    let step = length / 40 + 1;
    (0..length)
        .filter(|&place| length <= 400 || place < 12 || place + 12 > length || place % step == 0)
        .collect()
}

/// Compares unpack on the record with other heads, the cells left as they are: other version bytes,
/// the head of the other version, one byte of the count alone, and the count's low byte first.
fn other_heads(worker: &mut Worker, n: usize, record: &[u8]) -> Result<()> {
    let (head, body) = record.split_at(head_of(version_for(n), n).len());
    let (high, low) = ((n / 256) as u8, (n % 256) as u8);
    let versions = [0, 1, 2, 3, 255].map(|version| [&[version], &head[1..]].concat());
    let others = [
        head_of(1, n),
        head_of(2, n),
        vec![1, high],
        vec![1, high, low],
        vec![2, low],
        vec![2, low, high],
        vec![2, high],
    ];
    for other in versions.into_iter().chain(others) {
        worker.tally.inputs += 1;
        worker.unpack(&[&other, body].concat(), cells(n), 0xA7)?;
    }
    Ok(())
}

/// Rows of n and of n + 1 symbols that differ, some in one cell alone: their records differ, as the
/// library packs them.
fn each_its_own(worker: &mut Worker, random: &mut Random, n: usize) -> Result<()> {
    let mut packed: HashMap<Vec<u8>, Vec<u8>> = HashMap::new();
    for n in [n, (n + 1).min(LIMIT)] {
        let mut all = rows_of(worker, random, n).to_vec();
        let any = random.below(cells(n));
        for place in [0, any, cells(n) - 1] {
            let mut other = all[0].clone();
            other[place] ^= 1;
            all.push(other);
        }
        for row in all {
            worker.tally.inputs += 1;
            let Ok(record) = worker.packed(&row) else {
                continue;
            };
            let first = packed.entry(record).or_insert_with(|| row.clone());
            if *first != row {
                let expected = "a record of its own".into();
                let got = format!("that of {first:?}");
                return Err(broken(Subject::Count, wide(&row), expected, got));
            }
        }
    }
    worker.tally.laws += 1;
    Ok(())
}

/// Every count of both versions, a block for each high byte: in records of two, three and four
/// bytes; and version 2 in records of the right length for the count, and close to it. Unpack
/// accepts exactly those of the right length and a count from 256 to the limit.
pub fn counts(run: &Run) -> Result<Tally> {
    let tally = run.blocks(256, |worker, high| {
        let high = high as u8;
        for length in [2, 3, 4] {
            zeros(worker, &[1, high], length, 60)?;
        }
        zeros(worker, &[2, high], 2, 60)?;
        for low in 0..=255 {
            zeros(worker, &[2, high, low], 3, 60)?;
            zeros(worker, &[2, high, low], 4, 60)?;
            let count = 256 * usize::from(high) + usize::from(low);
            if tried_at_length(count) {
                lengths_close(worker, count)?;
            }
        }
        Ok(())
    })?;
    let expected = LIMIT as u64 - 255;
    if tally.accepted != expected {
        let (right, got) = (format!("{expected} accepted"), tally.accepted.to_string());
        return Err(broken(Subject::Count, vec![], right, got));
    }
    Ok(tally)
}

/// Whether a count is tried in records of the right length and close to it: each one up to five
/// above the limit, and then those at the edge of a byte.
fn tried_at_length(count: usize) -> bool {
    count <= LIMIT + 5 || matches!(count % 256, 0 | 1 | 127 | 128 | 255)
}

/// Compares unpack on a version 2 record of this count: of the right length for it, one byte
/// shorter (the length that version 1 would need), one byte longer, and two bytes shorter.
fn lengths_close(worker: &mut Worker, count: usize) -> Result<()> {
    let (room, right) = (cells(count.min(LIMIT)), bytes_of(2, count));
    [right, right - 1, right + 1, right - 2]
        .into_iter()
        .try_for_each(|length| zeros(worker, &head_of(2, count), length, room))
}
