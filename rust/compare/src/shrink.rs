//! Makes the input of a difference as small as possible.
use crate::check::{Fault, Subject, Worker};
use crate::ean13::model as ean13;
use crate::model::{bytes_of, cells, head_of, LIMIT};

/// The most calls that shrinking makes; a call on a long input counts as several.
const TRIES: usize = 40_000;
/// The number of elements for which a call counts once more.
const ELEMENTS: usize = 256;
/// The most elements of an input that are removed and lowered one by one.
const SINGLY: usize = 2000;

/// A buffer length that is enough for every job on this many elements, or on fewer.
fn ample(elements: usize) -> usize {
    cells(elements.min(LIMIT))
}

/// The smallest difference so far, and the calls that may still be made.
struct Shrinker<'a, 'b> {
    worker: &'a mut Worker<'b>,
    best: Fault,
    tries: usize,
}

/// Removes elements, lowers elements and shortens the buffer, as long as a difference remains. The
/// last shortening takes few calls, and is not counted.
pub fn shrink(worker: &mut Worker, fault: Fault) -> Fault {
    let mut shrinker = Shrinker {
        worker,
        best: fault,
        tries: TRIES,
    };
    shrinker.widen();
    shrinker.trim();
    loop {
        let singly = shrinker.best.input.len() <= SINGLY;
        let removed = shrinker.recount() || (singly && shrinker.remove());
        let lowered = singly && (shrinker.redraw() || shrinker.lower());
        let shortened = shrinker.shorten();
        if !(removed || lowered || shortened) {
            break;
        }
    }
    shrinker.tries = usize::MAX;
    while shrinker.shorten() {}
    shrinker.best
}

/// The sizes of the parts to remove: the length, its halves, and blocks of eleven cells; the
/// largest first.
fn sizes(length: usize) -> Vec<usize> {
    let mut sizes: Vec<usize> =
        std::iter::successors(Some(length), |&size| (size > 1).then_some(size / 2)).collect();
    sizes.extend(std::iter::successors(Some(11), |&size| {
        (2 * size < length).then_some(2 * size)
    }));
    sizes.retain(|&size| (1..=length).contains(&size));
    sizes.sort_unstable_by(|a, b| b.cmp(a));
    sizes.dedup();
    sizes
}

/// Smaller values to try for an element: 0, `0`, `A`, and then the value less ever smaller steps.
fn lower_values(value: u32) -> impl Iterator<Item = u32> {
    let steps = std::iter::successors(Some(value / 2), |&step| (step > 1).then_some(step / 2));
    [0, 0x30, 0x41]
        .into_iter()
        .chain(steps.map(move |step| value - step))
        .filter(move |&other| other < value)
}

/// Smaller counts to try for a record: all of them in one byte. In two bytes a few from 1 on and
/// from 256 on; eight in a row have every number of spare bits.
fn smaller_counts(version: u8, first: u32) -> Vec<usize> {
    match version {
        2 => (1..=8).chain(256..=263).collect(),
        _ => (1..first.min(255) as usize).collect(),
    }
}

impl Shrinker<'_, '_> {
    /// Compares once; a difference becomes the smallest so far.
    fn differs(&mut self, input: &[u32], room: usize, mark: u8) -> bool {
        let Some(left) = self.tries.checked_sub(1 + input.len() / ELEMENTS) else {
            return false;
        };
        self.tries = left;
        match self.worker.again(self.best.subject, input, room, mark) {
            Ok(()) => false,
            Err(fault) => {
                self.best = *fault;
                true
            }
        }
    }

    /// Takes a long buffer if the difference remains with it, so that a short buffer does not
    /// prevent a smaller input.
    fn widen(&mut self) {
        let (input, mark) = (self.best.input.clone(), self.best.mark);
        let room = ample(input.len());
        if self.best.room < room {
            self.differs(&input, room, mark);
        }
    }

    /// Makes a long input shorter at its end and after its first element or block, and what is left
    /// as much alike as it can be. These calls are few, and are not counted.
    fn trim(&mut self) {
        if self.best.input.len() <= ELEMENTS {
            return;
        }
        let tries = std::mem::replace(&mut self.tries, usize::MAX);
        for size in sizes(self.best.input.len()) {
            while self.cut(size) {}
        }
        for parts in [1, 2, 4, 8, 16] {
            let length = self.best.input.len();
            for from in (1..length).step_by(length.div_ceil(parts)) {
                self.level(from, (from + length.div_ceil(parts)).min(length));
            }
        }
        self.tries = tries;
    }

    /// Removes this many elements at the end, after the first one, or after the first eleven.
    fn cut(&mut self, size: usize) -> bool {
        let last = self.best.input.len().checked_sub(size);
        [last, Some(1), Some(11)]
            .into_iter()
            .flatten()
            .any(|from| from + size <= self.best.input.len() && self.remove_part(from, from + size))
    }

    /// Gives all elements of a part one value.
    fn level(&mut self, from: usize, to: usize) {
        let (input, room, mark) = (self.best.input.clone(), self.best.room, self.best.mark);
        [0, 0x20, 0x30].into_iter().any(|value| {
            let mut other = input.clone();
            other[from..to].fill(value);
            other == input || self.differs(&other, room, mark)
        });
    }

    /// Tries a record with a smaller count, and only as many of its last bytes as that count needs.
    fn recount(&mut self) -> bool {
        let (input, room, mark) = (self.best.input.clone(), self.best.room, self.best.mark);
        let record = matches!(self.best.subject, Subject::Unpack | Subject::RecordLaw);
        if !record || input.len() < 3 {
            return false;
        }
        let version = input[0] as u8;
        smaller_counts(version, input[1]).into_iter().any(|n| {
            let (head, bytes) = (head_of(version, n), bytes_of(version, n));
            let Some(front) = input.len().checked_sub(bytes).filter(|&less| less > 0) else {
                return false;
            };
            let head = head.iter().map(|&byte| u32::from(byte));
            let rest = input[front + head.len()..].iter().copied();
            self.differs(&head.chain(rest).collect::<Vec<u32>>(), room, mark)
        })
    }

    /// Removes parts of the input, from all of it down to single elements.
    fn remove(&mut self) -> bool {
        let mut any = false;
        for size in sizes(self.best.input.len()) {
            let mut from = 0;
            while from + size <= self.best.input.len() {
                match self.remove_part(from, from + size) {
                    true => any = true,
                    false => from += size,
                }
            }
        }
        any
    }

    /// Removes one part, with the same buffer or with a buffer that is shorter by what the part may
    /// have needed.
    fn remove_part(&mut self, from: usize, to: usize) -> bool {
        let (room, mark) = (self.best.room, self.best.mark);
        let input = [&self.best.input[..from], &self.best.input[to..]].concat();
        [0, to - from, 11 * (to - from)]
            .into_iter()
            .filter(|&less| less <= room)
            .any(|less| self.differs(&input, room - less, mark))
    }

    /// Lowers each element as far as it goes.
    fn lower(&mut self) -> bool {
        let mut any = false;
        for place in 0..self.best.input.len() {
            while self.lower_at(place) {
                any = true;
            }
        }
        any
    }

    /// Lowers one element once.
    fn lower_at(&mut self, place: usize) -> bool {
        let (mut input, room, mark) = (self.best.input.clone(), self.best.room, self.best.mark);
        lower_values(input[place]).any(|value| {
            input[place] = value;
            self.differs(&input, room, mark)
        })
    }

    /// Draws each digit of a row of EAN-13 lower, as far as it goes.
    fn redraw(&mut self) -> bool {
        if self.best.subject != Subject::Ean13Read || self.best.input.len() < ean13::CELLS {
            return false;
        }
        let mut any = false;
        for block in 0..ean13::BLOCKS {
            any |= self.redraw_at(block);
        }
        any
    }

    /// Draws one digit lower in its set, with the same check or with any other.
    fn redraw_at(&mut self, block: usize) -> bool {
        let (input, room, mark) = (self.best.input.clone(), self.best.room, self.best.mark);
        let drawn = |row: &mut [u32], block: usize, cells: [u8; 7]| {
            row[ean13::place(block)..][..7].copy_from_slice(&cells.map(u32::from));
        };
        let is_drawn = |&(set, digit): &(ean13::Set, u8)| {
            ean13::pattern(set, digit).map(u32::from) == input[ean13::place(block)..][..7]
        };
        let Some((set, digit)) = ean13::every().find(is_drawn) else {
            return false;
        };
        let checks = std::iter::once(None).chain((0..10).map(Some));
        (0..digit)
            .flat_map(|lower| checks.clone().map(move |check| (lower, check)))
            .any(|(lower, check)| {
                let mut row = input.clone();
                if let Some(check) = check {
                    let check = ean13::pattern(ean13::Set::C, check);
                    drawn(&mut row, ean13::BLOCKS - 1, check);
                }
                drawn(&mut row, block, ean13::pattern(set, lower));
                row != input && self.differs(&row, room, mark)
            })
    }

    /// Takes a shorter buffer, and the usual mark.
    fn shorten(&mut self) -> bool {
        let (input, room, mark) = (self.best.input.clone(), self.best.room, self.best.mark);
        let mut steps = std::iter::successors(Some(room), |&step| (step > 1).then_some(step / 2))
            .filter(|&step| step > 0);
        steps.any(|step| self.differs(&input, room - step, mark))
            || (mark != 0xA7 && self.differs(&input, room, 0xA7))
    }
}
