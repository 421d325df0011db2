//! Divides the work of a part into blocks, and does the blocks on several threads.
use crate::check::{Fault, Tally, Worker};
use crate::face::Face;
use crate::model::Model;
use crate::random::Random;
use std::sync::atomic::{AtomicU64, Ordering};
use std::sync::Mutex;

/// What a run works with.
pub struct Run<'a> {
    /// The library, or a wrong one.
    pub face: &'a dyn Face,
    /// The model.
    pub model: &'a Model,
    /// The seed of all random inputs.
    pub seed: u64,
    /// The number of random inputs for encode; the other jobs get a part of that number.
    pub random: u64,
    /// The number of threads.
    pub threads: usize,
}

/// The result of some work, or the difference that it found.
pub type Result<T> = std::result::Result<T, Box<Fault>>;

/// The next block, the end of the blocks that are still to be done, and the difference in the
/// lowest block.
struct State {
    next: AtomicU64,
    end: AtomicU64,
    found: Mutex<Option<(u64, Box<Fault>)>>,
}

/// The number of random inputs in a block.
pub const BLOCK: u64 = 512;

impl Run<'_> {
    /// Does the blocks below `count`. The difference that it returns is that of the lowest block,
    /// in whatever order the threads worked.
    pub fn blocks(
        &self,
        count: u64,
        work: impl Fn(&mut Worker, u64) -> Result<()> + Sync,
    ) -> Result<Tally> {
        let state = State {
            next: AtomicU64::new(0),
            end: AtomicU64::new(count),
            found: Mutex::new(None),
        };
        let tallies: Vec<Tally> = std::thread::scope(|scope| {
            let threads: Vec<_> = (0..self.threads.max(1))
                .map(|_| scope.spawn(|| self.thread(&state, &work)))
                .collect();
            threads
                .into_iter()
                .map(|thread| thread.join().expect("a thread of the comparison panicked"))
                .collect()
        });
        if let Some((_, fault)) = state.found.into_inner().expect("no thread panicked") {
            return Err(fault);
        }
        let mut total = Tally::default();
        tallies.iter().for_each(|tally| total.add(tally));
        Ok(total)
    }

    /// One thread: does blocks until none is left.
    fn thread(
        &self,
        state: &State,
        work: &(impl Fn(&mut Worker, u64) -> Result<()> + Sync),
    ) -> Tally {
        let mut worker = Worker::new(self.face, self.model);
        loop {
            let block = state.next.fetch_add(1, Ordering::Relaxed);
            if block >= state.end.load(Ordering::Relaxed) {
                return worker.tally;
            }
            if let Err(fault) = work(&mut worker, block) {
                let mut found = state.found.lock().expect("no thread panicked");
                match &*found {
                    Some((lowest, _)) if *lowest < block => {}
                    _ => *found = Some((block, fault)),
                }
                state.end.fetch_min(block, Ordering::Relaxed);
            }
        }
    }

    /// Does `work` on `inputs` random inputs, in blocks; the last block may be shorter.
    pub fn random_blocks(
        &self,
        part: &str,
        inputs: u64,
        work: impl Fn(&mut Worker, &mut Random) -> Result<()> + Sync,
    ) -> Result<Tally> {
        self.blocks(inputs.div_ceil(BLOCK), |worker, block| {
            let mut random = Random::new(self.seed, part, block);
            for _ in 0..BLOCK.min(inputs - block * BLOCK) {
                work(worker, &mut random)?;
            }
            Ok(())
        })
    }
}
