//! Times several sides in many rounds: in each round, a batch of each side in turn.
use std::hint::black_box;
use std::time::{Duration, Instant};

/// The shortest time of a batch, so that the time of the clock itself does not count.
const BATCH: Duration = Duration::from_micros(300);

/// One of the sides that are timed. A batch goes over all of its inputs `turns` times.
pub struct Side<'a> {
    batch: Box<dyn FnMut(usize) + 'a>,
    inputs: usize,
    turns: usize,
}

impl<'a> Side<'a> {
    /// A side that does a job on each input. The job keeps its buffer, which is not cleared between
    /// two inputs.
    pub fn new<I: ?Sized>(inputs: Vec<&'a I>, mut job: impl FnMut(&I) + 'a) -> Side<'a> {
        let count = inputs.len();
        let batch = move |turns| {
            for _ in 0..turns {
                for &input in &inputs {
                    job(black_box(input));
                }
            }
        };
        Side {
            batch: Box::new(batch),
            inputs: count,
            turns: 1,
        }
    }

    /// The time of one batch.
    fn time(&mut self) -> Duration {
        let start = Instant::now();
        (self.batch)(self.turns);
        start.elapsed()
    }

    /// Makes the batch long enough; this warms the side up as well.
    fn size(&mut self) {
        self.time();
        while self.time() < BATCH {
            self.turns *= 2;
        }
    }

    /// The nanoseconds of a call, on average over one batch.
    fn measure(&mut self) -> f64 {
        self.time().as_nanos() as f64 / (self.turns * self.inputs) as f64
    }
}

/// The nanoseconds of a call of every side in every round. Each round times all sides in turn and
/// begins with another side, so that something else that happens at intervals does not always meet
/// the same side.
pub fn measure(sides: &mut [Side], rounds: usize) -> Vec<Vec<f64>> {
    sides.iter_mut().for_each(Side::size);
    let mut times = vec![Vec::with_capacity(rounds); sides.len()];
    for round in 0..rounds {
        for i in 0..sides.len() {
            let k = (round + i) % sides.len();
            times[k].push(sides[k].measure());
        }
    }
    times
}

/// The quantile of the values at this part, from 0 to 1; between two values it is on the straight
/// line between them.
pub fn quantile(values: &[f64], part: f64) -> f64 {
    let mut sorted = values.to_vec();
    sorted.sort_by(f64::total_cmp);
    let place = (sorted.len() - 1) as f64 * part;
    let (low, high) = (
        sorted[place.floor() as usize],
        sorted[place.ceil() as usize],
    );
    low + (high - low) * place.fract()
}

/// The median; for an even number of values it is the mean of the two in the middle.
pub fn median(values: &[f64]) -> f64 {
    quantile(values, 0.5)
}

#[cfg(test)]
mod tests {
    use super::{median, quantile};

    #[test]
    fn quantiles_lie_between_the_nearest_values() {
        assert_eq!(median(&[7.0]), 7.0);
        assert_eq!(median(&[4.0, 1.0]), 2.5);
        assert_eq!(median(&[9.0, 1.0, 2.0]), 2.0);
        assert_eq!(median(&[4.0, 3.0, 1.0, 2.0]), 2.5);
        assert_eq!(
            (
                quantile(&[4.0, 3.0, 1.0, 2.0], 0.25),
                quantile(&[4.0, 3.0, 1.0, 2.0], 0.75)
            ),
            (1.75, 3.25)
        );
        assert_eq!(
            (
                quantile(&[5.0, 4.0, 3.0, 2.0, 1.0], 0.25),
                quantile(&[5.0, 4.0, 3.0, 2.0, 1.0], 0.75)
            ),
            (2.0, 4.0)
        );
        assert_eq!(
            (quantile(&[2.0, 1.0], 0.0), quantile(&[2.0, 1.0], 1.0)),
            (1.0, 2.0)
        );
    }
}
