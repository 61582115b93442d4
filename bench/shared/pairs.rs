//! Two sides timed in pairs, one right after the other. Where a machine is faster in one minute than in the next, the least times of
//! the two sides may be of different minutes; the two of a pair hardly are.

use std::array::from_fn;

/// What pairs of runs took: nanoseconds of each of so many jobs, of two sides.
pub struct Pairs<const JOBS: usize> {
    least: [[f64; JOBS]; 2],
    ratios: [Vec<f64>; JOBS],
}

impl<const JOBS: usize> Pairs<JOBS> {
    pub fn new() -> Pairs<JOBS> {
        Pairs {
            least: [[f64::MAX; JOBS]; 2],
            ratios: from_fn(|_| Vec::new()),
        }
    }

    /// Times both sides, each first in every other pair. `time` runs the side with this number.
    pub fn run(&mut self, time: impl Fn(usize) -> [f64; JOBS]) {
        let first = self.ratios[0].len() % 2;
        let mut times = [[0.0; JOBS]; 2];
        for side in [first, 1 - first] {
            times[side] = time(side);
        }
        for job in 0..JOBS {
            self.ratios[job].push(times[0][job] / times[1][job]);
            for (least, times) in self.least.iter_mut().zip(times) {
                least[job] = least[job].min(times[job]);
            }
        }
    }

    /// The least time of both sides for a job.
    pub fn least(&self, job: usize) -> [f64; 2] {
        [self.least[0][job], self.least[1][job]]
    }

    /// The median of the pairs' ratios, the first side's time over the second's.
    pub fn ratio(&self, job: usize) -> f64 {
        let mut ratios = self.ratios[job].clone();
        ratios.sort_by(f64::total_cmp);
        ratios[ratios.len() / 2]
    }
}
