//! Times of the same work by several programs, in turn.

use std::time::Instant;

/// The seconds of one program's rounds.
#[derive(Default)]
pub struct Times {
    rounds: Vec<f64>,
}

impl Times {
    /// What disturbs a round only makes it longer, so that the shortest says most.
    pub fn best(&self) -> f64 {
        self.rounds.iter().copied().fold(f64::INFINITY, f64::min)
    }

    pub fn median(&self) -> f64 {
        let mut sorted = self.rounds.clone();
        sorted.sort_by(f64::total_cmp);
        sorted[sorted.len() / 2]
    }
}

/// Each program's work once in every round, one after the other: what the machine does meanwhile befalls all alike.
pub fn interleaved<T>(rounds: usize, runs: &mut [T], mut work: impl FnMut(&mut T)) -> Vec<Times> {
    let mut times: Vec<Times> = runs.iter().map(|_| Times::default()).collect();
    for _ in 0..rounds {
        for (run, times) in runs.iter_mut().zip(&mut times) {
            let start = Instant::now();
            work(run);
            times.rounds.push(start.elapsed().as_secs_f64());
        }
    }
    times
}

/// The seconds of one piece of work, done `count` times in each round.
pub fn each(rounds: usize, count: usize, mut work: impl FnMut()) -> f64 {
    let times = interleaved(rounds, &mut [()], |()| {
        for _ in 0..count {
            work();
        }
    });
    times[0].best() / count as f64
}
