//! Plain timing loops: the best of several repetitions, the sides taking turns in each.

use std::time::{Duration, Instant};

pub const REPETITIONS: usize = 60;
const LEAST_TIME: Duration = Duration::from_micros(500);

/// Something to be timed or counted, again and again.
pub type Run = Box<dyn FnMut()>;

/// Nanoseconds of one run of each side.
pub fn best_nanoseconds(sides: &mut [Run]) -> Vec<f64> {
    let mut timed: Vec<_> = sides
        .iter_mut()
        .map(|run| {
            let runs = enough_runs(run);
            (run, runs, Duration::MAX)
        })
        .collect();
    for _ in 0..REPETITIONS {
        for (run, runs, best) in &mut timed {
            *best = time_of(*runs, run).min(*best);
        }
    }
    timed
        .iter()
        .map(|(_, runs, best)| best.as_nanos() as f64 / f64::from(*runs))
        .collect()
}

/// How many runs take long enough for the clock.
fn enough_runs(run: &mut Run) -> u32 {
    let mut runs = 1;
    while time_of(runs, run) < LEAST_TIME {
        runs *= 2;
    }
    runs
}

fn time_of(runs: u32, run: &mut Run) -> Duration {
    let start = Instant::now();
    for _ in 0..runs {
        run();
    }
    start.elapsed()
}
