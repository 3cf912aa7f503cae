use std::time::{Duration, Instant};

/// Nanoseconds of our side and of the other.
pub struct Times {
    pub ours: f64,
    pub other: f64,
}

/// Keeps the best time of every lap. Laps are short, so that one in which nothing else ran on the
/// processor is found even where much else runs.
#[derive(Default)]
pub struct Clock {
    best: Vec<Duration>,
    laps: usize,
}

impl Clock {
    pub fn lap<T>(&mut self, work: impl FnOnce() -> T) {
        let start = Instant::now();
        std::hint::black_box(work());
        let time = start.elapsed();
        match self.best.get_mut(self.laps) {
            Some(best) => *best = time.min(*best),
            None => self.best.push(time),
        }
        self.laps += 1;
    }

    fn nanoseconds(&self) -> f64 {
        let total: Duration = self.best.iter().sum();
        total.as_nanos() as f64
    }
}

/// The time of each side for one of `many`, from rounds by turns. Each round of a side has the same
/// laps.
pub fn race(
    rounds: usize,
    many: usize,
    mut ours: impl FnMut(&mut Clock),
    mut other: impl FnMut(&mut Clock),
) -> Times {
    let (mut our_clock, mut other_clock) = (Clock::default(), Clock::default());
    for _ in 0..rounds {
        our_clock.laps = 0;
        ours(&mut our_clock);
        other_clock.laps = 0;
        other(&mut other_clock);
    }
    Times {
        ours: our_clock.nanoseconds() / many as f64,
        other: other_clock.nanoseconds() / many as f64,
    }
}
