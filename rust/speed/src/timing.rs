//! Some ways to do the same work, timed by turns; the best time of each is kept, and the median.

use std::time::{Duration, Instant};

/// Of one way, for each thing done, in nanoseconds.
#[derive(Clone, Copy, Debug)]
pub struct Times {
    pub best: f64,
    pub median: f64,
}

/// Each way once in every turn, so that a busy moment of the machine meets them all. A call does so
/// many things.
pub fn by_turns<const WAYS: usize>(
    turns: usize,
    things: usize,
    mut ways: [&mut dyn FnMut(); WAYS],
) -> [Times; WAYS] {
    let mut taken = [const { vec![] }; WAYS];
    for _ in 0..turns {
        for (way, taken) in ways.iter_mut().zip(&mut taken) {
            taken.push(once(way));
        }
    }
    taken.map(|taken| Times::of(taken, things))
}

fn once(work: &mut impl FnMut()) -> Duration {
    let start = Instant::now();
    work();
    start.elapsed()
}

impl Times {
    fn of(mut taken: Vec<Duration>, things: usize) -> Times {
        taken.sort_unstable();
        let each = |time: Option<&Duration>| {
            time.map_or(f64::NAN, |time| time.as_nanos() as f64 / things as f64)
        };
        Times { best: each(taken.first()), median: each(taken.get(taken.len() / 2)) }
    }

    /// How many times as fast as another, by the best times and by the medians.
    pub fn against(self, other: Times) -> Times {
        Times { best: other.best / self.best, median: other.median / self.median }
    }
}
