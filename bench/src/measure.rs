//! The clock: interleaved rounds of a piece of work, and the median time of each side.

use crate::work::Work;
use std::time::Instant;

/// Median nanoseconds of one piece of work, by the library and by the baseline.
#[derive(Clone, Copy)]
pub struct Times {
    pub library: f64,
    pub baseline: f64,
}

impl Times {
    pub fn ratio(self) -> f64 {
        self.library / self.baseline
    }
}

/// Does each piece of work once for nothing, then so many rounds of all of them, so that a slow spell of the machine falls on all alike.
/// In a round the two sides take turns, and begin by turns.
pub fn measure<W: Work>(works: &mut [W], rounds: usize) -> Vec<Times> {
    let mut library = vec![Vec::new(); works.len()];
    let mut baseline = vec![Vec::new(); works.len()];
    for round in 0..=rounds {
        for (place, work) in works.iter_mut().enumerate() {
            let times = time_both(work, round % 2 == 0);
            if round > 0 {
                library[place].push(times.library);
                baseline[place].push(times.baseline);
            }
        }
    }
    let medians = library.into_iter().zip(baseline);
    medians
        .map(|(library, baseline)| Times { library: median(library), baseline: median(baseline) })
        .collect()
}

/// Both sides once, with cleared buffers and the same answers.
fn time_both(work: &mut impl Work, library_first: bool) -> Times {
    work.clear();
    let mut times = Times { library: 0.0, baseline: 0.0 };
    if library_first {
        times.library = time(|| work.library());
    }
    times.baseline = time(|| work.baseline());
    if !library_first {
        times.library = time(|| work.library());
    }
    work.compare();
    times
}

fn time(mut work: impl FnMut()) -> f64 {
    let start = Instant::now();
    work();
    start.elapsed().as_nanos() as f64
}

/// The middle value; of two middle values their mean.
pub fn median(mut values: Vec<f64>) -> f64 {
    values.sort_by(f64::total_cmp);
    let middle = values.len() / 2;
    match values.len() % 2 {
        0 => (values[middle - 1] + values[middle]) / 2.0,
        _ => values[middle],
    }
}
