//! Times contenders turn about in short slices, and sums up many rounds.

use std::hint::black_box;
use std::time::{Duration, Instant};

use peer::model::AREA;

use crate::contender::Interpret;
use crate::workloads::Workload;

/// How long a slice is to last.
const SLICE: Duration = Duration::from_micros(300);

/// Something that is timed: `run` does it so many times.
pub type Run<'a> = Box<dyn FnMut(usize) + 'a>;

/// How much to measure.
#[derive(Clone, Copy, Debug)]
pub struct Effort {
    /// Rounds of one pass over a workload.
    pub rounds: usize,
    /// Passes over all workloads, so that a slow minute spoils no row alone.
    pub passes: usize,
}

/// The middle and the tenths at either end of some numbers.
#[derive(Clone, Copy, Debug, PartialEq)]
pub struct Spread {
    pub low: f64,
    pub middle: f64,
    pub high: f64,
}

impl Spread {
    pub fn of(mut numbers: Vec<f64>) -> Self {
        numbers.sort_by(f64::total_cmp);
        let at = |share: f64| {
            let last = numbers.len().saturating_sub(1) as f64;
            numbers.get((last * share).round() as usize).copied().unwrap_or(f64::NAN)
        };
        Self { low: at(0.1), middle: at(0.5), high: at(0.9) }
    }
}

/// Times of each contender, round by round, in nanoseconds for one run.
pub type Times = Vec<Vec<f64>>;

/// One pass of rounds; who goes first moves on with each round.
pub fn rounds(runs: &mut [Run<'_>], rounds: usize, times: &mut Times) {
    let counts: Vec<usize> = runs.iter_mut().map(|run| calibrate(run)).collect();
    times.resize(runs.len(), Vec::new());
    for round in 0..rounds {
        for turn in 0..runs.len() {
            let which = (round + turn) % runs.len();
            let start = Instant::now();
            runs[which](counts[which]);
            times[which].push(start.elapsed().as_nanos() as f64 / counts[which] as f64);
        }
    }
}

/// How many runs fill a slice; warms up on the way.
fn calibrate(run: &mut Run<'_>) -> usize {
    let mut count = 1;
    loop {
        let start = Instant::now();
        run(count);
        let took = start.elapsed();
        if took >= SLICE || count > 1 << 24 {
            return count;
        }
        let nanos = took.as_nanos().max(50) as usize;
        count = (count * SLICE.as_nanos() as usize / nanos).clamp(count + 1, count * 10);
    }
}

/// All parts of a workload, once for each of `count`.
pub fn interpreting(interpret: Interpret, workload: &Workload) -> Run<'_> {
    let mut area = [0; AREA];
    Box::new(move |count| {
        for _ in 0..count {
            for case in &workload.cases {
                let mut state = case.state;
                let case = black_box(case);
                let answer =
                    interpret(&case.part, &case.widths, &mut area, &case.descriptor, &mut state);
                black_box((answer, state));
            }
        }
    })
}

/// Copying the bytes of a workload's parts.
pub fn copying(workload: &Workload) -> Run<'_> {
    let mut copy = vec![0; workload.cases.iter().map(|case| case.part.len()).max().unwrap_or(0)];
    Box::new(move |count| {
        for _ in 0..count {
            for case in &workload.cases {
                let part = black_box(case.part.as_slice());
                copy[..part.len()].copy_from_slice(part);
                black_box(&mut copy);
            }
        }
    })
}

#[cfg(test)]
mod tests {
    use super::*;

    #[test]
    fn the_middle_is_the_median() {
        let spread = Spread::of((0..=100).rev().map(f64::from).collect());
        assert_eq!(spread, Spread { low: 10.0, middle: 50.0, high: 90.0 });
        assert!(Spread::of(Vec::new()).middle.is_nan());
    }
}
