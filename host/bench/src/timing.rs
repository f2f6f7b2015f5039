//! The time of each question on both sides, in nanoseconds: the median of the
//! rounds' medians. A round goes over all rows, and takes several samples of
//! each; the sides take turns, and the one that begins changes every time.

use std::time::{Duration, Instant};

use crate::asked::Repeated;
use crate::case::Case;

/// How much is measured.
#[derive(Clone, Copy)]
pub struct Effort {
    pub rounds: usize,
    pub samples: usize,
    /// The least time of a sample.
    pub sample: Duration,
}

impl Effort {
    pub const FULL: Effort = Effort {
        rounds: 9,
        samples: 9,
        sample: Duration::from_micros(400),
    };

    /// Each question once: its time says nothing.
    pub const QUICK: Effort = Effort {
        rounds: 1,
        samples: 1,
        sample: Duration::ZERO,
    };
}

/// The times of a case.
#[derive(Clone, Copy)]
pub struct Times {
    pub kerbcanopy: f64,
    pub reference: f64,
    /// The one to the other, the median over the rounds: what slows a whole round
    /// down slows both sides.
    pub ratio: f64,
    pub copy: Option<f64>,
}

/// Times every case.
pub fn measure<'a>(cases: impl Iterator<Item = &'a mut Case>, effort: Effort) -> Vec<Times> {
    let mut meters: Vec<Vec<Meter>> = cases.map(|case| meters(case, effort)).collect();
    for round in 0..effort.rounds {
        if effort.rounds > 1 {
            eprintln!("round {} of {}", round + 1, effort.rounds);
        }
        for sides in &mut meters {
            take_round(sides, effort.samples);
        }
    }
    let times = meters.iter().map(|sides| Times {
        kerbcanopy: sides[0].time(),
        reference: sides[1].time(),
        ratio: ratio(&sides[0], &sides[1]),
        copy: sides.get(2).map(Meter::time),
    });
    times.collect()
}

/// A call that is timed, and the medians of its rounds so far.
struct Meter<'a> {
    call: &'a mut Repeated,
    /// How many calls make a sample.
    calls: u32,
    medians: Vec<f64>,
}

fn meters(case: &mut Case, effort: Effort) -> Vec<Meter<'_>> {
    let both = [&mut case.asked.kerbcanopy, &mut case.asked.reference];
    let calls = both.into_iter().chain(case.copy.as_mut());
    let meters = calls.map(|call| Meter {
        calls: calls_in(call, effort.sample),
        call,
        medians: Vec::new(),
    });
    meters.collect()
}

/// How many calls fill a sample, found by doubling.
fn calls_in(call: &mut Repeated, sample: Duration) -> u32 {
    let mut calls = 1;
    loop {
        let start = Instant::now();
        call(calls);
        if start.elapsed() >= sample {
            return calls;
        }
        calls *= 2;
    }
}

/// Adds the median of some samples to each, taken in turns.
fn take_round(sides: &mut [Meter], samples: usize) {
    let mut taken = vec![Vec::new(); sides.len()];
    let last = sides.len() - 1;
    for sample in 0..samples {
        for turn in 0..sides.len() {
            let side = if sample % 2 == 0 { turn } else { last - turn };
            taken[side].push(sides[side].sample());
        }
    }
    for (side, samples) in sides.iter_mut().zip(taken) {
        side.medians.push(median(&samples));
    }
}

impl Meter<'_> {
    /// The time of one call, averaged over a sample.
    fn sample(&mut self) -> f64 {
        let start = Instant::now();
        (self.call)(self.calls);
        start.elapsed().as_nanos() as f64 / f64::from(self.calls)
    }

    fn time(&self) -> f64 {
        median(&self.medians)
    }
}

/// The median of the rounds' ratios.
fn ratio(first: &Meter, second: &Meter) -> f64 {
    let rounds = first.medians.iter().zip(&second.medians);
    let ratios: Vec<f64> = rounds.map(|(first, second)| first / second).collect();
    median(&ratios)
}

/// The middle of the numbers, or the mean of the two in the middle.
fn median(numbers: &[f64]) -> f64 {
    let mut sorted = numbers.to_vec();
    sorted.sort_by(f64::total_cmp);
    let middle = sorted.len() / 2;
    match sorted.len() % 2 {
        1 => sorted[middle],
        _ => (sorted[middle - 1] + sorted[middle]) / 2.0,
    }
}

#[cfg(test)]
mod tests {
    use super::*;
    use std::cell::RefCell;
    use std::rc::Rc;

    #[test]
    fn the_median_is_in_the_middle() {
        assert_eq!(median(&[9.0, 1.0, 2.0]), 2.0);
        assert_eq!(median(&[9.0, 1.0, 2.0, 4.0]), 3.0);
    }

    #[test]
    fn the_ratio_is_that_of_the_rounds() {
        let (mut first, mut second) = (nothing(), nothing());
        let first = meter(&mut first, &[2.0, 40.0, 3.0]);
        let second = meter(&mut second, &[1.0, 10.0, 1.0]);
        assert_eq!(ratio(&first, &second), 3.0);
    }

    #[test]
    fn the_sides_take_turns() {
        let order = Rc::new(RefCell::new(Vec::new()));
        let mut calls = ['a', 'b', 'c'].map(|side| {
            let order = order.clone();
            Box::new(move |_| order.borrow_mut().push(side)) as Repeated
        });
        let mut sides: Vec<Meter> = calls.iter_mut().map(|call| meter(call, &[])).collect();
        take_round(&mut sides, 3);
        let order: String = order.borrow().iter().collect();
        assert_eq!(order, "abccbaabc");
        assert!(sides.iter().all(|side| side.medians.len() == 1));
    }

    fn nothing() -> Repeated {
        Box::new(|_| {})
    }

    fn meter<'a>(call: &'a mut Repeated, medians: &[f64]) -> Meter<'a> {
        Meter {
            call,
            calls: 1,
            medians: medians.to_vec(),
        }
    }
}
