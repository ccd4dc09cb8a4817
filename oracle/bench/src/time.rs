//! Medians of times.

use std::hint::black_box;
use std::time::{Duration, Instant};

/// How many runs a median is taken of, and how long a run lasts at least.
#[derive(Clone, Copy)]
pub struct Plan {
    pub runs: usize,
    pub least: Duration,
}

/// One run: the seconds of a call. The call is repeated until its time sums up to `least`. What `ready` makes for it, and the drop of what it
/// gives, are not timed.
pub fn run<S, R>(least: Duration, mut ready: impl FnMut() -> S, mut call: impl FnMut(S) -> R) -> f64 {
    let (mut spent, mut calls) = (Duration::ZERO, 0_u32);
    while spent < least || calls == 0 {
        let input = black_box(ready());
        let begun = Instant::now();
        let made = call(input);
        spent += begun.elapsed();
        black_box(made);
        calls += 1;
    }

    spent.as_secs_f64() / f64::from(calls)
}

/// The median seconds of each side. The sides run by turns, after one run each that does not count.
pub fn medians<const N: usize>(runs: usize, mut sides: [&mut dyn FnMut() -> f64; N]) -> [f64; N] {
    let mut times: [Vec<f64>; N] = std::array::from_fn(|_| Vec::new());
    for turn in 0..=runs {
        for (side, times) in sides.iter_mut().zip(&mut times) {
            let seconds = side();
            if turn > 0 {
                times.push(seconds);
            }
        }
    }

    times.map(|mut times| {
        times.sort_by(f64::total_cmp);
        (times[(times.len() - 1) / 2] + times[times.len() / 2]) / 2.0
    })
}
