//! Allowances and buffer lengths for a job.

use entry::chart_bytes;

use crate::rng::Rng;

/// The draws and bytes of a job's chart, where a run with plenty of both has shown them.
#[derive(Clone, Copy, Debug)]
pub struct Need {
    pub draws: u32,
    pub length: usize,
}

/// An allowance and a buffer length, often exactly what is needed or one off.
pub fn lent(rng: &mut Rng, need: Option<Need>) -> (u32, usize) {
    let need = need.unwrap_or(Need {
        draws: rng.below(60) as u32,
        length: chart_bytes(rng.index(40)),
    });
    let plenty = 1_000_000;

    let allowance = match rng.below(10) {
        0..=2 => need.draws,
        3 => need.draws.saturating_sub(1),
        4 => need.draws + 1,
        5 => rng.below(u64::from(need.draws) + 1) as u32,
        6 => rng.below(4) as u32,
        7 => u32::MAX,
        _ => plenty,
    };
    let length = match rng.below(10) {
        0..=2 => need.length,
        3 => need.length.saturating_sub(1),
        4 => need.length + 1 + rng.index(40),
        5 => rng.index(need.length + 1),
        6 => rng.index(chart_bytes(1) + 1),
        _ => need.length + 200,
    };

    (allowance, length)
}
