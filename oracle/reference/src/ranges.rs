//! The ranges of document 01, which record and single-object entry share.

use std::ops::RangeInclusive;

pub const SETTING: RangeInclusive<f32> = 0.0..=10.0;
pub const MULTIPLIER: RangeInclusive<f64> = 0.4..=3.6;
pub const TIME: RangeInclusive<f64> = -16_777_215.0..=16_777_215.0;
pub const BEAT_LENGTH: RangeInclusive<f64> = 6.0..=60_000.0;
pub const VELOCITY: RangeInclusive<f64> = 0.1..=10.0;
pub const POSITION: RangeInclusive<f32> = -512.0..=1024.0;
pub const START: RangeInclusive<f64> = 0.0..=16_777_215.0;
pub const DURATION: RangeInclusive<f64> = 0.0..=16_777_215.0;
pub const DISTANCE: RangeInclusive<f64> = 0.0..=131_072.0;

/// Repeats of a slider, of the 10 bits that a record has for them (document 02, change request 4).
pub const MOST_REPEATS: u32 = 299;

/// The last instant of a slider or of a chart.
pub const LAST: f64 = 33_554_431.0;

/// NaN and infinity fall out of every range by comparison; negative zero must be named.
pub fn within64(value: f64, range: &RangeInclusive<f64>) -> bool {
    range.contains(&value) && value.to_bits() != (-0.0_f64).to_bits()
}

pub fn within32(value: f32, range: &RangeInclusive<f32>) -> bool {
    range.contains(&value) && value.to_bits() != (-0.0_f32).to_bits()
}
