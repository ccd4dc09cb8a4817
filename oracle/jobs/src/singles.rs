//! Asks of the single-object entry.

use entry::{Kind, NOTE_BYTES, Single, State};

use crate::{
    records::{
        DURATIONS, GAPS, MOST_REPEATS, SEGMENTS, beat_length, multiplier, position, repeats, slider, sound,
        velocity,
    },
    rng::Rng,
};

const LAST_TIME: f64 = 16_777_215.0;

/// Every chance of the rules, so that values can be set beside its bound.
const CHANCES: &[f64] = &[
    0.03, 0.04, 0.08, 0.1, 0.12, 0.15, 0.17, 0.18, 0.23, 0.24, 0.27, 0.3, 0.34, 0.35, 0.36, 0.37,
    0.38, 0.42, 0.43, 0.45, 0.5, 0.52, 0.56, 0.62, 0.63, 0.78, 0.85, 0.585, 0.69, 0.25, 0.085, 1.0,
    0.0,
];

/// The chances of mirrored patterns, of which some are met at few column counts only.
const MIRRORED_CHANCES: &[f64] = &[
    0.03, 0.03, 0.04, 0.1, 0.12, 0.12, 0.15, 0.17, 0.23, 0.25, 0.085, 0.38, 0.585, 0.69, 0.5,
];

/// The chances of a slider's holds.
const HOLD_CHANCES: &[f64] = &[
    0.03, 0.04, 0.04, 0.08, 0.1, 0.1, 0.17, 0.18, 0.23, 0.27, 0.3, 0.34, 0.34, 0.36, 0.37, 0.43,
    0.56, 0.78, 0.85,
];

/// Bounds of the conversion difficulty.
const DIFFICULTIES: &[f64] = &[2.0, 2.5, 3.0, 4.0, 6.5, 12.0];

const ZEROS: State = State {
    x: 0,
    y: 0,
    z: 0,
    w: 0,
};

/// A state whose first three values are the given ones (31 bits each), with its last word free.
pub fn state_giving(values: [u32; 3], tops: [bool; 3], w: u32) -> State {
    // t from t ^ t >> 8, then x from x ^ x << 11.
    let word = |made: u32, last: u32| {
        let mixed = made ^ last ^ (last >> 19);
        let t = mixed ^ mixed >> 8 ^ mixed >> 16 ^ mixed >> 24;
        t ^ t << 11 ^ t << 22
    };
    let made: [u32; 3] =
        std::array::from_fn(|i| values[i] & 0x7fff_ffff | u32::from(tops[i]) << 31);

    State {
        x: word(made[0], w),
        y: word(made[1], made[0]),
        z: word(made[2], made[1]),
        w,
    }
}

/// A value at, or one off, the bound of a chance or of a column.
fn value(rng: &mut Rng, chances: &[f64]) -> u32 {
    let at = match rng.below(5) {
        0 => rng.pick(&[0, 1, 0x7fff_ffff, 1 << 30]),
        1 | 2 => ((1.0 - rng.pick(chances)) * 2_147_483_648.0).ceil() as i64,
        3 => {
            let columns = rng.between(1, 9);
            ((rng.between(0, columns) << 31) + columns - 1) / columns
        }
        _ => rng.below(1 << 31) as i64,
    };

    (at + rng.pick(&[-1, 0, 0, 1])).clamp(0, 0x7fff_ffff) as u32
}

fn state(rng: &mut Rng, chances: &[f64]) -> State {
    match rng.below(8) {
        0 => State {
            x: rng.below(1000) as u32,
            y: 842_502_087,
            z: 3_579_807_591,
            w: 273_326_509,
        },
        1 => State {
            x: rng.word() as u32,
            y: rng.word() as u32,
            z: rng.word() as u32,
            w: rng.word() as u32,
        },
        _ => {
            let values = std::array::from_fn(|_| value(rng, chances));
            let tops = [rng.percent(50), rng.percent(50), rng.percent(50)];
            state_giving(values, tops, rng.word() as u32)
        }
    }
}

/// Which rules an ask is meant to reach.
#[derive(Clone, Copy, PartialEq, Eq)]
enum Focus {
    Any,
    Stair,
    Near,
    Mirror,
    Slider,
    /// A slider of one span, long enough for holds.
    Holds,
    /// 8 columns after column 0 alone, all columns, or all but column 0.
    Special,
}

fn focus(rng: &mut Rng) -> Focus {
    match rng.below(12) {
        0 => Focus::Stair,
        1 => Focus::Near,
        2 | 3 => Focus::Mirror,
        4 | 5 => Focus::Slider,
        6 => Focus::Special,
        7 => Focus::Holds,
        _ => Focus::Any,
    }
}

/// A valid ask, which may still end in 8 to 12, and a buffer length.
pub fn single(rng: &mut Rng) -> (Single, usize) {
    let focus = focus(rng);
    let columns: i64 = match focus {
        Focus::Mirror => rng.pick(&[2, 3, 4, 5, 5, 5, 6, 7, 7, 9, 9]),
        Focus::Special => 8,
        Focus::Holds => rng.pick(&[2, 3, 4, 4, 5, 5, 6, 7, 8, 9]),
        _ if rng.percent(35) => 8,
        _ => rng.between(1, 9),
    };
    let all = (1_u64 << columns) - 1;
    let mask = match rng.below(12) {
        _ if focus == Focus::Stair => 1 << rng.below(columns as u64),
        _ if focus == Focus::Special => rng.pick(&[1, 1, all, all & !1]),
        // Few columns taken, so that large counts have room.
        6..=11 if focus == Focus::Mirror => rng.below(2) << rng.below(columns as u64),
        0 => 0,
        1..=4 => 1 << rng.below(columns as u64),
        5 => all,
        // All but one column, column 0 often.
        6 => all & !1,
        7 => all & !(1 << rng.below(columns as u64)),
        8 => 1,
        _ => rng.below(all + 1),
    };
    let held: Vec<u32> = (0..columns as u32).filter(|c| mask >> c & 1 == 1).collect();
    let last = if held.is_empty() { 0 } else { rng.pick(&held) };

    let multiplier = multiplier(rng);
    let beat_length = beat_length(rng);
    let velocity = velocity(rng);
    let start = match rng.below(8) {
        0 => rng.pick(&[0.0, 5e-324, 0.5, 1.5, LAST_TIME, 1000.5, 1001.5]),
        1 => rng.uniform(0.0, LAST_TIME),
        2 => rng.uniform(0.0, 100_000.0),
        _ => rng.between(0, 200_000) as f64,
    };
    let gap = rng.pick(GAPS);
    let gap = match rng.below(8) {
        _ if focus == Focus::Stair => rng.pick(&[80.1, 88.0, 95.0]),
        _ if focus == Focus::Near => rng.pick(&[126.0, 135.0, 136.0, 150.0, 151.0, 1000.0]),
        _ if focus == Focus::Mirror => rng.pick(&[96.0, 120.0, 151.0, 1000.0]),
        _ if focus == Focus::Special => rng.pick(&[70.0, 90.0, 100.0, 130.0, 145.0, 1000.0]),
        0 => gap.next_up(),
        1 => gap.next_down(),
        2 => rng.uniform(-100.0, 200.0),
        3 => rng.uniform(80.0, 95.0),
        _ => gap,
    };
    let prev = position(rng, 0, columns, (0.0, 0.0));
    let near = if matches!(focus, Focus::Near | Focus::Special) {
        95
    } else {
        50
    };
    let place = position(rng, near, columns, prev);
    let kind = match rng.below(20) {
        _ if matches!(focus, Focus::Stair | Focus::Near | Focus::Mirror) => Kind::Circle,
        which if matches!(focus, Focus::Slider | Focus::Holds) || (10..=15).contains(&which) => {
            let segment = match rng.below(5) {
                _ if focus == Focus::Holds => rng.pick(&[111.0, 500.0, 1000.0]),
                0 => rng.uniform(0.0, 1000.0).round(),
                _ => rng.pick(SEGMENTS),
            };
            let repeats = match focus {
                Focus::Slider => rng.between(1, 7) as u32,
                Focus::Holds => 0,
                _ => repeats(rng),
            };
            slider(rng, segment, repeats, (multiplier, beat_length, velocity))
        }
        0..=9 => Kind::Circle,
        which => {
            let duration = match rng.below(8) {
                0 => rng.uniform(0.0, 5000.0),
                1 => rng.uniform(0.0, LAST_TIME),
                _ => rng.pick(DURATIONS),
            };
            if which < 18 {
                Kind::Spinner { duration }
            } else {
                Kind::Hold { duration }
            }
        }
    };
    let bound = beat_length / 2.5;
    let chances = match focus {
        Focus::Mirror => MIRRORED_CHANCES,
        Focus::Holds => HOLD_CHANCES,
        _ => CHANCES,
    };
    let mut single = Single {
        x: place.0,
        y: place.1,
        start,
        sound: sound(rng) | if focus == Focus::Mirror { 4 } else { 0 },
        kind,
        difficulty: match rng.below(8) {
            5 | 6 if focus == Focus::Mirror => rng.uniform(6.5, 12.0),
            0 | 1 => rng.pick(DIFFICULTIES),
            2 => rng.pick(DIFFICULTIES).next_down(),
            3 => rng.pick(&DIFFICULTIES[..5]).next_up(),
            4 => rng.pick(&[0.0, -0.0, -1e300, -5.0, 1.0]),
            _ => rng.uniform(0.0, 12.0),
        },
        multiplier,
        beat_length,
        velocity,
        kiai: rng.percent(50),
        density: match rng.below(6) {
            0 => bound,
            1 => bound.next_down(),
            2 => bound.next_up(),
            3 => f64::from(i32::MAX),
            4 => rng.pick(&[0.0, -0.0, -1e6, f64::MAX, -f64::MAX]),
            _ => rng.uniform(0.0, 800.0),
        },
        prev_time: match rng.below(30) {
            0 => rng.pick(&[f64::MAX, -f64::MAX, -0.0, 0.0]),
            _ => start - gap,
        },
        prev_x: prev.0,
        prev_y: prev.1,
        prev_mask: mask as u32,
        prev_last: last,
        reverse_stair: rng.percent(50),
        columns: columns as u32,
        state: state(rng, chances),
        allowance: match rng.below(10) {
            0 => 0,
            1 | 2 => rng.below(8) as u32,
            3 => rng.below(60) as u32,
            _ => 20_000,
        },
    };
    // Zeros give only zeros, so a search may reach its limit, most often near the allowance.
    if rng.percent(2) {
        single.state = ZEROS;
        single.allowance = match rng.below(4) {
            0 => single.allowance,
            _ => rng.between(4094, 4104) as u32,
        };
    }
    let buffer = match rng.below(10) {
        0 => rng.index(NOTE_BYTES + 1),
        1 => NOTE_BYTES * rng.index(6),
        2 => rng.index(300),
        // Room for two notes at each of 301 nodes.
        _ => NOTE_BYTES * 602 + rng.index(20),
    };

    (single, buffer)
}

/// An ask with one or two fields out of range.
pub fn damaged_single(rng: &mut Rng) -> (Single, usize) {
    let (mut ask, buffer) = single(rng);
    let faults = if rng.percent(30) { 2 } else { 1 };

    for _ in 0..faults {
        fault(rng, &mut ask);
    }

    (ask, buffer)
}

pub(crate) fn beyond(rng: &mut Rng, low: f64, high: f64) -> f64 {
    match rng.below(10) {
        0 => f64::NAN,
        1 => f64::INFINITY,
        2 => f64::NEG_INFINITY,
        3 => -0.0,
        4 => low.next_down(),
        5 => high.next_up(),
        6 => low,
        7 => high,
        8 => -5e-324,
        _ => f64::from_bits(rng.word()),
    }
}

pub(crate) fn beyond32(rng: &mut Rng) -> f32 {
    match rng.below(10) {
        0 => f32::NAN,
        1 => f32::INFINITY,
        2 => f32::NEG_INFINITY,
        3 => -0.0,
        4 => (-512.0_f32).next_down(),
        5 => 1024.0_f32.next_up(),
        6 => -512.0,
        7 => 1024.0,
        8 => -1e-45,
        _ => f32::from_bits(rng.word() as u32),
    }
}

pub(crate) fn wide(rng: &mut Rng, bound: u32) -> u32 {
    let word = rng.word() as u32;
    rng.pick(&[bound, bound + 1, bound - 1, u32::MAX, 255, 256, word])
}

fn fault(rng: &mut Rng, ask: &mut Single) {
    match rng.below(22) {
        0 => ask.columns = rng.pick(&[0, 10, 11, 32, 33, 64, 256 + 4, u32::MAX]),
        1 => ask.prev_mask |= 1 << rng.between(i64::from(ask.columns.min(9)), 31),
        2 => ask.prev_last = rng.pick(&[0, 1, 2, 3, 8, 9, 16, 31, 32, 33, 256, u32::MAX]),
        3 => {
            ask.prev_mask = 0;
            ask.prev_last = rng.below(9) as u32;
        }
        4 => ask.multiplier = beyond(rng, 0.4, 3.6),
        5 => {
            let beyond_12 = beyond(rng, f64::MIN, 12.0);
            ask.difficulty =
                rng.pick(&[beyond_12, 12.0_f64.next_up(), f64::NAN, f64::NEG_INFINITY]);
        }
        6 => ask.beat_length = beyond(rng, 6.0, 60_000.0),
        7 => ask.velocity = beyond(rng, 0.1, 10.0),
        8 => ask.x = beyond32(rng),
        9 => ask.y = beyond32(rng),
        10 => ask.start = beyond(rng, 0.0, LAST_TIME),
        11 => ask.sound = wide(rng, 15),
        12 => ask.prev_x = beyond32(rng),
        13 => ask.prev_y = beyond32(rng),
        14 => ask.prev_time = rng.pick(&[f64::NAN, f64::INFINITY, f64::NEG_INFINITY]),
        15 => ask.density = rng.pick(&[f64::NAN, f64::INFINITY, f64::NEG_INFINITY]),
        16 => {
            ask.kind = Kind::Spinner {
                duration: beyond(rng, 0.0, LAST_TIME),
            }
        }
        17 => {
            ask.kind = Kind::Hold {
                duration: beyond(rng, 0.0, LAST_TIME),
            }
        }
        18 => {
            let distance = Some(beyond(rng, 0.0, 131_072.0));
            ask.kind = Kind::Slider {
                repeats: rng.below(3) as u32,
                distance,
                node_sound: None,
            };
        }
        19 => {
            let large = wide(rng, MOST_REPEATS);
            let repeats = rng.pick(&[large, MOST_REPEATS + 1, 1023]);
            ask.kind = Kind::Slider {
                repeats,
                distance: Some(10.0),
                node_sound: None,
            };
        }
        20 => {
            let node_sound = Some(wide(rng, 15));
            ask.kind = Kind::Slider {
                repeats: 1,
                distance: Some(100.0),
                node_sound,
            };
        }
        // An end beyond the limit, or near it.
        _ => {
            let distance = Some(rng.pick(&[131_072.0, 60_000.0, 10_000.0]));
            let repeats = rng.pick(&[0, 1, 100, MOST_REPEATS]);
            ask.beat_length = rng.pick(&[60_000.0, 1000.0, 10_000.0]);
            ask.kind = Kind::Slider {
                repeats,
                distance,
                node_sound: None,
            };
        }
    }
}
