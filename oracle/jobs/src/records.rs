//! Valid records, with a bias toward every branch of the rules.

use entry::Kind;

use crate::{
    rng::Rng,
    song::{Object, Song},
};

pub(crate) const LAST_TIME: f64 = 16_777_215.0;

/// Gaps around each bound of a circle's rules.
pub(crate) const GAPS: &[f64] = &[
    0.0, 30.0, 60.0, 79.9, 80.0, 80.1, 85.0, 88.0, 90.0, 95.0, 95.01, 100.0, 105.0, 105.5, 115.0,
    125.0, 125.5, 130.0, 132.0, 135.0, 135.5, 140.0, 145.0, 150.0, 150.5, 180.0, 250.0, 400.0,
    1000.0, 2500.0,
];

/// Times of one span around each bound of a slider's rules.
pub(crate) const SEGMENTS: &[f64] = &[
    0.0, 1.0, 40.0, 79.0, 80.0, 90.0, 91.0, 100.0, 110.0, 111.0, 120.0, 121.0, 140.0, 160.0, 161.0,
    180.0, 200.0, 201.0, 300.0, 400.0, 401.0, 450.0, 700.0, 1000.0, 1333.0, 2000.0, 4000.0, 8000.0,
];

/// Durations around the bounds of an end-time note.
pub(crate) const DURATIONS: &[f64] = &[
    0.0,
    5e-324,
    1e-300,
    1.0,
    50.0,
    99.9,
    99.999_999_999_999_99,
    100.0,
    100.1,
    500.0,
    999.9,
    1000.0,
    1000.1,
    3000.0,
    60_000.0,
];

const SHARES: &[f64] = &[
    0.0, 0.1, 0.19, 0.2, 0.21, 0.25, 0.3, 0.31, 0.4, 0.5, 0.6, 0.61, 0.7, 1.0,
];

/// A song's size and settings that bring its conversion difficulty to a bound of the rules.
#[derive(Clone, Copy, Debug, PartialEq)]
pub struct Bound {
    pub objects: usize,
    /// Drain, in whole seconds.
    pub seconds: u32,
    pub hp: f32,
    pub ar: f32,
}

/// Objects, seconds and hp + ar for which the difficulty is 2, 2.5, 3, 4 or 6.5, or the float above it.
const BOUNDS: &[(usize, u32, f32)] = &[
    (18, 25, 16.5),
    (61, 50, 9.75),
    (19, 10, 7.125),
    (7, 5, 13.875),
    (52, 25, 11.25),
    (181, 75, 6.75),
    (86, 25, 6.0),
    (147, 50, 12.75),
    (388, 75, 15.375),
    (146, 25, 6.375),
];

/// A song at a bound of the conversion difficulty, or a little off it.
pub fn bound(rng: &mut Rng) -> Bound {
    let (objects, seconds, sum) = rng.pick(BOUNDS);
    let ar = (sum - 10.0).max(4.0);
    let hp = sum - ar;
    let hp = rng.pick(&[hp, hp, hp.next_down(), hp.next_up().min(10.0)]);

    Bound {
        objects,
        seconds,
        hp,
        ar,
    }
}

/// A valid record.
pub fn record(rng: &mut Rng) -> Vec<u8> {
    song(rng).bytes()
}

pub(crate) fn setting(rng: &mut Rng) -> f32 {
    match rng.below(10) {
        0 => 0.0,
        1 => 10.0,
        2 | 3 => rng.between(0, 20) as f32 / 2.0,
        4..=6 => rng.between(0, 100) as f32 / 10.0,
        7 => rng.between(0, 10) as f32,
        8 => f32::from_bits(rng.below(u64::from(10.0_f32.to_bits()) + 1) as u32),
        _ => rng.uniform(0.0, 10.0) as f32,
    }
}

pub(crate) fn multiplier(rng: &mut Rng) -> f64 {
    match rng.below(6) {
        0 => 0.4,
        1 => 3.6,
        2 => 1.0,
        3 => rng.pick(&[1.4, 1.8, 2.0, 0.7]),
        _ => rng.uniform(0.4, 3.6),
    }
}

pub(crate) fn beat_length(rng: &mut Rng) -> f64 {
    match rng.below(8) {
        0 => 6.0,
        1 => 60_000.0,
        2 => 1000.0,
        3 => 60_000.0 / rng.between(60, 300) as f64,
        4 => rng.pick(&[300.0, 333.333_333_333_333_3, 400.0, 500.0]),
        _ => rng.uniform(150.0, 1200.0),
    }
}

pub(crate) fn velocity(rng: &mut Rng) -> f64 {
    match rng.below(8) {
        0 => 0.1,
        1 => 10.0,
        2 | 3 => 1.0,
        4 => rng.pick(&[0.5, 0.75, 1.25, 2.0, 1.0 / 3.0]),
        _ => rng.uniform(0.1, 3.0),
    }
}

pub(crate) fn sound(rng: &mut Rng) -> u32 {
    match rng.below(10) {
        0..=2 => 0,
        3 => 8,
        4 => 4,
        5 => 12,
        6 => 2,
        _ => rng.below(16) as u32,
    }
}

/// The step from one f32 to the next around 400.
pub(crate) const STEP: f32 = 1.0 / 32_768.0;

/// The sum of the squares of a separation, as document 01 has it.
pub(crate) fn squares(here: (f32, f32), there: (f32, f32)) -> f32 {
    let (dx, dy) = (here.0 - there.0, here.1 - there.1);

    dx * dx + dy * dy
}

/// Sums of squares around 400, in steps. One step below counts as a separation of 20, two steps as less (document 02).
const STEPS: &[f32] = &[
    -4.0, -3.0, -2.0, -2.0, -2.0, -1.0, -1.0, -1.0, 0.0, 0.0, 1.0, 2.0, 3.0, 4.0,
];

/// A place whose separation from the one before has one of these sums; none if 64 tries do not find it.
fn at_ruler(rng: &mut Rng, before: (f32, f32)) -> Option<(f32, f32)> {
    let sum = 400.0 + STEP * rng.pick(STEPS);

    (0..64).find_map(|_| {
        let x = before.0 + rng.uniform(-20.0, 20.0) as f32;
        let dx = f64::from(x - before.0);
        let dy = (f64::from(sum) - dx * dx).max(0.0).sqrt() as f32;
        let y = before.1 + rng.pick(&[dy, -dy]);
        let beside = [y, y.next_down(), y.next_up()];

        beside
            .map(|y| fit((x, y)))
            .into_iter()
            .find(|&place| squares(place, before) == sum)
    })
}

/// The nearest position that a record can hold. Adding 0 turns a negative zero into zero.
fn fit(place: (f32, f32)) -> (f32, f32) {
    let fit = |v: f32| v.clamp(-512.0, 1024.0) + 0.0;

    (fit(place.0), fit(place.1))
}

/// A position, often near the one before.
pub(crate) fn position(rng: &mut Rng, near: u64, columns: i64, before: (f32, f32)) -> (f32, f32) {
    if !rng.percent(near) {
        return anywhere(rng, columns);
    }
    if rng.percent(50)
        && let Some(place) = at_ruler(rng, before)
    {
        return place;
    }
    // Around a separation of 20.
    let (dx, dy) = rng.pick(&[
        (0.0, 0.0),
        (5.0, -5.0),
        (12.0, 15.999),
        (12.0, 16.0),
        (-12.0, 16.001),
        (19.999, 0.0),
        (0.0, -20.0),
        (14.142_135, 14.142_135),
        (14.142_136, -14.142_136),
    ]);

    fit((before.0 + dx, before.1 + dy))
}

/// A position that has nothing to do with the one before.
fn anywhere(rng: &mut Rng, columns: i64) -> (f32, f32) {
    fit(match rng.below(8) {
        // At the edge of a column, or a float beside it.
        0 | 1 => {
            let edge = 512.0 * rng.between(1, columns) as f32 / columns as f32;
            let x = rng.pick(&[edge, edge.next_up(), edge.next_down()]);
            (x, rng.uniform(0.0, 384.0) as f32)
        }
        2 => (
            rng.uniform(-512.0, 0.0) as f32,
            rng.uniform(-512.0, 1024.0) as f32,
        ),
        3 => (
            rng.uniform(512.0, 1024.0) as f32,
            rng.uniform(0.0, 384.0) as f32,
        ),
        4 => rng.pick(&[
            (-512.0, -512.0),
            (1024.0, 1024.0),
            (0.0, 0.0),
            (512.0, 384.0),
            (-1e-40, 1e-40),
            (256.0, 192.0),
            (255.0, 200.0),
        ]),
        _ => (rng.between(0, 512) as f32, rng.between(0, 384) as f32),
    })
}

/// The most repeats that are taken. The field has 10 bits.
pub const MOST_REPEATS: u32 = 299;

pub(crate) fn repeats(rng: &mut Rng) -> u32 {
    match rng.below(200) {
        0..100 => 0,
        100..160 => rng.between(1, 3) as u32,
        160..188 => rng.between(3, 12) as u32,
        188..197 => rng.between(13, 60) as u32,
        197 => rng.between(61, 250) as u32,
        198 => rng.between(200, 299) as u32,
        _ => MOST_REPEATS,
    }
}

/// A slider whose span lasts about as long as wanted.
pub(crate) fn slider(rng: &mut Rng, segment: f64, repeats: u32, pace: (f64, f64, f64)) -> Kind {
    let (multiplier, beat_length, velocity) = pace;
    // A little more, so that rounding does not take a millisecond off; or a rest in the division.
    let rest = match rng.below(4) {
        0 => rng.uniform(0.0, 1.0),
        1 => rng.below(u64::from(repeats) + 1) as f64 / f64::from(repeats + 1),
        _ => 0.0001,
    };
    let wanted = (segment + rest) * multiplier * 100.0 * velocity / beat_length;
    let distance = match rng.below(40) {
        0 => None,
        1 => Some(0.0),
        2 => Some(rng.pick(&[5e-324, 1e-10, 131_072.0, 1.0, 100.0])),
        3 => Some(rng.uniform(0.0, 600.0)),
        _ => Some(wanted.min(131_072.0)),
    };
    let node_sound = rng.percent(50).then(|| sound(rng));

    Kind::Slider {
        repeats,
        distance,
        node_sound,
    }
}

/// Times for points: rising, some before 0.
fn times(rng: &mut Rng, until: f64) -> Vec<f64> {
    let count = match rng.below(10) {
        0..=2 => 0,
        3..=5 => 1,
        6..=8 => rng.between(2, 5) as usize,
        _ => rng.between(2, 20) as usize,
    };
    let mut times: Vec<f64> = (0..count)
        .map(|_| match rng.below(8) {
            0 => rng.uniform(-5000.0, 0.0),
            1 => -LAST_TIME,
            2 => 0.0,
            3 => rng.between(0, until as i64) as f64,
            4 => rng.pick(&[5e-324, -5e-324, LAST_TIME, 1000.0, 0.1]),
            _ => rng.uniform(0.0, until),
        })
        .collect();
    times.sort_by(f64::total_cmp);
    times.dedup();

    times
}

/// The last point not after a time.
fn in_force(points: &[(f64, f64)], time: f64) -> Option<f64> {
    points
        .iter()
        .rev()
        .find(|point| point.0 <= time)
        .map(|point| point.1)
}

/// A valid song.
pub fn song(rng: &mut Rng) -> Song {
    let key_choice = match rng.below(12) {
        0..=2 => 8,
        3..=5 => 0,
        _ => rng.between(1, 9) as u8,
    };
    let count = match rng.below(4000) {
        0..80 => 0,
        80..900 => rng.between(1, 6),
        900..1300 => 10,
        1300..3900 => rng.between(5, 40),
        3900..3998 => rng.between(60, 400),
        _ => rng.between(400, 4095),
    } as usize;
    let mut song = Song {
        key_choice,
        hp: setting(rng),
        cs: setting(rng),
        od: setting(rng),
        ar: setting(rng),
        multiplier: multiplier(rng),
        ..Song::default()
    };
    let at_bound = rng.percent(3).then(|| bound(rng));
    if let Some(bound) = at_bound {
        (song.hp, song.ar) = (bound.hp, bound.ar);
    }
    let count = at_bound.map_or(count, |bound| bound.objects);
    let until = count as f64 * rng.pick(&[100.0, 200.0, 600.0]) + 1000.0;
    song.timing = times(rng, until)
        .into_iter()
        .map(|time| (time, beat_length(rng)))
        .collect();
    song.difficulty = times(rng, until)
        .into_iter()
        .map(|time| (time, velocity(rng)))
        .collect();
    song.effect = times(rng, until)
        .into_iter()
        .map(|time| (time, rng.percent(60)))
        .collect();

    fill(rng, &mut song, count);
    match at_bound {
        Some(bound) => drain(rng, &mut song, f64::from(bound.seconds) * 1000.0),
        None => pace(rng, &mut song),
    }

    song
}

/// Adds objects by a style of gaps, positions and kinds.
fn fill(rng: &mut Rng, song: &mut Song, count: usize) {
    let columns = if song.key_choice == 0 {
        7
    } else {
        i64::from(song.key_choice)
    };
    let near = rng.pick(&[10, 50, 90]);
    // All gaps, or a stream of one or a few.
    let gaps: Vec<f64> = match rng.below(4) {
        0 => GAPS.to_vec(),
        1 => vec![rng.pick(GAPS)],
        2 => (0..3).map(|_| rng.pick(GAPS)).collect(),
        _ => rng
            .pick(&[
                &[85.0, 88.0, 90.0, 95.0, 100.0][..],
                &[110.0, 130.0, 132.0, 140.0],
                &[130.0, 145.0, 180.0],
                &[300.0, 400.0, 1000.0],
                &[60.0, 90.0, 120.0, 200.0],
            ])
            .to_vec(),
    };
    let segments: Vec<f64> = match rng.below(3) {
        0 => vec![rng.pick(SEGMENTS), rng.pick(SEGMENTS)],
        _ => SEGMENTS.to_vec(),
    };
    let plain = rng.percent(25);
    let share = rng.pick(SHARES);
    let mut long = (share * count as f64).round() as usize;
    // Of the long ones so many are sliders; of the others so many are circles.
    let sliders = rng.pick(&[100, 90, 70, 40]);
    let circles = rng.pick(&[100, 95, 70]);
    let fraction = rng.below(4);

    let mut start = match rng.below(6) {
        0 => 0.0,
        1 => rng.pick(&[5e-324, 2.2e-308, 1e-9, 0.5, 1.5, 80.0, 95.0]),
        _ => rng.uniform(0.0, 3000.0).round(),
    };
    let mut end = start;
    let mut place = (0.0, 0.0);

    for index in 0..count {
        if index > 0 {
            let gap = rng.pick(&gaps);
            let from = if rng.percent(70) { end } else { start };
            let mut next = from + gap;

            match fraction {
                0 => next = next.round(),
                1 => next += rng.unit() * 0.3,
                2 => next = (next * 2.0).round() / 2.0,
                _ => {}
            }

            // Sometimes exactly at a point.
            if rng.percent(3) {
                let after = |time: &&f64| **time >= start;
                let times: Vec<f64> = song
                    .timing
                    .iter()
                    .chain(&song.difficulty)
                    .map(|point| point.0)
                    .chain(song.effect.iter().map(|point| point.0))
                    .collect();
                next = times.iter().filter(after).copied().next().unwrap_or(next);
            }

            start = next.clamp(start, LAST_TIME);
        }

        let left = count - index;
        let is_long = rng.index(left) < long;
        long -= usize::from(is_long);
        let duration = if rng.percent(60) {
            rng.pick(DURATIONS)
        } else {
            rng.uniform(0.0, 2500.0)
        };
        let kind = match (is_long, rng.percent(sliders), rng.percent(circles)) {
            (true, true, _) => {
                let beat_length = in_force(&song.timing, start)
                    .or(song.timing.first().map(|point| point.1))
                    .unwrap_or(1000.0);
                let velocity = in_force(&song.difficulty, start).unwrap_or(1.0);
                let segment = rng.pick(&segments);
                let repeats = repeats(rng);
                slider(
                    rng,
                    segment,
                    repeats,
                    (song.multiplier, beat_length, velocity),
                )
            }
            (true, false, _) => Kind::Spinner { duration },
            (false, _, true) => Kind::Circle,
            (false, _, false) => Kind::Hold { duration },
        };
        place = position(rng, near, columns, place);
        let sound = if plain { 0 } else { sound(rng) };
        song.objects.push(Object {
            kind,
            sound,
            x: place.0,
            y: place.1,
            start,
        });

        end = match kind {
            Kind::Circle => start,
            Kind::Spinner { duration } | Kind::Hold { duration } => {
                place = (256.0, 192.0);
                start + duration
            }
            Kind::Slider {
                repeats, distance, ..
            } => {
                let beat_length = in_force(&song.timing, start)
                    .or(song.timing.first().map(|point| point.1))
                    .unwrap_or(1000.0);
                let velocity = in_force(&song.difficulty, start).unwrap_or(1.0);
                let segment =
                    distance.unwrap_or(0.0) * beat_length / velocity / 100.0 / song.multiplier;
                start + segment.floor() * f64::from(repeats + 1)
            }
        };
    }
}

/// Sets breaks and the last start so that the conversion difficulty comes near a wanted one.
pub(crate) fn pace(rng: &mut Rng, song: &mut Song) {
    let count = song.objects.len();

    if count < 2 || rng.percent(15) {
        if rng.percent(30) {
            let start = rng.uniform(-LAST_TIME, LAST_TIME);
            song.breaks.push((start, rng.uniform(start, LAST_TIME)));
        }
        return;
    }

    let wanted = match rng.below(10) {
        0 => rng.uniform(-2.0, 1.0),
        1 => rng.uniform(1.5, 2.3),
        2 => rng.uniform(2.0, 2.6),
        3 => rng.uniform(2.4, 3.2),
        4 => rng.uniform(2.9, 4.1),
        5 => rng.uniform(3.9, 5.0),
        6 => rng.uniform(4.0, 6.6),
        7 | 8 => rng.uniform(6.4, 9.0),
        _ => rng.uniform(9.0, 14.0),
    };
    let settings = f64::from(song.hp + song.ar.clamp(4.0, 7.0)) / 1.5;
    let each = (wanted * 38.0 * 1.15 / 5.0 - settings) / 9.0;
    let lasts = (count as f64 / each * 1000.0).clamp(-LAST_TIME, LAST_TIME);
    drain(rng, song, lasts);
}

/// Sets breaks or the last start so that drain is so many milliseconds, up to 400 more.
fn drain(rng: &mut Rng, song: &mut Song, wanted: f64) {
    let count = song.objects.len();
    let lasts = song.objects[count - 1].start - song.objects[0].start;
    let over = lasts - wanted - rng.uniform(1.0, 400.0);

    if over < 0.0 {
        let last = &mut song.objects[count - 1].start;
        *last = (*last - over).min(LAST_TIME);
    } else {
        let parts = rng.between(1, 4);
        let mut left = over;

        for part in 0..parts {
            let lasts = if part + 1 == parts {
                left
            } else {
                (rng.unit() * left * 10.0).round() / 10.0
            };
            let start = rng.uniform(-5000.0, 5000.0);
            let end = (start + lasts).min(LAST_TIME);
            song.breaks.push((start, end.max(start)));
            left = (left - lasts).max(0.0);
        }
    }
}
