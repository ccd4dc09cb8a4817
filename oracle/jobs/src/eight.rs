//! Short songs of 8 columns, with a bias toward what refusals 9 and 10 would need: a previous pattern of many columns or with column 0,
//! and objects that keep off it.

use entry::Kind;

use crate::{
    records::{
        DURATIONS, GAPS, LAST_TIME, SEGMENTS, beat_length, multiplier, pace, position, repeats,
        setting, slider, velocity,
    },
    rng::Rng,
    song::{Object, Song},
};

/// Finish is 4, clap is 8; both give a circle the special column.
const SOUNDS: &[u32] = &[0, 2, 4, 8, 12, 12];

/// A valid song of 8 columns with 1 to 12 objects. Only the key choice gives 8: `target_columns` gives 4 to 7.
pub fn song_of_8(rng: &mut Rng) -> Song {
    let mut song = Song {
        key_choice: 8,
        hp: setting(rng),
        cs: setting(rng),
        od: setting(rng),
        ar: setting(rng),
        multiplier: multiplier(rng),
        timing: vec![(-LAST_TIME, beat_length(rng))],
        difficulty: vec![(-LAST_TIME, velocity(rng))],
        effect: vec![(-LAST_TIME, rng.percent(70))],
        ..Song::default()
    };
    let count = rng.between(1, 12);
    fill(rng, &mut song, count);
    pace(rng, &mut song);

    song
}

fn fill(rng: &mut Rng, song: &mut Song, count: i64) {
    let circles = rng.pick(&[20, 50, 80]);
    let near = rng.pick(&[10, 50, 90]);
    // Any gap, or a stream of one.
    let stream = rng.percent(50).then(|| rng.pick(GAPS));
    let mut place = (256.0, 192.0);
    let mut end = rng.between(0, 1000) as f64;

    for _ in 0..count {
        let start = end + stream.unwrap_or_else(|| rng.pick(GAPS));
        place = position(rng, near, 8, place);
        let kind = if rng.percent(circles) {
            Kind::Circle
        } else {
            long(rng, song, start, &mut end)
        };
        end = end.max(start);
        let sound = if rng.percent(70) {
            rng.pick(SOUNDS)
        } else {
            rng.below(16) as u32
        };
        song.objects.push(Object {
            kind,
            sound,
            x: place.0,
            y: place.1,
            start,
        });
    }
}

/// A slider, a spinner or a hold, and when it ends.
fn long(rng: &mut Rng, song: &Song, start: f64, end: &mut f64) -> Kind {
    if rng.percent(20) {
        let duration = rng.pick(DURATIONS);
        *end = start + duration;
        return if rng.percent(50) {
            Kind::Spinner { duration }
        } else {
            Kind::Hold { duration }
        };
    }

    // Of those that can be tiled, five spans leave the most columns; all end together where the division leaves no rest.
    let (segment, repeats) = if rng.percent(30) {
        (rng.between(401, 799) as f64, rng.between(1, 5) as u32)
    } else {
        (rng.pick(SEGMENTS), repeats(rng).min(60))
    };
    *end = start + segment * f64::from(repeats + 1);

    slider(
        rng,
        segment,
        repeats,
        (song.multiplier, song.timing[0].1, song.difficulty[0].1),
    )
}
