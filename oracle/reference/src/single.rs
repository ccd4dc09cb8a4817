//! The single-object entry. A child of `convert`, so that it reaches the unchanged generators.

#![warn(dead_code, unused_imports)]

use entry::{Kind, Single, SingleEnd, State};
use rosu_map::{
    section::{general::GameMode, hit_objects::hit_samples::HitSoundType},
    util::Pos,
};

use super::{
    EndTimeObjectPatternGenerator, HitObjectPatternGenerator, PathObjectPatternGenerator, Pattern,
    PatternType, PrevValues,
};
use crate::{
    Beatmap,
    chart::{NOTE, note_of, write_notes},
    mania::object::ManiaObject,
    model::{
        control_point::{DifficultyPoint, EffectPoint, TimingPoint},
        hit_object::{HitObject, HitObjectKind, HoldNote, Slider, Spinner},
    },
    ranges::{
        BEAT_LENGTH, DISTANCE, DURATION, MOST_REPEATS, MULTIPLIER, POSITION, START, VELOCITY,
        within32, within64,
    },
    stop::{ends_too_late, guarded},
    util::random::osu::{DRAWS, Random},
};

/// The first refusal among 13, 4, 5 and 6.
fn check(ask: &Single) -> Result<(), u8> {
    let mask_fits = (1..=9).contains(&ask.columns) && ask.prev_mask >> ask.columns == 0;
    let last_fits = match ask.prev_mask {
        0 => ask.prev_last == 0,
        mask => ask.prev_last < 32 && mask >> ask.prev_last & 1 == 1,
    };

    if !(mask_fits && last_fits) {
        return Err(13);
    }

    let difficulty_fits = ask.difficulty.is_finite() && ask.difficulty <= 12.0;

    if !(within64(ask.multiplier, &MULTIPLIER) && difficulty_fits) {
        return Err(4);
    }

    if !(within64(ask.beat_length, &BEAT_LENGTH) && within64(ask.velocity, &VELOCITY)) {
        return Err(5);
    }

    let kind_fits = match ask.kind {
        Kind::Circle => true,
        Kind::Slider { repeats, distance, node_sound } => {
            repeats <= MOST_REPEATS
                && distance.is_none_or(|distance| within64(distance, &DISTANCE))
                && node_sound.is_none_or(|sound| sound < 16)
        }
        Kind::Spinner { duration } | Kind::Hold { duration } => within64(duration, &DURATION),
    };
    let positions = [ask.x, ask.y, ask.prev_x, ask.prev_y];

    if kind_fits
        && positions.iter().all(|position| within32(*position, &POSITION))
        && within64(ask.start, &START)
        && ask.sound < 16
        && ask.prev_time.is_finite()
        && ask.density.is_finite()
    {
        Ok(())
    } else {
        Err(6)
    }
}

/// A difficulty with the same answers to every comparison that the generators make, with 2, 2.5, 3,
/// 4 and 6.5, and far enough from each of them that no rounding matters.
pub fn representative(difficulty: f64) -> f64 {
    match difficulty {
        d if d > 6.5 => 8.0,
        d if d > 4.0 => 5.0,
        d if d > 3.0 => 3.5,
        d if d > 2.5 => 2.75,
        d if d > 2.0 => 2.25,
        _ => 1.0,
    }
}

/// A map without objects, in which the given facts are in force at every time.
fn map_of(ask: &Single) -> Beatmap {
    // `conversion_difficulty` of such a map is (hp + 4) / 1.5 / 38 * 5 / 1.15.
    let hp = representative(ask.difficulty) * 13.11 - 4.0;
    let time = f64::NEG_INFINITY;

    Beatmap {
        is_convert: false,
        mode: GameMode::Osu,
        ar: 4.0,
        cs: ask.columns as f32,
        hp: hp as f32,
        od: 0.0,
        slider_multiplier: ask.multiplier,
        breaks: Vec::new(),
        timing_points: vec![TimingPoint { time, beat_len: ask.beat_length }],
        difficulty_points: vec![DifficultyPoint {
            time,
            slider_velocity: ask.velocity,
            ..Default::default()
        }],
        effect_points: vec![EffectPoint { time, kiai: ask.kiai, ..Default::default() }],
        hit_objects: Vec::new(),
        hit_sounds: Default::default(),
    }
}

fn object_of(ask: &Single) -> HitObject {
    let kind = match ask.kind {
        Kind::Circle => HitObjectKind::Circle,
        Kind::Slider { repeats, distance, node_sound } => HitObjectKind::Slider(Slider {
            expected_dist: distance,
            repeats: repeats as usize,
            control_points: Box::from([]),
            node_sounds: node_sound.into_iter().map(HitSoundType::new).collect(),
        }),
        Kind::Spinner { duration } => HitObjectKind::Spinner(Spinner { duration }),
        Kind::Hold { duration } => HitObjectKind::Hold(HoldNote { duration }),
    };

    // Not `Pos::new`, which takes positions from 512 on for columns off the deck.
    HitObject { pos: Pos { x: ask.x, y: ask.y }, start_time: ask.start, kind }
}

/// A pattern that lists each column of the mask once, with the last column last.
fn pattern_of(mask: u32, last: u32, columns: u32) -> Pattern {
    let mut pattern = Pattern::default();
    let others = (0..columns).filter(|column| *column != last);

    for column in others.chain([last]).filter(|column| mask >> column & 1 == 1) {
        let at = (column as f32 * (512.0 / columns as f32)).ceil();
        let object =
            HitObject { pos: Pos { x: at, y: at }, start_time: 0.0, kind: HitObjectKind::Circle };
        pattern.add_object(object, column as u8);
    }

    pattern
}

/// Mask and last column of a pattern.
fn mask_of(pattern: &Pattern, columns: u32) -> (u32, u32) {
    let mask = (0..columns)
        .filter(|column| pattern.column_has_obj(*column as u8))
        .fold(0, |mask, column| mask | 1 << column);
    let last = pattern
        .hit_objects
        .last()
        .map_or(0, |object| ManiaObject::column(object.pos.x, columns as f32) as u32);

    (mask, last)
}

/// What an object makes, in walk order, with what the next object meets.
struct Made {
    notes: Vec<HitObject>,
    mask: u32,
    last: u32,
    reverse_stair: bool,
}

/// Runs one arm of the match in `convert`.
fn generate(ask: &Single, object: &HitObject, map: &Beatmap, random: &mut Random) -> Made {
    let columns = ask.columns as i32;
    let sound = HitSoundType::new(ask.sound);
    let prev = PrevValues {
        time: ask.prev_time,
        pos: Pos { x: ask.prev_x, y: ask.prev_y },
        pattern: pattern_of(ask.prev_mask, ask.prev_last, ask.columns),
        stair: if ask.reverse_stair { PatternType::REVERSE_STAIR } else { PatternType::STAIR },
    };
    let mut made = Made {
        notes: Vec::new(),
        mask: ask.prev_mask,
        last: ask.prev_last,
        reverse_stair: ask.reverse_stair,
    };

    match &object.kind {
        HitObjectKind::Circle => {
            let mut generator = HitObjectPatternGenerator::new(
                random,
                object,
                sound,
                columns,
                &prev,
                ask.density,
                map,
            );
            let pattern = generator.generate();

            made.reverse_stair = generator.stair_type.contains(PatternType::REVERSE_STAIR);
            (made.mask, made.last) = mask_of(&pattern, ask.columns);
            made.notes = pattern.hit_objects;
        }
        HitObjectKind::Slider(slider) => {
            let mut generator = PathObjectPatternGenerator::new(
                random,
                object,
                sound,
                columns,
                &prev.pattern,
                map,
                slider.repeats,
                slider.expected_dist,
                &slider.node_sounds,
            );

            for pattern in generator.generate() {
                (made.mask, made.last) = mask_of(&pattern, ask.columns);
                made.notes.extend(pattern.hit_objects);
            }
        }
        HitObjectKind::Spinner(Spinner { duration })
        | HitObjectKind::Hold(HoldNote { duration }) => {
            let mut generator = EndTimeObjectPatternGenerator::new(
                random,
                object,
                object.start_time + duration,
                sound,
                columns,
                &prev.pattern,
                map,
            );

            made.notes = generator.generate().hit_objects;
        }
    }

    made
}

pub fn single(ask: &Single, buffer: &mut [u8]) -> SingleEnd {
    try_single(ask, buffer).unwrap_or_else(|number| SingleEnd::Refused { number, state: ask.state })
}

fn try_single(ask: &Single, buffer: &mut [u8]) -> Result<SingleEnd, u8> {
    check(ask)?;

    let map = map_of(ask);
    let object = object_of(ask);

    if ends_too_late(&object, &map) {
        return Err(8);
    }

    let State { x, y, z, w } = ask.state;
    let mut random = Random::from_words((x, y, z, w), u64::from(ask.allowance));
    let made = guarded(|| generate(ask, &object, &map, &mut random))?;

    if buffer.len() < NOTE * made.notes.len() {
        return Err(11);
    }

    write_notes(made.notes.iter().map(|note| note_of(note, map.cs, 0)), buffer);
    let (x, y, z, w) = random.words();

    Ok(SingleEnd::Made {
        notes: made.notes.len() as u32,
        mask: made.mask,
        last: made.last,
        reverse_stair: made.reverse_stair,
        state: State { x, y, z, w },
        draws: DRAWS.get() as u32,
    })
}
