//! Songs announced with rounded figures, by brute force over the unchanged Rust. A child of
//! `convert`, so that it reaches `target_columns`.

#![warn(dead_code, unused_imports)]

use entry::{AnnouncedSlider, AnnouncedSong, SingleEnd};
use rosu_map::{section::general::GameMode, util::Pos};

use super::{single::single, target_columns};
use crate::{
    Beatmap, GameMods,
    chart::{NOTE, note_at},
    model::hit_object::{HitObject, HitObjectKind, HoldNote, Slider, Spinner},
    ranges::{DISTANCE, SETTING, within32, within64},
};

/// The most objects of a record.
const MOST_OBJECTS: u32 = 4095;

/// So many objects, the first of them sliders and spinners by turns, the others circles and holds
/// by turns.
fn objects(count: u32, sliders_and_spinners: u32) -> Vec<HitObject> {
    let kind = |index: u32| match (index < sliders_and_spinners, index % 2 == 0) {
        (true, true) => HitObjectKind::Slider(Slider {
            expected_dist: None,
            repeats: 0,
            control_points: Box::from([]),
            node_sounds: Box::from([]),
        }),
        (true, false) => HitObjectKind::Spinner(Spinner { duration: 0.0 }),
        (false, true) => HitObjectKind::Circle,
        (false, false) => HitObjectKind::Hold(HoldNote { duration: 0.0 }),
    };

    (0..count)
        .map(|index| HitObject { pos: Pos { x: 0.0, y: 0.0 }, start_time: 0.0, kind: kind(index) })
        .collect()
}

/// The ends, the whole numbers, and the values midway between two of these with their neighbours,
/// as far as they lie in the range: at least one f32 of the range for each number that some f32 of
/// the range rounds to.
fn candidates([low, high]: [f32; 2]) -> Vec<f32> {
    let wholes = (0..=10_u8).map(f32::from);
    let midways = (0..10_u8).map(|whole| f32::from(whole) + 0.5);
    let near = midways.flat_map(|midway| [midway.next_down(), midway, midway.next_up()]);

    wholes.chain(near).filter(|value| (low..=high).contains(value)).chain([low, high]).collect()
}

/// An announced song, of which od and cs can be set.
pub struct Announced {
    map: Beatmap,
}

impl Announced {
    fn new(ask: &AnnouncedSong) -> Self {
        let hit_objects = objects(ask.objects, ask.sliders_and_spinners);
        let map = Beatmap {
            is_convert: false,
            mode: GameMode::Osu,
            ar: 0.0,
            cs: 0.0,
            hp: 0.0,
            od: 0.0,
            slider_multiplier: 1.0,
            breaks: Vec::new(),
            timing_points: Vec::new(),
            difficulty_points: Vec::new(),
            effect_points: Vec::new(),
            hit_objects,
            hit_sounds: Default::default(),
        };

        Self { map }
    }

    /// The columns with this od and cs, without a key choice.
    pub fn columns(&mut self, od: f32, cs: f32) -> u32 {
        self.map.od = od;
        self.map.cs = cs;

        target_columns(&self.map, &GameMods { key_choice: 0 }) as u32
    }
}

/// The song, where neither 20 nor 21 applies.
pub fn announced(ask: &AnnouncedSong) -> Result<Announced, u8> {
    let fits =
        |[low, high]: [f32; 2]| within32(low, &SETTING) && within32(high, &SETTING) && low <= high;

    if !(fits(ask.od) && fits(ask.cs)) {
        return Err(20);
    }
    if ask.objects > MOST_OBJECTS || ask.sliders_and_spinners > ask.objects {
        return Err(21);
    }

    Ok(Announced::new(ask))
}

/// Bit c is set where some of the candidates give c columns.
pub fn column_counts(ask: &AnnouncedSong) -> Result<u32, u8> {
    let mut song = announced(ask)?;
    let (ods, css) = (candidates(ask.od), candidates(ask.cs));
    let pairs = ods.iter().flat_map(|od| css.iter().map(move |cs| (*od, *cs)));

    Ok(pairs.fold(0, |counts, (od, cs)| counts | 1 << song.columns(od, cs)))
}

/// The end of a slider with a distance: on one column its only note ends there.
pub fn slider_end(ask: &AnnouncedSlider, distance: Option<f64>) -> Result<u64, u8> {
    let mut note = [0; NOTE];

    match single(&ask.single(distance), &mut note) {
        SingleEnd::Refused { number, .. } => Err(number),
        SingleEnd::Made { .. } => {
            let (note, _) = note_at(&note);
            Ok((f64::from_bits(note.start) + f64::from_bits(note.duration)) as u64)
        }
    }
}

/// The earliest and the latest of the ends with the range's own two distances and with those given
/// that lie in the range.
pub fn slider_ends(ask: &AnnouncedSlider, distances: &[f64]) -> Result<(u64, u64), u8> {
    slider_end(ask, None)?;

    let [low, high] = ask.distance;
    if !(within64(low, &DISTANCE) && within64(high, &DISTANCE) && low <= high) {
        return Err(20);
    }

    let within = distances.iter().copied().filter(|distance| (low..=high).contains(distance));
    let ends = within.chain([low, high]).map(|distance| slider_end(ask, Some(distance)));
    let ends = ends.collect::<Result<Vec<_>, _>>()?;

    Ok((ends.iter().copied().min().unwrap_or(0), ends.iter().copied().max().unwrap_or(0)))
}
