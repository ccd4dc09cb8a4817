//! Stand-in for model/beatmap/mod.rs: the fields and lookups that conversion reads.

use std::borrow::Cow;

use rosu_map::{
    section::{events::BreakPeriod, general::GameMode, hit_objects::hit_samples::HitSoundType},
    util::OBJECT,
};

use super::{
    control_point::{
        DifficultyPoint, EffectPoint, TimingPoint, difficulty_point_at, effect_point_at,
        timing_point_at,
    },
    hit_object::HitObject,
    mode::ConvertError,
    mods::GameMods,
};

/// The objects' sounds. `convert` takes one with each object, which tells the object under way.
#[derive(Clone, Default)]
pub struct HitSounds(pub Vec<HitSoundType>);

impl HitSounds {
    pub fn iter(&self) -> impl Iterator<Item = &HitSoundType> {
        (0..).zip(&self.0).map(|(index, sound)| {
            OBJECT.set(index);
            sound
        })
    }

    pub fn truncate(&mut self, objects: usize) {
        self.0.truncate(objects);
    }

    pub fn clear(&mut self) {
        self.0.clear();
    }
}

#[derive(Clone)]
pub struct Beatmap {
    pub is_convert: bool,
    pub mode: GameMode,
    pub ar: f32,
    pub cs: f32,
    pub hp: f32,
    pub od: f32,
    pub slider_multiplier: f64,
    pub breaks: Vec<BreakPeriod>,
    pub timing_points: Vec<TimingPoint>,
    pub difficulty_points: Vec<DifficultyPoint>,
    pub effect_points: Vec<EffectPoint>,
    pub hit_objects: Vec<HitObject>,
    pub hit_sounds: HitSounds,
}

impl Beatmap {
    pub fn timing_point_at(&self, time: f64) -> Option<&TimingPoint> {
        timing_point_at(&self.timing_points, time)
    }

    pub fn difficulty_point_at(&self, time: f64) -> Option<&DifficultyPoint> {
        difficulty_point_at(&self.difficulty_points, time)
    }

    pub fn effect_point_at(&self, time: f64) -> Option<&EffectPoint> {
        effect_point_at(&self.effect_points, time)
    }

    /// Summed in order from 0; `Iterator::sum` begins at -0.0.
    pub fn total_break_time(&self) -> f64 {
        self.breaks.iter().fold(0.0, |sum, period| sum + period.duration())
    }

    // Only `prepare_map` names the two below, and nothing calls it.

    pub fn convert_ref(&self, _: GameMode, _: &GameMods) -> Result<Cow<'_, Self>, ConvertError> {
        unreachable!("no job prepares a map")
    }

    pub fn mania_hitobjects_legacy_sort(&mut self) {
        unreachable!("no job prepares a map")
    }
}
