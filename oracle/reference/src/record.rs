//! The job record: fields in record order, each first whole (1), then within its own condition.

use std::ops::RangeInclusive;

use rosu_map::{
    section::{events::BreakPeriod, general::GameMode, hit_objects::hit_samples::HitSoundType},
    util::Pos,
};

use crate::{
    Beatmap, GameMods,
    model::{
        beatmap::HitSounds,
        control_point::{DifficultyPoint, EffectPoint, TimingPoint},
        hit_object::{HitObject, HitObjectKind, HoldNote, Slider, Spinner},
    },
    ranges::{
        BEAT_LENGTH, DISTANCE, DURATION, MOST_REPEATS, MULTIPLIER, POSITION, SETTING, START, TIME,
        VELOCITY, within32, within64,
    },
};

/// The refusal's number.
type Refusal = u8;

struct Fields<'r> {
    record: &'r [u8],
    /// The next field's first bit.
    bit: usize,
}

impl Fields<'_> {
    fn next(&mut self, width: usize) -> Result<u64, Refusal> {
        if self.record.len() * 8 - self.bit < width {
            return Err(1);
        }

        // At most nine bytes hold a field of 64 bits.
        let first = self.bit / 8;
        self.bit += width;
        let bytes = &self.record[first..self.bit.div_ceil(8)];
        let value = bytes.iter().fold(0, |value, byte| value << 8 | u128::from(*byte));
        let after = self.bit.next_multiple_of(8) - self.bit;

        Ok((value >> after & ((1 << width) - 1)) as u64)
    }

    fn flag(&mut self) -> Result<bool, Refusal> {
        Ok(self.next(1)? == 1)
    }

    fn sound(&mut self) -> Result<HitSoundType, Refusal> {
        Ok(HitSoundType::new(self.next(4)? as u32))
    }

    fn float32(&mut self, range: RangeInclusive<f32>, refusal: Refusal) -> Result<f32, Refusal> {
        let value = f32::from_bits(self.next(32)? as u32);

        if within32(value, &range) { Ok(value) } else { Err(refusal) }
    }

    fn float64(&mut self, range: RangeInclusive<f64>, refusal: Refusal) -> Result<f64, Refusal> {
        let value = f64::from_bits(self.next(64)?);

        if within64(value, &range) { Ok(value) } else { Err(refusal) }
    }

    /// The time of a point, above that of the point before it.
    fn point_time(&mut self, before: Option<f64>) -> Result<f64, Refusal> {
        let time = self.float64(TIME, 5)?;

        if before.is_none_or(|before| before < time) { Ok(time) } else { Err(5) }
    }

    fn break_period(&mut self) -> Result<BreakPeriod, Refusal> {
        let start_time = self.float64(TIME, 5)?;
        let end_time = self.float64(TIME, 5)?;

        if start_time <= end_time { Ok(BreakPeriod { start_time, end_time }) } else { Err(5) }
    }

    fn repeats(&mut self) -> Result<usize, Refusal> {
        let repeats = self.next(10)?;

        if repeats <= MOST_REPEATS.into() { Ok(repeats as usize) } else { Err(6) }
    }

    fn object(&mut self, before: f64) -> Result<(HitObject, HitSoundType), Refusal> {
        let kind = self.next(2)?;
        let sound = self.sound()?;
        let x = self.float32(POSITION, 6)?;
        let y = self.float32(POSITION, 6)?;
        let start_time = self.float64(START, 6)?;

        if start_time < before {
            return Err(6);
        }

        let kind = match kind {
            0 => HitObjectKind::Circle,
            1 => {
                let repeats = self.repeats()?;
                let expected_dist =
                    if self.flag()? { Some(self.float64(DISTANCE, 6)?) } else { None };
                let node_sounds =
                    if self.flag()? { Box::from([self.sound()?]) } else { Box::from([]) };

                HitObjectKind::Slider(Slider {
                    expected_dist,
                    repeats,
                    control_points: Box::from([]),
                    node_sounds,
                })
            }
            2 => HitObjectKind::Spinner(Spinner { duration: self.float64(DURATION, 6)? }),
            _ => HitObjectKind::Hold(HoldNote { duration: self.float64(DURATION, 6)? }),
        };

        // Not `Pos::new`, which takes positions from 512 on for columns off the deck.
        Ok((HitObject { pos: Pos { x, y }, start_time, kind }, sound))
    }

    fn end(&self) -> Result<(), Refusal> {
        let rest = self.record.len() * 8 - self.bit;

        if rest >= 8 {
            return Err(7);
        }

        match self.record.last() {
            Some(last) if last & ((1 << rest) - 1) != 0 => Err(7),
            _ => Ok(()),
        }
    }
}

/// What a record says, or the first refusal of 1 to 7.
pub fn read(record: &[u8]) -> Result<(Beatmap, GameMods), Refusal> {
    let mut fields = Fields { record, bit: 0 };

    if fields.next(4)? != 1 {
        return Err(2);
    }

    let key_choice = fields.next(4)? as u8;
    if key_choice > 9 {
        return Err(3);
    }

    let hp = fields.float32(SETTING, 4)?;
    let cs = fields.float32(SETTING, 4)?;
    let od = fields.float32(SETTING, 4)?;
    let ar = fields.float32(SETTING, 4)?;
    let slider_multiplier = fields.float64(MULTIPLIER, 4)?;

    let break_count = fields.next(8)?;
    let timing_count = fields.next(12)?;
    let difficulty_count = fields.next(12)?;
    let effect_count = fields.next(12)?;
    let object_count = fields.next(12)?;

    let mut breaks = Vec::new();
    for _ in 0..break_count {
        breaks.push(fields.break_period()?);
    }

    // Points are made field by field: their `new` would clamp.
    let mut timing_points: Vec<TimingPoint> = Vec::new();
    for _ in 0..timing_count {
        let time = fields.point_time(timing_points.last().map(|point| point.time))?;
        let beat_len = fields.float64(BEAT_LENGTH, 5)?;
        timing_points.push(TimingPoint { time, beat_len });
    }

    let mut difficulty_points: Vec<DifficultyPoint> = Vec::new();
    for _ in 0..difficulty_count {
        let time = fields.point_time(difficulty_points.last().map(|point| point.time))?;
        let slider_velocity = fields.float64(VELOCITY, 5)?;
        difficulty_points.push(DifficultyPoint { time, slider_velocity, ..Default::default() });
    }

    let mut effect_points: Vec<EffectPoint> = Vec::new();
    for _ in 0..effect_count {
        let time = fields.point_time(effect_points.last().map(|point| point.time))?;
        let kiai = fields.flag()?;
        effect_points.push(EffectPoint { time, kiai, ..Default::default() });
    }

    let mut hit_objects: Vec<HitObject> = Vec::new();
    let mut hit_sounds = Vec::new();
    for _ in 0..object_count {
        let before = hit_objects.last().map_or(0.0, |object| object.start_time);
        let (object, sound) = fields.object(before)?;
        hit_objects.push(object);
        hit_sounds.push(sound);
    }

    fields.end()?;

    let map = Beatmap {
        is_convert: false,
        mode: GameMode::Osu,
        ar,
        cs,
        hp,
        od,
        slider_multiplier,
        breaks,
        timing_points,
        difficulty_points,
        effect_points,
        hit_objects,
        hit_sounds: HitSounds(hit_sounds),
    };

    Ok((map, GameMods { key_choice }))
}
