//! The job record. Fields are checked in record order: each is whole, then in its range and order.

use crate::{
    bits::Bits,
    floats::{within, within32},
    hits::{B, hit},
    refusal::Refusal,
};

pub const CLAP: u8 = 8;
pub const FINISH: u8 = 4;
pub const WHISTLE: u8 = 2;

/// A sound has a flag if any named bit is set.
pub const fn has(sound: u8, flag: u8) -> bool {
    sound & flag != 0
}

/// The largest repeat count (document 02, change request 4), though its field has 10 bits.
pub const MOST_REPEATS: u32 = 299;

/// The largest time of a field.
pub const LAST_TIME: f64 = 16_777_215.0;

#[derive(Clone, Copy, Debug, PartialEq)]
pub enum Distance {
    Missing,
    Given(f64),
}

#[derive(Clone, Copy, Debug, PartialEq)]
pub enum NodeSound {
    Missing,
    Given(u8),
}

#[derive(Clone, Copy, Debug, PartialEq)]
pub enum Kind {
    Circle,
    Slider {
        repeats: u32,
        distance: Distance,
        node_sound: NodeSound,
    },
    Spinner(f64),
    Hold(f64),
}

#[derive(Clone, Copy, Debug, PartialEq)]
pub struct Object {
    pub kind: Kind,
    pub sound: u8,
    pub x: f32,
    pub y: f32,
    pub start: f64,
}

impl Object {
    /// Every float is in its range. Sounds are so by their fields' widths, and repeats are checked where they are read.
    pub fn in_range(&self) -> bool {
        position(self.x)
            && position(self.y)
            && length(self.start)
            && match self.kind {
                Kind::Circle
                | Kind::Slider {
                    distance: Distance::Missing,
                    ..
                } => true,
                Kind::Slider {
                    distance: Distance::Given(d),
                    ..
                } => distance(d),
                Kind::Spinner(d) | Kind::Hold(d) => length(d),
            }
    }
}

#[derive(Clone, Copy, Debug, Default)]
pub struct Settings {
    pub hp: f32,
    pub cs: f32,
    pub od: f32,
    pub ar: f32,
    pub multiplier: f64,
}

#[derive(Clone, Debug, Default)]
pub struct Song {
    pub key_choice: u8,
    pub settings: Settings,
    pub breaks: Vec<(f64, f64)>,
    /// Time and beat length.
    pub timing: Vec<(f64, f64)>,
    /// Time and velocity.
    pub difficulty: Vec<(f64, f64)>,
    /// Time and kiai.
    pub effect: Vec<(f64, bool)>,
    pub objects: Vec<Object>,
}

pub fn setting(x: f32) -> bool {
    within32(x, 0.0, 10.0)
}

pub fn multiplier(x: f64) -> bool {
    within(x, 0.4, 3.6)
}

pub fn beat_length(x: f64) -> bool {
    within(x, 6.0, 60_000.0)
}

pub fn velocity(x: f64) -> bool {
    within(x, 0.1, 10.0)
}

pub fn position(x: f32) -> bool {
    within32(x, -512.0, 1024.0)
}

/// An object's start or duration.
pub fn length(x: f64) -> bool {
    within(x, 0.0, LAST_TIME)
}

pub fn distance(x: f64) -> bool {
    within(x, 0.0, 131_072.0)
}

fn point_time(x: f64) -> bool {
    within(x, -LAST_TIME, LAST_TIME)
}

struct Reader<'a>(Bits<'a>);

/// A condition on the field just read; `row` counts where it fails.
fn demand(holds: bool, row: B, refusal: Refusal) -> Result<(), Refusal> {
    if holds {
        Ok(())
    } else {
        hit(row);
        Err(refusal)
    }
}

impl Reader<'_> {
    /// The next field; `row` counts where it is cut.
    fn field(&mut self, width: usize, row: B) -> Result<u64, Refusal> {
        self.0.field(width).ok_or_else(|| {
            hit(row);
            Refusal::NotWhole
        })
    }

    fn double(&mut self, row: B) -> Result<f64, Refusal> {
        Ok(f64::from_bits(self.field(64, row)?))
    }

    fn single(&mut self, row: B) -> Result<f32, Refusal> {
        Ok(f32::from_bits(self.field(32, row)? as u32))
    }

    fn setting(&mut self, cut: B, out: B) -> Result<f32, Refusal> {
        let x = self.single(cut)?;
        demand(setting(x), out, Refusal::Setting)?;
        Ok(x)
    }

    /// A point's time, above the one before it in its list.
    fn time(&mut self, before: Option<f64>, cut: B, out: B, order: B) -> Result<f64, Refusal> {
        let x = self.double(cut)?;
        demand(point_time(x), out, Refusal::Point)?;
        demand(
            before.is_none_or(|before| before < x),
            order,
            Refusal::Point,
        )?;
        Ok(x)
    }

    fn object(&mut self, before: Option<f64>) -> Result<Object, Refusal> {
        let kind = self.field(2, B::cut_kind)?;
        let sound = self.field(4, B::cut_sound)? as u8;
        let x = self.single(B::cut_x)?;
        demand(position(x), B::out_x, Refusal::ObjectField)?;
        let y = self.single(B::cut_y)?;
        demand(position(y), B::out_y, Refusal::ObjectField)?;
        let start = self.double(B::cut_start)?;
        demand(length(start), B::out_start, Refusal::ObjectField)?;
        demand(
            before.is_none_or(|before| before <= start),
            B::order_start,
            Refusal::ObjectField,
        )?;

        let kind = match kind {
            0 => Kind::Circle,
            1 => self.slider()?,
            _ => {
                let duration = self.double(B::cut_duration)?;
                demand(length(duration), B::out_duration, Refusal::ObjectField)?;
                if kind == 2 {
                    Kind::Spinner(duration)
                } else {
                    Kind::Hold(duration)
                }
            }
        };

        Ok(Object {
            kind,
            sound,
            x,
            y,
            start,
        })
    }

    fn slider(&mut self) -> Result<Kind, Refusal> {
        let repeats = self.field(10, B::cut_repeats)? as u32;
        demand(repeats <= MOST_REPEATS, B::out_repeats, Refusal::ObjectField)?;

        let distance = if self.field(1, B::cut_distance_bit)? == 1 {
            let given = self.double(B::cut_distance)?;
            demand(distance(given), B::out_distance, Refusal::ObjectField)?;
            Distance::Given(given)
        } else {
            Distance::Missing
        };

        let node_sound = if self.field(1, B::cut_node_bit)? == 1 {
            NodeSound::Given(self.field(4, B::cut_node_sound)? as u8)
        } else {
            NodeSound::Missing
        };

        Ok(Kind::Slider {
            repeats,
            distance,
            node_sound,
        })
    }
}

pub fn read(bytes: &[u8]) -> Result<Song, Refusal> {
    let mut reader = Reader(Bits::new(bytes));
    let mut song = Song::default();

    demand(
        reader.field(4, B::cut_version)? == 1,
        B::wrong_version,
        Refusal::Version,
    )?;
    song.key_choice = reader.field(4, B::cut_key_choice)? as u8;
    demand(
        song.key_choice <= 9,
        B::wrong_key_choice,
        Refusal::KeyChoice,
    )?;
    song.settings.hp = reader.setting(B::cut_hp, B::out_hp)?;
    song.settings.cs = reader.setting(B::cut_cs, B::out_cs)?;
    song.settings.od = reader.setting(B::cut_od, B::out_od)?;
    song.settings.ar = reader.setting(B::cut_ar, B::out_ar)?;
    song.settings.multiplier = reader.double(B::cut_multiplier)?;
    demand(
        multiplier(song.settings.multiplier),
        B::out_multiplier,
        Refusal::Setting,
    )?;
    let breaks = reader.field(8, B::cut_count)?;
    let timing = reader.field(12, B::cut_count)?;
    let difficulty = reader.field(12, B::cut_count)?;
    let effect = reader.field(12, B::cut_count)?;
    let objects = reader.field(12, B::cut_count)?;

    for _ in 0..breaks {
        let start = reader.double(B::cut_break_start)?;
        demand(point_time(start), B::out_break_start, Refusal::Point)?;
        let end = reader.double(B::cut_break_end)?;
        demand(point_time(end), B::out_break_end, Refusal::Point)?;
        demand(start <= end, B::order_break, Refusal::Point)?;
        song.breaks.push((start, end));
    }

    for _ in 0..timing {
        let before = song.timing.last().map(|point| point.0);
        let time = reader.time(
            before,
            B::cut_timing_time,
            B::out_timing_time,
            B::order_timing_time,
        )?;
        let beat = reader.double(B::cut_beat_length)?;
        demand(beat_length(beat), B::out_beat_length, Refusal::Point)?;
        song.timing.push((time, beat));
    }

    for _ in 0..difficulty {
        let before = song.difficulty.last().map(|point| point.0);
        let time = reader.time(
            before,
            B::cut_difficulty_time,
            B::out_difficulty_time,
            B::order_difficulty_time,
        )?;
        let given = reader.double(B::cut_velocity)?;
        demand(velocity(given), B::out_velocity, Refusal::Point)?;
        song.difficulty.push((time, given));
    }

    for _ in 0..effect {
        let before = song.effect.last().map(|point| point.0);
        let time = reader.time(
            before,
            B::cut_effect_time,
            B::out_effect_time,
            B::order_effect_time,
        )?;
        let kiai = reader.field(1, B::cut_kiai)? == 1;
        song.effect.push((time, kiai));
    }

    for _ in 0..objects {
        let before = song.objects.last().map(|object| object.start);
        song.objects.push(reader.object(before)?);
    }

    // Less than a byte fills, so it is always whole.
    let filling = reader.0.filling();
    let filled = filling == 0 || reader.0.field(filling) == Some(0);
    demand(filled, B::filling_not_zero, Refusal::Surplus)?;
    demand(reader.0.at_end(), B::bytes_follow, Refusal::Surplus)?;

    Ok(song)
}

/// The columns without a key choice, from cs and od rounded: `long` of the objects are sliders or
/// spinners.
pub fn columns_by_share(long: usize, objects: usize, cs: f32, od: f32) -> i32 {
    if objects == 0 {
        hit(B::columns_no_objects);
    } else {
        let share = long as f64 / objects as f64;

        if share < 0.2 {
            hit(B::columns_share_under_0_2);
            return 7;
        }

        if share < 0.3 || cs >= 5.0 {
            hit(if share < 0.3 {
                B::columns_share_under_0_3
            } else {
                B::columns_cs_from_5
            });
            hit(if od > 5.0 {
                B::columns_od_over_5
            } else {
                B::columns_od_up_to_5
            });
            return if od > 5.0 { 7 } else { 6 };
        }

        if share > 0.6 {
            hit(if od > 4.0 {
                B::columns_share_over_0_6_od
            } else {
                B::columns_share_over_0_6
            });
            return if od > 4.0 { 5 } else { 4 };
        }

        hit(B::columns_share_between);
    }

    let wanted = od as i32 + 1;
    hit(match wanted {
        ..4 => B::columns_raised_to_4,
        4..=7 => B::columns_by_od,
        _ => B::columns_cut_to_7,
    });

    wanted.clamp(4, 7)
}

impl Song {
    pub fn seed(&self) -> i32 {
        let Settings { hp, cs, od, ar, .. } = self.settings;

        (hp + cs).round_ties_even() as i32 * 20 + (od * 41.2) as i32 + ar.round_ties_even() as i32
    }

    pub fn columns(&self) -> i32 {
        if self.key_choice != 0 {
            hit(B::columns_key_choice);
            return i32::from(self.key_choice);
        }

        let long = |object: &&Object| matches!(object.kind, Kind::Slider { .. } | Kind::Spinner(_));
        let long = self.objects.iter().filter(long).count();
        let Settings { cs, od, .. } = self.settings;

        columns_by_share(
            long,
            self.objects.len(),
            cs.round_ties_even(),
            od.round_ties_even(),
        )
    }

    /// The conversion difficulty.
    pub fn conversion_difficulty(&self) -> f64 {
        let first = self.objects.first().map_or(0.0, |object| object.start);
        let last = self.objects.last().map_or(0.0, |object| object.start);
        let resting = self
            .breaks
            .iter()
            .fold(0.0, |sum, (start, end)| sum + (end - start));

        // Cut toward zero, in whole seconds.
        let seconds = match ((last - first - resting) / 1000.0) as i32 {
            0 => {
                hit(B::drain_zero);
                10_000
            }
            seconds => {
                hit(if seconds < 0 {
                    B::drain_negative
                } else {
                    B::drain_positive
                });
                seconds
            }
        };

        let settings = f64::from(self.settings.hp + self.settings.ar.clamp(4.0, 7.0)) / 1.5;
        let pace = self.objects.len() as f64 / f64::from(seconds) * 9.0;
        let difficulty = (settings + pace) / 38.0 * 5.0 / 1.15;

        if difficulty > 12.0 {
            hit(B::difficulty_cut_to_12);
            12.0
        } else {
            difficulty
        }
    }

    /// The timing in force; before the first point, that point's.
    pub fn beat_length_at(&self, time: f64) -> f64 {
        match self.timing.iter().rev().find(|point| point.0 <= time) {
            Some(point) => {
                hit(B::timing_in_force);
                point.1
            }
            None => match self.timing.first() {
                Some(point) => {
                    hit(B::timing_before_first);
                    point.1
                }
                None => {
                    hit(B::timing_none);
                    1000.0
                }
            },
        }
    }

    /// The velocity in force; before the first point, the default.
    pub fn velocity_at(&self, time: f64) -> f64 {
        match self.difficulty.iter().rev().find(|point| point.0 <= time) {
            Some(point) => {
                hit(B::velocity_in_force);
                point.1
            }
            None => {
                hit(if self.difficulty.is_empty() {
                    B::velocity_none
                } else {
                    B::velocity_before_first
                });
                1.0
            }
        }
    }

    /// Kiai in force; before the first point, none.
    pub fn kiai_at(&self, time: f64) -> bool {
        match self.effect.iter().rev().find(|point| point.0 <= time) {
            Some(point) => {
                hit(if point.1 { B::kiai_on } else { B::kiai_off });
                point.1
            }
            None => {
                hit(if self.effect.is_empty() {
                    B::kiai_none
                } else {
                    B::kiai_before_first
                });
                false
            }
        }
    }
}
