//! A song as a supplier would hold it, its fields and its bytes.

use entry::Kind;

/// An object of a song.
#[derive(Clone, Copy, Debug, PartialEq)]
pub struct Object {
    pub kind: Kind,
    pub sound: u32,
    pub x: f32,
    pub y: f32,
    pub start: f64,
}

/// All that a record holds. Nothing is checked, so that broken records can be written too.
#[derive(Clone, Debug, PartialEq)]
pub struct Song {
    pub version: u8,
    pub key_choice: u8,
    pub hp: f32,
    pub cs: f32,
    pub od: f32,
    pub ar: f32,
    pub multiplier: f64,
    pub breaks: Vec<(f64, f64)>,
    /// Time and beat length.
    pub timing: Vec<(f64, f64)>,
    /// Time and velocity.
    pub difficulty: Vec<(f64, f64)>,
    /// Time and kiai.
    pub effect: Vec<(f64, bool)>,
    pub objects: Vec<Object>,
}

impl Default for Song {
    /// No key choice, settings 0, multiplier 1, empty lists.
    fn default() -> Self {
        Self {
            version: 1,
            key_choice: 0,
            hp: 0.0,
            cs: 0.0,
            od: 0.0,
            ar: 0.0,
            multiplier: 1.0,
            breaks: Vec::new(),
            timing: Vec::new(),
            difficulty: Vec::new(),
            effect: Vec::new(),
            objects: Vec::new(),
        }
    }
}

/// What a field of a record is.
#[derive(Clone, Copy, Debug, PartialEq, Eq)]
pub enum Name {
    Version,
    KeyChoice,
    Hp,
    Cs,
    Od,
    Ar,
    Multiplier,
    Breaks,
    Timing,
    Difficulty,
    Effect,
    Objects,
    BreakStart,
    BreakEnd,
    TimingTime,
    BeatLength,
    DifficultyTime,
    Velocity,
    EffectTime,
    Kiai,
    Kind,
    Sound,
    X,
    Y,
    Start,
    Duration,
    Repeats,
    DistanceBit,
    Distance,
    NodeBit,
    NodeSound,
}

impl Name {
    /// The bounds of a float field.
    pub const fn bounds(self) -> Option<(f64, f64)> {
        const TIME: f64 = 16_777_215.0;

        match self {
            Self::Hp | Self::Cs | Self::Od | Self::Ar => Some((0.0, 10.0)),
            Self::Multiplier => Some((0.4, 3.6)),
            Self::BreakStart
            | Self::BreakEnd
            | Self::TimingTime
            | Self::DifficultyTime
            | Self::EffectTime => Some((-TIME, TIME)),
            Self::BeatLength => Some((6.0, 60_000.0)),
            Self::Velocity => Some((0.1, 10.0)),
            Self::X | Self::Y => Some((-512.0, 1024.0)),
            Self::Start | Self::Duration => Some((0.0, TIME)),
            Self::Distance => Some((0.0, 131_072.0)),
            _ => None,
        }
    }
}

/// A field of a record, to be packed after those before it.
#[derive(Clone, Copy, Debug, PartialEq, Eq)]
pub struct Field {
    pub name: Name,
    pub width: usize,
    pub value: u64,
}

/// Fields as bytes, most significant bit first, filled with zero bits.
pub fn pack(fields: &[Field]) -> Vec<u8> {
    let mut bytes = Vec::new();
    let mut held = 0_u128;
    let mut count = 0;

    for field in fields {
        held = held << field.width | u128::from(field.value) & ((1 << field.width) - 1);
        count += field.width;

        while count >= 8 {
            count -= 8;
            bytes.push((held >> count) as u8);
            held &= (1 << count) - 1;
        }
    }

    if count > 0 {
        bytes.push((held << (8 - count)) as u8);
    }

    bytes
}

impl Song {
    pub fn bytes(&self) -> Vec<u8> {
        pack(&self.fields())
    }

    /// The fields in record order; counts are cut to their widths.
    pub fn fields(&self) -> Vec<Field> {
        let mut fields = Vec::new();
        let mut add = |name, width, value| fields.push(Field { name, width, value });

        add(Name::Version, 4, u64::from(self.version));
        add(Name::KeyChoice, 4, u64::from(self.key_choice));
        add(Name::Hp, 32, u64::from(self.hp.to_bits()));
        add(Name::Cs, 32, u64::from(self.cs.to_bits()));
        add(Name::Od, 32, u64::from(self.od.to_bits()));
        add(Name::Ar, 32, u64::from(self.ar.to_bits()));
        add(Name::Multiplier, 64, self.multiplier.to_bits());
        add(Name::Breaks, 8, self.breaks.len() as u64);
        add(Name::Timing, 12, self.timing.len() as u64);
        add(Name::Difficulty, 12, self.difficulty.len() as u64);
        add(Name::Effect, 12, self.effect.len() as u64);
        add(Name::Objects, 12, self.objects.len() as u64);

        for (start, end) in &self.breaks {
            add(Name::BreakStart, 64, start.to_bits());
            add(Name::BreakEnd, 64, end.to_bits());
        }

        for (time, beat_length) in &self.timing {
            add(Name::TimingTime, 64, time.to_bits());
            add(Name::BeatLength, 64, beat_length.to_bits());
        }

        for (time, velocity) in &self.difficulty {
            add(Name::DifficultyTime, 64, time.to_bits());
            add(Name::Velocity, 64, velocity.to_bits());
        }

        for (time, kiai) in &self.effect {
            add(Name::EffectTime, 64, time.to_bits());
            add(Name::Kiai, 1, u64::from(*kiai));
        }

        for object in &self.objects {
            let kind = match object.kind {
                Kind::Circle => 0,
                Kind::Slider { .. } => 1,
                Kind::Spinner { .. } => 2,
                Kind::Hold { .. } => 3,
            };
            add(Name::Kind, 2, kind);
            add(Name::Sound, 4, u64::from(object.sound));
            add(Name::X, 32, u64::from(object.x.to_bits()));
            add(Name::Y, 32, u64::from(object.y.to_bits()));
            add(Name::Start, 64, object.start.to_bits());

            match object.kind {
                Kind::Circle => {}
                Kind::Spinner { duration } | Kind::Hold { duration } => {
                    add(Name::Duration, 64, duration.to_bits());
                }
                Kind::Slider {
                    repeats,
                    distance,
                    node_sound,
                } => {
                    add(Name::Repeats, 10, u64::from(repeats));
                    add(Name::DistanceBit, 1, u64::from(distance.is_some()));
                    if let Some(distance) = distance {
                        add(Name::Distance, 64, distance.to_bits());
                    }
                    add(Name::NodeBit, 1, u64::from(node_sound.is_some()));
                    if let Some(sound) = node_sound {
                        add(Name::NodeSound, 4, u64::from(sound));
                    }
                }
            }
        }

        fields
    }
}
