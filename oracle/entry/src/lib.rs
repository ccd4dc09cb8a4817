//! The three entries of document 01, and what document 02 adds to them, as types that every
//! implementation answers with.

/// How a job ends. The chart buffer holds the chart, or is all zero.
#[derive(Clone, Copy, Debug, PartialEq, Eq)]
pub enum JobEnd {
    /// A chart of `length` bytes from the buffer's start; later bytes keep their values.
    /// `longest_search` is the most draws that one column search made.
    Chart { length: usize, longest_search: u32 },
    /// Refusals 1 to 12 and 16. `object` and `draws` are 0 before the walk.
    Refused { number: u8, object: u32, draws: u32 },
}

/// The four words of the generator.
#[derive(Clone, Copy, Debug, PartialEq, Eq)]
pub struct State {
    pub x: u32,
    pub y: u32,
    pub z: u32,
    pub w: u32,
}

/// What an object is, with what travels inside its kind.
#[derive(Clone, Copy, Debug, PartialEq)]
pub enum Kind {
    Circle,
    /// `distance` and `node_sound` are `None` where the record has no such field.
    Slider { repeats: u32, distance: Option<f64>, node_sound: Option<u32> },
    Spinner { duration: f64 },
    Hold { duration: f64 },
}

/// All that the single-object entry takes, apart from its buffer.
/// Fields may hold anything, so that each refusal can be met.
#[derive(Clone, Copy, Debug, PartialEq)]
pub struct Single {
    pub x: f32,
    pub y: f32,
    pub start: f64,
    pub sound: u32,
    pub kind: Kind,
    // facts
    pub difficulty: f64,
    pub multiplier: f64,
    pub beat_length: f64,
    pub velocity: f64,
    pub kiai: bool,
    pub density: f64,
    // previous values
    pub prev_time: f64,
    pub prev_x: f32,
    pub prev_y: f32,
    pub prev_mask: u32,
    pub prev_last: u32,
    /// False: stair; true: reverse stair.
    pub reverse_stair: bool,
    pub columns: u32,
    pub state: State,
    pub allowance: u32,
}

/// How a single object ends.
#[derive(Clone, Copy, Debug, PartialEq, Eq)]
pub enum SingleEnd {
    /// `notes` notes of version 2, each with object 0, stand at the buffer's start; later bytes keep their values.
    Made { notes: u32, mask: u32, last: u32, reverse_stair: bool, state: State, draws: u32 },
    /// Nothing is written; the state is the one lent.
    Refused { number: u8, state: State },
}

/// A song announced with rounded figures (document 02, change request 11): ranges of od and cs,
/// each its lower and its upper end, and the counts. The answer has bit c for c columns, or is a
/// refusal's number.
#[derive(Clone, Copy, Debug, PartialEq)]
pub struct AnnouncedSong {
    pub od: [f32; 2],
    pub cs: [f32; 2],
    pub objects: u32,
    pub sliders_and_spinners: u32,
}

/// A slider announced with a range for its distance. The answer is its earliest and its latest end,
/// or a refusal's number.
#[derive(Clone, Copy, Debug, PartialEq)]
pub struct AnnouncedSlider {
    pub multiplier: f64,
    pub beat_length: f64,
    pub velocity: f64,
    pub x: f32,
    pub y: f32,
    pub start: f64,
    pub sound: u32,
    pub repeats: u32,
    pub node_sound: Option<u32>,
    pub distance: [f64; 2],
}

impl AnnouncedSlider {
    /// The same slider at the single-object entry: one column, nothing before it, the facts that
    /// its end does not take 0, and no draw.
    pub fn single(&self, distance: Option<f64>) -> Single {
        Single {
            x: self.x,
            y: self.y,
            start: self.start,
            sound: self.sound,
            kind: Kind::Slider { repeats: self.repeats, distance, node_sound: self.node_sound },
            difficulty: 0.0,
            multiplier: self.multiplier,
            beat_length: self.beat_length,
            velocity: self.velocity,
            kiai: false,
            density: 0.0,
            prev_time: 0.0,
            prev_x: 0.0,
            prev_y: 0.0,
            prev_mask: 0,
            prev_last: 0,
            reverse_stair: false,
            columns: 1,
            state: State { x: 0, y: 0, z: 0, w: 0 },
            allowance: 0,
        }
    }
}

/// Bytes of a chart's header.
pub const HEADER_BYTES: usize = 8;
/// Bytes of a note of version 2, in which charts are written.
pub const NOTE_BYTES: usize = 19;
/// Bytes of a note of version 1.
pub const OLD_NOTE_BYTES: usize = 17;

/// Bytes of a chart of version 2 with so many notes.
pub const fn chart_bytes(notes: usize) -> usize {
    HEADER_BYTES + NOTE_BYTES * notes
}

/// A note of a chart, floats as bit patterns. A circle's duration is 0.
#[derive(Clone, Copy, Debug, PartialEq, Eq)]
pub struct Note {
    pub column: u8,
    pub hold: bool,
    /// The index of the object that made it, counted from 0. Notes of version 1 have none.
    pub object: Option<u16>,
    pub start: u64,
    pub duration: u64,
}

/// What the chart reader finds; `None` stands for refusal 14.
#[derive(Clone, Debug, PartialEq, Eq)]
pub struct Chart {
    /// 1 or 2.
    pub version: u8,
    pub columns: u8,
    pub draws: u32,
    pub notes: Vec<Note>,
}

impl Chart {
    /// The chart as `charttext` prints it.
    pub fn text(&self) -> String {
        let notes = self.notes.iter().map(|note| {
            let Note { column, start, duration, .. } = note;
            if note.hold {
                format!("{column} H {start:016X} {duration:016X}\n")
            } else {
                format!("{column} C {start:016X}\n")
            }
        });

        format!("columns {} notes {} draws {}\n", self.columns, self.notes.len(), self.draws)
            + &notes.collect::<String>()
    }
}

/// How a list lookup in a chart ends (document 02, CR 10).
#[derive(Clone, Copy, Debug, PartialEq, Eq)]
pub enum ListEnd {
    /// So many places stand at the list's start, 0 where nothing is found; later entries keep their values.
    Places { count: usize },
    /// Refusals 14, 17, 19. The list is as it was lent.
    Refused { number: u8 },
}

/// How a chart's sheet ends (document 02, CR 1).
#[derive(Clone, Copy, Debug, PartialEq, Eq)]
pub enum SheetEnd {
    /// So many bytes stand at the buffer's start; later bytes keep their values.
    Sheet { length: usize },
    /// Refusals 14 and 15. The buffer is as it was lent.
    Refused { number: u8 },
}

/// How the lookup of the nearest note of a column ends (document 02, CR 10).
#[derive(Clone, Copy, Debug, PartialEq, Eq)]
pub enum NearestEnd {
    Place { place: u32 },
    Nothing,
    /// Refusals 14, 17, 18.
    Refused { number: u8 },
}

/// How writing or reading hit object lines ends (document 02, change request 13).
#[derive(Clone, Copy, Debug, PartialEq, Eq)]
pub enum LinesEnd {
    /// So many bytes stand at the buffer's start; later bytes keep their values.
    Written { length: usize },
    /// Refusals 14, 24 and 25 of the writer, 26 and 11 of the reader. The buffer is as it was lent.
    Refused { number: u8 },
}
