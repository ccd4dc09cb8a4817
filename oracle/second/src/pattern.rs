//! A pattern: its notes, the mask of their columns and the last one.

use crate::{
    hits::{B, hit},
    refusal::Refusal,
};

/// A note; a circle's duration is 0.
#[derive(Clone, Copy, Debug, PartialEq)]
pub struct Note {
    pub column: u8,
    pub hold: bool,
    pub start: f64,
    pub duration: f64,
}

impl Note {
    /// As a chart has it, with the index of its object.
    pub const fn of_object(&self, index: u16) -> entry::Note {
        entry::Note {
            column: self.column,
            hold: self.hold,
            object: Some(index),
            start: self.start.to_bits(),
            duration: self.duration.to_bits(),
        }
    }
}

/// Mask and last column (0 if empty), as the next object meets them.
#[derive(Clone, Copy, Debug, Default, PartialEq, Eq)]
pub struct Previous {
    pub mask: u16,
    pub last: u8,
}

impl Previous {
    pub const fn count(self) -> i32 {
        self.mask.count_ones() as i32
    }

    pub const fn has(self, column: i32) -> bool {
        self.mask >> column & 1 == 1
    }
}

#[derive(Clone, Debug, Default)]
pub struct Pattern {
    pub notes: Vec<Note>,
    pub held: Previous,
}

impl Pattern {
    pub fn put(&mut self, note: Note) {
        self.notes.push(note);
        self.held = Previous {
            mask: self.held.mask | 1 << note.column,
            last: note.column,
        };
    }

    fn add(
        &mut self,
        columns: i32,
        column: i32,
        hold: bool,
        start: f64,
        duration: f64,
    ) -> Result<(), Refusal> {
        if !(0..columns).contains(&column) {
            hit(B::pattern_off_deck);
            return Err(Refusal::OffDeck);
        }

        self.put(Note {
            column: column as u8,
            hold,
            start,
            duration,
        });
        Ok(())
    }

    pub fn circle(&mut self, columns: i32, column: i32, start: f64) -> Result<(), Refusal> {
        self.add(columns, column, false, start, 0.0)
    }

    pub fn hold(
        &mut self,
        columns: i32,
        column: i32,
        start: f64,
        duration: f64,
    ) -> Result<(), Refusal> {
        self.add(columns, column, true, start, duration)
    }
}

/// The first column that ordinary searches use: 8 columns keep column 0 apart.
pub const fn first_column(columns: i32) -> i32 {
    (columns == 8) as i32
}

/// The column of an object's position. With 8 columns the seven ordinary ones share the width.
pub fn column_at(x: f32, columns: i32) -> i32 {
    let first = first_column(columns);
    let ordinary = columns - first;
    let place = (x / (512.0_f32 / ordinary as f32)).floor() as i32;

    hit(match place {
        p if p < 0 => B::column_below,
        p if p >= ordinary => B::column_above,
        _ => B::column_inside,
    });

    place.clamp(0, ordinary - 1) + first
}
