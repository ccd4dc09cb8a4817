//! Random and damaged inputs for every entry of document 01, the same for the same seed.

mod announced;
mod charts;
mod damage;
mod eight;
mod lent;
mod hit_objects;
mod lookups;
mod records;
mod rng;
mod singles;
mod song;

pub use announced::{announced_slider, announced_song, distances};
pub use charts::{chart, damaged_chart};
pub use damage::damaged;
pub use eight::song_of_8;
pub use lent::{Need, lent};
pub use hit_objects::{buffer_length, lines_columns, lines_text, whole_chart};
pub use lookups::{Notes, column, list_length, moment, noted_chart, sheet_chart, sheet_length};
pub use records::{Bound, bound, record, song};
pub use rng::Rng;
pub use singles::{damaged_single, single, state_giving};
pub use song::{Field, Name, Object, Song, pack};

#[cfg(test)]
mod tests;
