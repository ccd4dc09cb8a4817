//! The reference oracle: rosu-pp's mania conversion, unchanged, behind the entries of document 01.

// The unchanged Rust and its stand-ins: `util`, `mania` and `model`.
include!(concat!(env!("OUT_DIR"), "/tree.rs"));

// Where the unchanged files look for these.
use model::{
    beatmap::Beatmap,
    mods::{Difficulty, GameMods},
};

mod chart;
mod job;
mod lookups;
mod ranges;
mod record;
mod stop;
#[cfg(test)]
mod tests;

pub use chart::read_chart;
pub use job::{Converted, Prepared, convert_only, job, prepare};
pub use lookups::{holds_at, nearest_note, notes_between};
pub use mania::convert::announced::{Announced, announced, column_counts, slider_end, slider_ends};
pub use mania::convert::single::single;
