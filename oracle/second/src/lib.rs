//! A second implementation of the mania conversion, written from documents 01 and 02.
//! Patterns are a mask, a last column and notes; refusals are values; draws count against an allowance.

mod announced;
mod bits;
mod chart;
mod circle;
mod convert;
mod draws;
mod ended;
mod floats;
mod hit_objects;
pub mod hits;
mod lookups;
mod pattern;
mod record;
mod refusal;
mod search;
mod sheet;
mod slider;
mod text;

pub use announced::{column_counts, slider_ends};
pub use chart::{read_chart, write_chart};
pub use convert::{job, single};
pub use hit_objects::{read_hit_objects, write_hit_objects};
pub use lookups::{holds_at, nearest_note, notes_between};
pub use sheet::sheet;
pub use text::charttext;

#[cfg(test)]
mod tests;
