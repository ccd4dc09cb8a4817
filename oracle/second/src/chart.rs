//! Chart bytes: writer and reader.

use entry::{Chart, Note};

use crate::{
    bits::Bits,
    floats::Ticks,
    hits::{B, hit},
};

pub const HEADER: usize = 8;
/// A note as it is written, in version 2.
pub const NOTE: usize = 19;
/// A note of version 1.
const OLD_NOTE: usize = 17;

/// No note ends after this.
const LAST_END: f64 = 33_554_431.0;

fn pack_header(version: u8, columns: u8, notes: usize, draws: u32) -> [u8; HEADER] {
    let [version, columns] = [version, columns].map(|field| u64::from(field & 15));

    (version << 60 | columns << 56 | (notes as u64 & 0xff_ffff) << 32 | u64::from(draws)).to_be_bytes()
}

/// A note with its object in version 2, one without in version 1.
pub fn pack_note(note: &Note) -> Vec<u8> {
    let first = (note.column & 15) << 4 | u8::from(note.hold) << 3;
    let mut bytes = match note.object {
        None => vec![first],
        // The index has 3 bits in the first byte, 8 in the second and 1 in the third.
        Some(object) => vec![first | (object >> 9 & 7) as u8, (object >> 1 & 255) as u8, (object << 7 & 128) as u8],
    };
    bytes.extend(note.start.to_be_bytes());
    bytes.extend(note.duration.to_be_bytes());

    bytes
}

/// A chart whose notes have objects exactly in version 2.
pub fn write_chart(chart: &Chart) -> Vec<u8> {
    let mut bytes = pack_header(chart.version, chart.columns, chart.notes.len(), chart.draws).to_vec();
    bytes.extend(chart.notes.iter().flat_map(pack_note));

    bytes
}

/// A rule of the reader; `row` counts where it is broken.
fn demand(holds: bool, row: B) -> Option<()> {
    if holds {
        Some(())
    } else {
        hit(row);
        None
    }
}

/// `None` is refusal 14.
pub fn read_chart(bytes: &[u8]) -> Option<Chart> {
    demand(bytes.len() >= HEADER, B::chart_header_cut)?;
    let mut bits = Bits::new(bytes);
    let version = bits.field(4)? as u8;
    demand(version == 1 || version == 2, B::chart_version)?;
    let told = version == 2;
    let size = if told { NOTE } else { OLD_NOTE };
    let columns = bits.field(4)? as u8;
    demand((1..=9).contains(&columns), B::chart_columns)?;
    let count = bits.field(24)? as usize;
    let draws = bits.field(32)? as u32;
    demand(bytes.len() >= HEADER + size * count, B::chart_notes_missing)?;
    demand(bytes.len() <= HEADER + size * count, B::chart_bytes_follow)?;

    let last_end = Ticks::of(LAST_END)?;
    let mut notes: Vec<Note> = Vec::with_capacity(count);
    let mut before = 0.0;
    let mut lowest = 0;

    for _ in 0..count {
        let column = bits.field(4)? as u8;
        demand(column < columns, B::chart_column)?;
        let hold = bits.field(1)? == 1;
        let object = if told { Some(bits.field(12)? as u16) } else { None };
        if told {
            demand(bits.field(7)? == 0, B::chart_zero_bits)?;
        } else {
            demand(bits.field(3)? == 0, B::chart_old_zero_bits)?;
        }
        let start = bits.field(64)?;
        let duration = bits.field(64)?;
        let negative_zero = (-0.0_f64).to_bits();
        demand(
            start != negative_zero && duration != negative_zero,
            B::chart_negative_zero,
        )?;
        let (from, lasts) = (f64::from_bits(start), f64::from_bits(duration));
        demand(from.is_finite() && lasts.is_finite(), B::chart_not_finite)?;
        demand(from >= 0.0, B::chart_start_negative)?;
        demand(from >= before, B::chart_start_falls)?;
        // In a chord columns do not fall.
        lowest = if from == before { lowest } else { 0 };
        demand(column >= lowest, B::chart_chord_column_falls)?;

        if hold {
            demand(lasts > 0.0, B::chart_hold_not_above_0)?;
        } else {
            demand(duration == 0, B::chart_circle_with_duration)?;
        }

        let within = match (Ticks::of(from), Ticks::of(lasts)) {
            (Some(from), Some(lasts)) => from.plus(lasts).at_most(last_end),
            _ => false,
        };
        demand(within, B::chart_end_beyond)?;

        before = from;
        lowest = column;
        notes.push(Note {
            column,
            hold,
            object,
            start,
            duration,
        });
    }

    hit(if told { B::chart_read } else { B::chart_old_read });
    Some(Chart {
        version,
        columns,
        draws,
        notes,
    })
}
