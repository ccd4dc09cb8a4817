//! The chart bytes: note codec and chart reader.

use entry::{Chart, Note};

use crate::{
    mania::object::ManiaObject,
    model::hit_object::{HitObject, HitObjectKind, HoldNote},
    ranges::LAST,
};

pub const HEAD: usize = 8;
/// Bytes of a note in version 2, which is written.
pub const NOTE: usize = 19;
/// Bytes of a note in version 1.
const OLD_NOTE: usize = 17;
/// Bytes of a note's start and duration, with which it ends.
const TIMES: usize = 16;

/// The index of the object that made a note of the unchanged list: see `Pos::new`.
pub fn maker_of(note: &HitObject) -> u16 {
    note.pos.y as u16
}

/// A note of the unchanged list, with its column found back from its position, and the index of its object.
pub fn note_of(note: &HitObject, columns: f32, object: u16) -> Note {
    let (hold, duration) = match note.kind {
        HitObjectKind::Circle => (false, 0),
        HitObjectKind::Hold(HoldNote { duration }) => (true, duration.to_bits()),
        _ => unreachable!("conversion makes circles and holds"),
    };

    Note {
        column: ManiaObject::column(note.pos.x, columns) as u8,
        hold,
        object: Some(object),
        start: note.start_time.to_bits(),
        duration,
    }
}

/// Document 02's order: by start, and of equal starts the lowest column first. Stable, so that equal start and column keep the list's order.
pub fn sort(notes: &mut [Note]) {
    let start = |note: &Note| f64::from_bits(note.start);
    notes.sort_by(|a, b| start(a).total_cmp(&start(b)).then(a.column.cmp(&b.column)));
}

/// Writes notes one after another from the buffer's start, which has room for them.
pub fn write_notes(notes: impl Iterator<Item = Note>, buffer: &mut [u8]) {
    for (note, bytes) in notes.zip(buffer.chunks_exact_mut(NOTE)) {
        let object = note.object.expect("a note that was made has an object");
        let head = u32::from(note.column) << 20 | u32::from(note.hold) << 19 | u32::from(object) << 7;
        bytes[..3].copy_from_slice(&head.to_be_bytes()[1..]);
        bytes[3..11].copy_from_slice(&note.start.to_be_bytes());
        bytes[11..].copy_from_slice(&note.duration.to_be_bytes());
    }
}

/// The note in these bytes, which are of version 2 unless they are a version 1 note's, and its zero bits. None of the reader's rules need be kept.
pub fn note_at(bytes: &[u8]) -> (Note, u32) {
    let (head, times) = bytes.split_at(bytes.len() - TIMES);
    let number = |bytes: &[u8]| bytes.iter().fold(0, |number, byte| number << 8 | u64::from(*byte));
    let (start, duration) = (number(&times[..8]), number(&times[8..]));
    let head = number(head) as u32;

    if bytes.len() == OLD_NOTE {
        let note = Note { column: (head >> 4) as u8, hold: head >> 3 & 1 == 1, object: None, start, duration };
        (note, head & 7)
    } else {
        let object = Some((head >> 7 & 0xfff) as u16);
        let note = Note { column: (head >> 20) as u8, hold: head >> 19 & 1 == 1, object, start, duration };
        (note, head & 127)
    }
}

pub fn write_head(columns: u8, notes: usize, draws: u32, buffer: &mut [u8]) {
    buffer[..4].copy_from_slice(&(notes as u32).to_be_bytes());
    buffer[0] = 2 << 4 | columns;
    buffer[4..HEAD].copy_from_slice(&draws.to_be_bytes());
}

/// Whether the sum of two times from 0, not rounded, is at most the last instant.
fn ends_in_time(start: f64, duration: f64) -> bool {
    if start > LAST || duration > LAST {
        return false;
    }

    // Whole parts add up without rounding. The fractions are each below 1, and exact.
    let whole = start.floor() + duration.floor();
    let less = start.fract().min(duration.fract());
    let more = start.fract().max(duration.fract());

    if whole >= LAST {
        whole == LAST && more == 0.0
    } else if whole == LAST - 1.0 {
        // 1 - more is exact from a half on.
        more < 0.5 || less <= 1.0 - more
    } else {
        true
    }
}

fn is_time(time: f64) -> bool {
    time.is_finite() && time.is_sign_positive()
}

/// The chart that these bytes are; `None` is refusal 14.
pub fn read_chart(bytes: &[u8]) -> Option<Chart> {
    let (head, rest) = bytes.split_first_chunk::<HEAD>()?;
    let [first, count @ .., d0, d1, d2, d3] = *head;
    let columns = first & 15;
    let count = count.iter().fold(0, |count, byte| count << 8 | usize::from(*byte));

    let version = first >> 4;
    let size = match version {
        1 => OLD_NOTE,
        2 => NOTE,
        _ => return None,
    };

    if !(1..=9).contains(&columns) || rest.len() != count * size {
        return None;
    }

    let mut notes = Vec::with_capacity(count);
    let mut before = (0.0, 0);

    for bytes in rest.chunks_exact(size) {
        let (note, zero_bits) = note_at(bytes);
        let start = f64::from_bits(note.start);
        let duration = f64::from_bits(note.duration);

        let kept = zero_bits == 0
            && note.column < columns
            && is_time(start)
            && is_time(duration)
            && (start, note.column) >= before
            && (if note.hold { duration > 0.0 } else { note.duration == 0 })
            && ends_in_time(start, duration);

        if !kept {
            return None;
        }

        before = (start, note.column);
        notes.push(note);
    }

    Some(Chart { version, columns, draws: u32::from_be_bytes([d0, d1, d2, d3]), notes })
}
