//! Charts for the reader.

use entry::{NOTE_BYTES, OLD_NOTE_BYTES};

use crate::rng::Rng;

const LAST_END: f64 = 33_554_431.0;

#[derive(Clone, Copy)]
struct Note {
    column: u8,
    hold: bool,
    /// Written in version 2 only.
    object: u16,
    start: f64,
    duration: f64,
}

struct Parts {
    /// The header's.
    version: u8,
    /// Whether the notes are those of version 1.
    old_notes: bool,
    columns: u8,
    count: u32,
    draws: u32,
    notes: Vec<Note>,
    /// Bits set in a note's zero bits.
    zero_bits: Option<(usize, u32)>,
}

impl Parts {
    fn bytes(&self) -> Vec<u8> {
        let mut bytes = vec![self.version << 4 | self.columns & 15];
        bytes.extend(&self.count.to_be_bytes()[1..]);
        bytes.extend(self.draws.to_be_bytes());

        for (index, note) in self.notes.iter().enumerate() {
            let set = self
                .zero_bits
                .filter(|(at, _)| *at == index)
                .map_or(0, |(_, bits)| bits);
            let head = u32::from(note.column) << 4 | u32::from(note.hold) << 3;
            if self.old_notes {
                bytes.push((head | set) as u8);
            } else {
                let head = head << 16 | u32::from(note.object) << 7 | set;
                bytes.extend(&head.to_be_bytes()[1..]);
            }
            bytes.extend(note.start.to_bits().to_be_bytes());
            bytes.extend(note.duration.to_bits().to_be_bytes());
        }

        bytes
    }
}

/// An object's index. The reader takes any, in any order.
pub fn index(rng: &mut Rng) -> u16 {
    let most = rng.pick(&[1, 4, 300, 4096]);
    let index = rng.below(most) as u16;

    if rng.percent(50) { index } else { 4095 - index }
}

fn parts(rng: &mut Rng) -> Parts {
    let old = rng.percent(50);
    let columns = rng.between(1, 9) as u8;
    let most = if rng.percent(20) { 60 } else { 6 };
    let count = rng.index(most);
    let mut start = rng.pick(&[0.0, 5e-324, 0.1, 1000.0]);
    let mut notes: Vec<Note> = (0..count)
        .map(|_| {
            start += match rng.below(6) {
                0 | 1 => 0.0,
                2 => rng.uniform(0.0, 1e6),
                _ => rng.uniform(0.0, 500.0).round(),
            };
            start = start.min(LAST_END - 1.0);
            let hold = rng.percent(50);
            let duration = match (hold, rng.below(6)) {
                (false, _) => 0.0,
                (true, 0) => rng.pick(&[5e-324, 1e-300, 100.0, 0.1]),
                // At the bound: exact where the start is whole, else just below.
                (true, 1) => LAST_END - start.ceil(),
                (true, _) => rng.uniform(1.0, 3000.0).min(LAST_END - start.ceil()),
            };
            Note {
                column: rng.below(u64::from(columns)) as u8,
                hold,
                object: index(rng),
                start,
                duration,
            }
        })
        .collect();
    notes.sort_by(|a, b| a.start.total_cmp(&b.start).then(a.column.cmp(&b.column)));

    Parts {
        version: if old { 1 } else { 2 },
        old_notes: old,
        columns,
        count: count as u32,
        draws: rng.word() as u32,
        notes,
        zero_bits: None,
    }
}

/// A chart that the reader takes, of either version.
pub fn chart(rng: &mut Rng) -> Vec<u8> {
    parts(rng).bytes()
}

/// Notes of the other version than the header's. Half have as many bytes as the header says, since 17 notes of 19 bytes are as long as 19 of 17.
fn other_notes(rng: &mut Rng, parts: &mut Parts) {
    parts.version = if parts.old_notes { 2 } else { 1 };
    if rng.percent(50) {
        let (there, said) = if parts.old_notes { (NOTE_BYTES, OLD_NOTE_BYTES) } else { (OLD_NOTE_BYTES, NOTE_BYTES) };
        let note = parts.notes[0];
        parts.notes = vec![note; there];
        parts.count = said as u32;
    }
}

/// A chart with one fault; a few are still taken.
pub fn damaged_chart(rng: &mut Rng) -> Vec<u8> {
    let mut parts = parts(rng);

    if parts.notes.is_empty() {
        parts.notes.push(Note {
            column: 0,
            hold: true,
            object: 0,
            start: 5.0,
            duration: 5.0,
        });
        parts.count = 1;
    }

    let index = rng.index(parts.notes.len());
    let last = parts.notes.len() - 1;

    match rng.below(18) {
        0 => parts.version = rng.pick(&[0, 3, 4, 15]),
        1 => parts.columns = rng.pick(&[0, 10, 15]),
        2 => parts.count = rng.pick(&[0, parts.count + 1, parts.count - 1, 0xff_ffff]),
        3 => {
            let mut bytes = parts.bytes();
            bytes.truncate(rng.index(bytes.len()));
            return bytes;
        }
        4 => {
            let mut bytes = parts.bytes();
            bytes.extend(std::iter::repeat_n(0, rng.pick(&[1, 16, 17, 18, 19])));
            return bytes;
        }
        5 => parts.notes[index].column = rng.pick(&[parts.columns, 15]),
        6 if parts.old_notes => parts.zero_bits = Some((index, rng.pick(&[1, 2, 4, 7]))),
        6 => parts.zero_bits = Some((index, rng.pick(&[1, 2, 4, 8, 16, 32, 64, 127]))),
        7 => parts.notes[index].start = rng.pick(&[-0.0, f64::NAN, f64::INFINITY, -1.0, -5e-324]),
        8 => {
            parts.notes[index].duration = rng.pick(&[
                -0.0,
                f64::NAN,
                f64::INFINITY,
                -1.0,
                0.0,
                -5e-324,
                f64::NEG_INFINITY,
            ]);
        }
        9 => parts.notes[index].hold = !parts.notes[index].hold,
        10 if last > 0 => {
            let before = parts.notes[last - 1].start;
            parts.notes[last].start = rng.pick(&[before.next_down(), before, before - 1.0]);
        }
        // Two notes of one start, in either order of their columns: the order before change request 5 took both.
        11 if last > 0 => {
            let at = rng.index(last);
            parts.notes[at + 1].start = parts.notes[at].start;
            parts.notes[at + 1].duration = parts.notes[at].duration;
            parts.notes[at + 1].hold = parts.notes[at].hold;
            parts.notes[at + 1].column = rng.below(u64::from(parts.columns)) as u8;
        }
        12 => {
            let mut bytes = parts.bytes();
            let bit = rng.index(bytes.len() * 8);
            bytes[bit / 8] ^= 0x80 >> (bit % 8);
            return bytes;
        }
        13 => other_notes(rng, &mut parts),
        // The last note at the bound of the sum, or beyond by less than a float shows.
        _ => {
            let (start, duration) = match rng.below(8) {
                0 => (LAST_END, 0.0),
                1 => (LAST_END.next_up(), 0.0),
                2 => (LAST_END, 5e-324),
                3 => (LAST_END - 1.0, 1.0),
                4 => (LAST_END - 1.0, 1.0_f64.next_up()),
                5 => (LAST_END - 1.0, 1.0_f64.next_down()),
                6 => {
                    let start = rng.uniform(16_777_216.0, LAST_END);
                    let exact = LAST_END - start;
                    (
                        start,
                        rng.pick(&[exact, exact.next_up(), exact.next_down()]),
                    )
                }
                _ => (
                    33_554_430.999_999_996,
                    rng.pick(&[1e-9, 3.8e-9, 3.725290298461914e-9, 5e-9]),
                ),
            };
            let note = &mut parts.notes[last];
            *note = Note {
                column: note.column,
                hold: duration != 0.0,
                object: note.object,
                start,
                duration,
            };
        }
    }

    parts.bytes()
}
