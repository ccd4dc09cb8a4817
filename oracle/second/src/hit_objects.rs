//! Document 02's hit object lines (CR 13), by text: a line is taken apart at its commas and colons.

use entry::{Chart, LinesEnd, Note};

use crate::chart::{read_chart, write_chart};

const LARGEST: u64 = 33_554_431;

const MOST_LINES: usize = 16_777_215;

fn refused(number: u8) -> LinesEnd {
    LinesEnd::Refused { number }
}

/// Stores bytes where they fit.
fn store(bytes: &[u8], buffer: &mut [u8], too_short: u8) -> LinesEnd {
    match buffer.get_mut(..bytes.len()) {
        Some(part) => {
            part.copy_from_slice(bytes);
            LinesEnd::Written { length: bytes.len() }
        }
        None => refused(too_short),
    }
}

/// A time of a chart as a whole number; the f64 is below 2^25.
fn whole(time: f64) -> Option<u64> {
    (time == time.trunc()).then_some(time as u64)
}

fn line_of(note: &Note, columns: u64) -> Option<String> {
    let start = whole(f64::from_bits(note.start))?;
    // Of a whole start the exact end is whole where the duration is.
    let duration = whole(f64::from_bits(note.duration))?;
    let x = (0..).find(|x| x * columns >= u64::from(note.column) * 512)?;

    Some(if note.hold {
        format!("{x},192,{start},128,0,{}:0:0:0:0:\n", start + duration)
    } else {
        format!("{x},192,{start},1,0,0:0:0:0:\n")
    })
}

pub fn write_hit_objects(chart: &[u8], text: &mut [u8]) -> LinesEnd {
    let Some(chart) = read_chart(chart) else {
        return refused(14);
    };
    let lines: Option<String> = chart.notes.iter().map(|note| line_of(note, chart.columns.into())).collect();

    lines.map_or(refused(24), |lines| store(lines.as_bytes(), text, 25))
}

fn number(text: &str) -> Option<u64> {
    let digits = !text.is_empty() && text.len() <= 8 && text.bytes().all(|byte| byte.is_ascii_digit());
    let number = digits.then(|| text.parse::<u64>().ok())??;

    (number <= LARGEST && number.to_string() == text).then_some(number)
}

fn note_of(line: &str, columns: u64) -> Option<Note> {
    let fields: Vec<&str> = line.split(',').collect();
    let [x, "192", start, kind, "0", last] = fields[..] else {
        return None;
    };
    let start = number(start)?;
    let end = match (kind, &last.split(':').collect::<Vec<_>>()[..]) {
        ("1", ["0", "0", "0", "0", ""]) => None,
        ("128", [end, "0", "0", "0", "0", ""]) => Some(number(end).filter(|end| *end > start)?),
        _ => return None,
    };
    let column = (number(x)? * columns / 512).min(columns - 1);
    let bits = |time: u64| (time as f64).to_bits();

    Some(Note {
        column: column as u8,
        hold: end.is_some(),
        object: None,
        start: bits(start),
        duration: bits(end.map_or(0, |end| end - start)),
    })
}

/// The notes, in the order of the lines.
fn notes_of(text: &[u8], columns: u64) -> Option<Vec<Note>> {
    let text = std::str::from_utf8(text).ok()?;
    if text.is_empty() {
        return Some(Vec::new());
    }

    text.strip_suffix('\n')?.split('\n').map(|line| note_of(line, columns)).collect()
}

pub fn read_hit_objects(text: &[u8], columns: u32, chart: &mut [u8]) -> LinesEnd {
    if !(1..=9).contains(&columns) {
        return refused(26);
    }
    let Some(notes) = notes_of(text, columns.into()).filter(|notes| notes.len() <= MOST_LINES) else {
        return refused(26);
    };
    let bytes = write_chart(&Chart { version: 1, columns: columns as u8, draws: 0, notes });
    // The chart reader knows the order of notes.
    if read_chart(&bytes).is_none() {
        return refused(26);
    }

    store(&bytes, chart, 11)
}
