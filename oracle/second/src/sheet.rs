//! Document 02's chart sheet (CR 1), page by page.

use entry::{Note, SheetEnd};

use crate::chart::read_chart;

fn note_line(columns: u8, note: &Note) -> String {
    let mark = if note.hold { '#' } else { 'o' };
    let deck: String = (0..columns).map(|column| if column == note.column { mark } else { '.' }).collect();
    let start = f64::from_bits(note.start).floor();

    format!("{start:>9} {deck}")
}

fn page(number: usize, columns: u8, notes: &[Note]) -> String {
    let mut text = format!("PAGE{number:>36}\n");
    for index in 0..63 {
        let line = notes.get(index).map_or(String::new(), |note| note_line(columns, note));
        text += &format!("{line:<40}\n");
    }

    text
}

/// The sheet at the buffer's start.
pub fn sheet(bytes: &[u8], buffer: &mut [u8]) -> SheetEnd {
    let Some(chart) = read_chart(bytes) else {
        return SheetEnd::Refused { number: 14 };
    };
    let mut text: String = chart.notes.chunks(63).enumerate().map(|(index, notes)| page(index + 1, chart.columns, notes)).collect();
    if chart.notes.is_empty() {
        text = page(1, chart.columns, &[]);
    }
    if text.len() > buffer.len() {
        return SheetEnd::Refused { number: 15 };
    }
    buffer[..text.len()].copy_from_slice(text.as_bytes());

    SheetEnd::Sheet { length: text.len() }
}
