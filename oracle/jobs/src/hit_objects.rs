//! Charts with whole times, and texts of hit object lines.

use crate::{charts::damaged_chart, lookups::noted_chart, rng::Rng};

const LAST_END: u64 = 33_554_431;

/// A number of up to so many bits, each length as often.
fn of_bits(rng: &mut Rng, most: u64) -> u64 {
    let bits = rng.below(most + 1);

    rng.below(1 << bits)
}

/// A time that often equals or follows the one before.
fn next_time(rng: &mut Rng, before: u64) -> u64 {
    let time = match rng.below(8) {
        0 | 1 => before,
        2 | 3 => before + rng.below(3),
        4 | 5 => before + rng.below(2_000),
        6 => before + of_bits(rng, 24),
        _ => rng.pick(&[0, 9, 10, 99_999_999, 10_000_000, LAST_END - 1, LAST_END]).max(before),
    };

    time.min(LAST_END)
}

/// The bytes of a chart of either version; one in ten has another kind of times, or is damaged.
pub fn whole_chart(rng: &mut Rng) -> Vec<u8> {
    match rng.below(20) {
        0 => return damaged_chart(rng),
        1 => return noted_chart(rng).bytes,
        _ => {}
    }
    let (version, columns) = (1 + rng.below(2), 1 + rng.below(9));
    let count = rng.index(9);
    let mut notes = Vec::new();
    let mut start = 0;
    for _ in 0..count {
        start = next_time(rng, start);
        let hold = rng.percent(50) && start < LAST_END;
        let duration = if hold { next_time(rng, start + 1).max(start + 1) - start } else { 0 };
        notes.push((start, rng.below(columns), hold, duration));
    }
    notes.sort_by_key(|note| (note.0, note.1));
    // a fraction of a millisecond, in one of the times
    let split = if rng.percent(15) { rng.index(2 * count + 1) } else { usize::MAX };
    let mut bytes = vec![(version * 16 + columns) as u8, 0, 0, count as u8];
    bytes.extend((rng.word() as u32).to_be_bytes());
    for (index, (start, column, hold, duration)) in notes.into_iter().enumerate() {
        let part = rng.pick(&[0.5, 0.25, 2f64.powi(-28), -0.5]);
        let time = |time: u64, here: bool| if here && time > 0 { time as f64 + part } else { time as f64 };
        let first = (column << 4) + if hold { 8 } else { 0 };
        if version == 1 {
            bytes.push(first as u8);
        } else {
            bytes.extend(&((first << 16) + (rng.below(4096) << 7)).to_be_bytes()[5..]);
        }
        bytes.extend(time(start, split == 2 * index).to_be_bytes());
        bytes.extend(time(duration, hold && split == 2 * index + 1).to_be_bytes());
    }

    bytes
}

/// A number as a line may have it, and now and then as it may not.
fn number(rng: &mut Rng, value: u64) -> String {
    match rng.below(400) {
        0 => format!("0{value}"),
        1 => format!("+{value}"),
        2 => format!("-{value}"),
        3 => format!("{value}.0"),
        4 => String::new(),
        5 => (LAST_END + 1).to_string(),
        6 => "4294967296".into(),
        7 => "18446744073709551616".into(),
        8 => format!(" {value}"),
        _ => value.to_string(),
    }
}

fn line(rng: &mut Rng, start: u64, end: u64) -> String {
    let x = match rng.below(6) {
        0 => rng.below(512),
        1 => rng.below(600),
        2 => of_bits(rng, 25),
        3 => rng.pick(&[0, 1, 511, 512, 513, LAST_END]),
        _ => {
            let columns = 1 + rng.below(9);
            (rng.below(columns) * 512).div_ceil(columns)
        }
    };
    let (x, first) = (number(rng, x), number(rng, start));
    match rng.below(60) {
        0 => format!("{x},191,{first},1,0,0:0:0:0:\n"),
        1 => format!("{x},192,{first},5,0,0:0:0:0:\n"),
        2 => format!("{x},192,{first},128,0,{end}:0:0:0:\n"),
        3 => format!("{x},192,{first},1,0,0:0:0:0:\r\n"),
        4 => "\n".into(),
        5 => format!("{x},192,{first},128,0,{start}:0:0:0:0:\n"),
        6..=30 => format!("{x},192,{first},128,0,{}:0:0:0:0:\n", number(rng, end)),
        _ => format!("{x},192,{first},1,0,0:0:0:0:\n"),
    }
}

/// A text of lines in order, or nearly; half of the texts are damaged byte by byte.
pub fn lines_text(rng: &mut Rng) -> Vec<u8> {
    let mut text = Vec::new();
    let mut start = 0;
    for _ in 0..rng.index(7) {
        start = if rng.percent(3) { rng.below(start + 1) } else { next_time(rng, start) };
        let end = if rng.percent(97) { next_time(rng, start + 1).max(start + 1).min(LAST_END) } else { rng.below(start + 2) };
        text.extend(line(rng, start, end).bytes());
    }
    if rng.percent(70) || text.is_empty() {
        return text;
    }
    for _ in 0..1 + rng.index(2) {
        let at = rng.index(text.len());
        let byte = rng.pick(b"0123456789,:\n\r +-x\x00\xff");
        match rng.below(4) {
            0 => text[at] = byte,
            1 => text.insert(at, byte),
            2 => text.truncate(at + 1),
            _ if text.len() > 1 => drop(text.remove(at)),
            _ => {}
        }
    }

    text
}

/// A column count, one in twenty out of its range.
pub fn lines_columns(rng: &mut Rng) -> u32 {
    if rng.percent(5) { rng.pick(&[0, 10, 15, 256 + 4, u32::MAX]) } else { 1 + rng.below(9) as u32 }
}

/// A buffer for an answer of so many bytes: exact, a byte short, or longer.
pub fn buffer_length(rng: &mut Rng, length: usize) -> usize {
    match rng.below(6) {
        0 | 1 => length,
        2 => length.saturating_sub(1),
        3 => rng.index(length + 1),
        _ => length + rng.index(40),
    }
}
