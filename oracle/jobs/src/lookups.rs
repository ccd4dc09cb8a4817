//! Charts and times for the lookups of notes around a moment.

use entry::{Chart, Note};

use crate::{
    charts::{damaged_chart, index},
    rng::Rng,
};

const LAST_END: f64 = 33_554_431.0;

/// A chart with its notes; none where it is damaged.
pub struct Notes {
    pub bytes: Vec<u8>,
    pub columns: u8,
    pub notes: Vec<Note>,
}

/// A few f64 up or down.
fn nudged(rng: &mut Rng, x: f64, most: i64) -> f64 {
    let steps = rng.between(-most, most);
    let step = |x: f64| if steps > 0 { x.next_up() } else { x.next_down() };

    (0..steps.abs()).fold(x, |x, _| step(x))
}

/// A time from 0 to the last end, of any size: whole, at random, a power of two and next to it, the smallest there are.
fn time(rng: &mut Rng) -> f64 {
    let time = match rng.below(10) {
        0 | 1 => rng.below(20) as f64,
        2 => rng.uniform(0.0, 3.0),
        3 => f64::from_bits(rng.below(50)),
        4 => nudged(rng, 1000.0, 3),
        5 => {
            let power = rng.between(0, 24) as i32;
            nudged(rng, 2_f64.powi(power), 2)
        }
        6 => rng.pick(&[0.1, 0.2, 0.3, 0.1 + 0.2, 0.7, 1e-300, 5e-324, f64::MIN_POSITIVE, f64::EPSILON, 1.0 + f64::EPSILON]),
        7 => {
            let bits = rng.below(1049 << 52);
            f64::from_bits(bits)
        }
        8 => nudged(rng, LAST_END, 3),
        _ => rng.uniform(0.0, LAST_END),
    };

    time.clamp(0.0, LAST_END)
}

/// A duration with which the note may stand: the exact end is at most the last one. `None` where there is none above 0.
fn duration(rng: &mut Rng, start: f64, common_end: f64) -> Option<f64> {
    let most = LAST_END - start.ceil();
    let duration = match rng.below(4) {
        0 => time(rng),
        1 => rng.uniform(0.0, most),
        // Several holds that end together, or as near as f64 come.
        _ => nudged(rng, common_end - start, 1),
    };

    (duration > 0.0).then_some(duration.min(most)).filter(|duration| *duration > 0.0)
}

fn notes(rng: &mut Rng, version: u8, columns: u8, count: usize) -> Vec<Note> {
    let common_end = time(rng);
    let mut starts: Vec<f64> = Vec::new();
    for index in 0..count {
        let start = if index > 0 && rng.percent(35) { starts[rng.index(index)] } else { time(rng) };
        starts.push(start);
    }
    starts.sort_by(f64::total_cmp);

    let holds = rng.pick(&[0, 30, 70, 100]);
    let used = rng.between(1, columns.into()) as u64;
    let note = |start: f64| {
        let column = rng.below(used) as u8;
        let lasts = if rng.percent(holds) { duration(rng, start, common_end) } else { None };
        let object = (version == 2).then(|| index(rng));
        Note { column, hold: lasts.is_some(), object, start: start.to_bits(), duration: lasts.unwrap_or(0.0).to_bits() }
    };

    let mut notes: Vec<Note> = starts.into_iter().map(note).collect();
    // Times from 0 have their patterns' order.
    notes.sort_by_key(|note| (note.start, note.column));

    notes
}

/// A chart of a number of notes, of either version; one in thirty is damaged.
fn chart(rng: &mut Rng, count: impl Fn(&mut Rng) -> usize) -> Notes {
    if rng.below(30) == 0 {
        let bytes = damaged_chart(rng);
        let chart = second::read_chart(&bytes);
        return Notes { bytes, columns: 9, notes: chart.map_or(Vec::new(), |chart| chart.notes) };
    }
    let columns = rng.between(1, 9) as u8;
    let version = rng.between(1, 2) as u8;
    let count = count(rng);
    let notes = notes(rng, version, columns, count);
    let chart = Chart { version, columns, notes, draws: rng.word() as u32 };

    Notes { bytes: second::write_chart(&chart), columns, notes: chart.notes }
}

/// A chart for lookups.
pub fn noted_chart(rng: &mut Rng) -> Notes {
    chart(rng, |rng| {
        let most = match rng.below(1000) {
            0 => 3000,
            1..150 => 60,
            _ => 10,
        };
        rng.index(most)
    })
}

/// A chart for a sheet, of 0 to 1,000 notes: often as many as fill pages, or one more or fewer.
pub fn sheet_chart(rng: &mut Rng) -> Notes {
    chart(rng, |rng| match rng.below(4) {
        0 => (63 * rng.index(16) + rng.index(3)).saturating_sub(1),
        1 => rng.index(64),
        _ => rng.index(1001),
    })
}

/// The length of a buffer for the sheet of so many notes: exactly enough, a byte or a page less, none, or more.
pub fn sheet_length(rng: &mut Rng, notes: usize) -> usize {
    let exact = 2624 * notes.div_ceil(63).max(1);
    match rng.below(8) {
        0..3 => exact,
        3 => exact - 1,
        4 => exact - 2624,
        5 => rng.index(exact),
        _ => exact + 1 + rng.index(5000),
    }
}

/// A time to look up: at, next to and between starts, ends and middles, before and far beyond the chart, or not finite.
pub fn moment(rng: &mut Rng, notes: &[Note]) -> f64 {
    let pick = |rng: &mut Rng| notes[rng.index(notes.len())];
    let start = |note: Note| f64::from_bits(note.start);
    let end = |note: Note| f64::from_bits(note.start) + f64::from_bits(note.duration);

    match rng.below(if notes.is_empty() { 4 } else { 16 }) {
        0 => time(rng),
        1 => -time(rng),
        2 => rng.pick(&[-0.0, 0.0, 5e-324, -5e-324, 1e308, -1e308, f64::MAX, f64::MIN, LAST_END]),
        3 => {
            let finite = rng.percent(50);
            if finite { nudged(rng, 2.0 * LAST_END, 2) } else { rng.pick(&[f64::NAN, f64::INFINITY, f64::NEG_INFINITY]) }
        }
        4..8 => {
            let at = start(pick(rng));
            nudged(rng, at, 1)
        }
        8..12 => {
            let at = end(pick(rng));
            nudged(rng, at, 1)
        }
        12 | 13 => {
            let (a, b) = (start(pick(rng)), start(pick(rng)));
            nudged(rng, a / 2.0 + b / 2.0, 1)
        }
        14 => {
            // The middle of neighbours of one column, where it is an f64.
            let a = pick(rng);
            let b = notes.iter().find(|b| b.column == a.column && b.start > a.start).map_or(a, |b| *b);
            nudged(rng, (start(a) + start(b)) / 2.0, 1)
        }
        _ => {
            let (a, b) = (start(pick(rng)), end(pick(rng)));
            rng.uniform(a.min(b), a.max(b))
        }
    }
}

/// A column: mostly on the deck, else one beyond, or any number.
pub fn column(rng: &mut Rng, columns: u8) -> u32 {
    match rng.below(16) {
        0 => columns.into(),
        1 => rng.word() as u32,
        2 => rng.pick(&[u32::MAX, 256, 255, 1 << 31]),
        _ => rng.below(columns.into()) as u32,
    }
}

/// The length of a list for so many places: exactly as long, one shorter, none, or longer.
pub fn list_length(rng: &mut Rng, count: usize) -> usize {
    match rng.below(6) {
        0 | 1 => count,
        2 => count.saturating_sub(1),
        3 => 0,
        _ => count + 1 + rng.index(5),
    }
}
