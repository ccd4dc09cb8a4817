//! Document 02's lookups of notes around a moment (CR 10), in one pass over a chart whose starts never fall. An exact sum or difference of two f64 is
//! kept as the nearest f64 and what is left of it, which is an f64 too.

use std::cmp::Ordering;

use entry::{Chart, ListEnd, NearestEnd, Note};

use crate::chart::read_chart;

/// `high + low` exactly, where `high` is the f64 nearest to it.
#[derive(Clone, Copy, Debug, PartialEq)]
struct Exact {
    high: f64,
    low: f64,
}

impl Exact {
    /// Knuth's sum of two f64, whose own sum is finite.
    fn sum(a: f64, b: f64) -> Self {
        let high = a + b;
        let second = high - a;
        let first = high - second;

        Self { high, low: (a - first) + (b - second) }
    }

    /// How far apart two times are.
    fn distance(a: f64, b: f64) -> Self {
        Self::sum(a.max(b), -a.min(b))
    }

    /// Rounding keeps the order, so that what is left decides only where the rounded values are equal.
    fn order(self, other: Self) -> Ordering {
        (self.high, self.low).partial_cmp(&(other.high, other.low)).expect("no NaN")
    }

    /// Whether it is at least an f64.
    fn reaches(self, time: f64) -> bool {
        self.high > time || self.high == time && self.low >= 0.0
    }
}

fn start(note: &Note) -> f64 {
    f64::from_bits(note.start)
}

/// Writes places in one pass; where the list is too short what it had is put back.
fn listed(chart: &Chart, from: impl Fn(f64) -> bool, beyond: impl Fn(f64) -> bool, wanted: impl Fn(&Note) -> bool, list: &mut [u32]) -> ListEnd {
    let lent = list.to_vec();
    let mut count = 0;

    for (place, note) in chart.notes.iter().enumerate() {
        if beyond(start(note)) {
            break;
        }
        if from(start(note)) && wanted(note) {
            if count == list.len() {
                list.copy_from_slice(&lent);
                return ListEnd::Refused { number: 19 };
            }
            list[count] = place as u32;
            count += 1;
        }
    }

    ListEnd::Places { count }
}

pub fn notes_between(chart: &[u8], first: f64, second: f64, list: &mut [u32]) -> ListEnd {
    match read_chart(chart) {
        None => ListEnd::Refused { number: 14 },
        Some(chart) if first.is_finite() && second.is_finite() && first <= second => {
            listed(&chart, |time| time >= first, |time| time > second, |_| true, list)
        }
        Some(_) => ListEnd::Refused { number: 17 },
    }
}

pub fn holds_at(chart: &[u8], time: f64, list: &mut [u32]) -> ListEnd {
    match read_chart(chart) {
        None => ListEnd::Refused { number: 14 },
        Some(chart) if time.is_finite() => {
            let covers = |note: &Note| note.hold && Exact::sum(start(note), f64::from_bits(note.duration)).reaches(time);
            listed(&chart, |_| true, |start| start > time, covers, list)
        }
        Some(_) => ListEnd::Refused { number: 17 },
    }
}

pub fn nearest_note(chart: &[u8], column: u32, time: f64) -> NearestEnd {
    let Some(chart) = read_chart(chart) else {
        return NearestEnd::Refused { number: 14 };
    };
    if !time.is_finite() {
        return NearestEnd::Refused { number: 17 };
    }
    if column >= u32::from(chart.columns) {
        return NearestEnd::Refused { number: 18 };
    }

    // Starts never fall: distances fall and then rise, and a later note is taken only where it is strictly nearer.
    let mut best: Option<(u32, Exact)> = None;
    for (place, note) in (0..).zip(&chart.notes).filter(|(_, note)| u32::from(note.column) == column) {
        let distance = Exact::distance(start(note), time);
        if best.is_none_or(|(_, least)| distance.order(least) == Ordering::Less) {
            best = Some((place, distance));
        }
        if start(note) > time {
            break;
        }
    }

    best.map_or(NearestEnd::Nothing, |(place, _)| NearestEnd::Place { place })
}
