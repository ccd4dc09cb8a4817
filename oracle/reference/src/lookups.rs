//! Document 02's lookups of notes around a moment (CR 10), by brute force: every finite f64 is a whole number of 2^-1074 ms.

use std::cmp::Ordering;

use entry::{ListEnd, NearestEnd, Note};

use crate::chart::read_chart;

/// 2,176 bits, the lowest word first, negative numbers as two's complement. An f64 takes 2,099 bits and a sign.
#[derive(Clone, Copy, PartialEq, Eq)]
struct Whole([u64; WORDS]);

const WORDS: usize = 34;

impl Whole {
    /// A finite f64 in units of 2^-1074.
    fn of(x: f64) -> Self {
        let bits = x.to_bits();
        let (exponent, fraction) = ((bits >> 52 & 0x7ff) as usize, bits & ((1 << 52) - 1));
        let (digits, power) = if exponent == 0 { (fraction, 0) } else { (fraction | 1 << 52, exponent - 1) };
        let spread = u128::from(digits) << (power % 64);
        let mut words = [0; WORDS];
        words[power / 64] = spread as u64;
        words[power / 64 + 1] = (spread >> 64) as u64;

        if x.is_sign_negative() { Self([0; WORDS]).minus(Self(words)) } else { Self(words) }
    }

    /// This number, and the other one as it is or with its bits turned, and a carry.
    fn sum(self, other: impl Fn(u64) -> u64, of: Self, carry: u64) -> Self {
        let mut words = [0; WORDS];
        let mut over = u128::from(carry);
        for (word, (a, b)) in words.iter_mut().zip(self.0.into_iter().zip(of.0)) {
            over += u128::from(a) + u128::from(other(b));
            *word = over as u64;
            over >>= 64;
        }

        Self(words)
    }

    fn plus(self, other: Self) -> Self {
        self.sum(|word| word, other, 0)
    }

    fn minus(self, other: Self) -> Self {
        self.sum(|word| !word, other, 1)
    }

    fn size(self) -> Self {
        if self.is_negative() { Self([0; WORDS]).minus(self) } else { self }
    }

    fn is_negative(self) -> bool {
        self.0[WORDS - 1] >> 63 == 1
    }
}

impl Ord for Whole {
    fn cmp(&self, other: &Self) -> Ordering {
        let down = |number: &Self| number.0.iter().rev().copied().collect::<Vec<_>>();
        other.is_negative().cmp(&self.is_negative()).then_with(|| down(self).cmp(&down(other)))
    }
}

impl PartialOrd for Whole {
    fn partial_cmp(&self, other: &Self) -> Option<Ordering> {
        Some(self.cmp(other))
    }
}

fn start(note: &Note) -> Whole {
    Whole::of(f64::from_bits(note.start))
}

fn end(note: &Note) -> Whole {
    start(note).plus(Whole::of(f64::from_bits(note.duration)))
}

/// The places of the notes that pass a test, in the list, if it is long enough.
fn listed(notes: &[Note], wanted: impl Fn(&Note) -> bool, list: &mut [u32]) -> ListEnd {
    let places: Vec<u32> = (0..).zip(notes).filter(|(_, note)| wanted(note)).map(|(place, _)| place).collect();
    let Some(front) = list.get_mut(..places.len()) else {
        return ListEnd::Refused { number: 19 };
    };
    front.copy_from_slice(&places);

    ListEnd::Places { count: places.len() }
}

pub fn notes_between(chart: &[u8], first: f64, second: f64, list: &mut [u32]) -> ListEnd {
    let Some(chart) = read_chart(chart) else {
        return ListEnd::Refused { number: 14 };
    };
    if !first.is_finite() || !second.is_finite() || Whole::of(first) > Whole::of(second) {
        return ListEnd::Refused { number: 17 };
    }
    let (first, second) = (Whole::of(first), Whole::of(second));

    listed(&chart.notes, |note| first <= start(note) && start(note) <= second, list)
}

pub fn holds_at(chart: &[u8], time: f64, list: &mut [u32]) -> ListEnd {
    let Some(chart) = read_chart(chart) else {
        return ListEnd::Refused { number: 14 };
    };
    if !time.is_finite() {
        return ListEnd::Refused { number: 17 };
    }
    let time = Whole::of(time);

    listed(&chart.notes, |note| note.hold && start(note) <= time && time <= end(note), list)
}

pub fn nearest_note(chart: &[u8], column: u32, time: f64) -> NearestEnd {
    let Some(chart) = read_chart(chart) else {
        return NearestEnd::Refused { number: 14 };
    };
    if !time.is_finite() {
        return NearestEnd::Refused { number: 17 };
    }
    if column >= u32::from(chart.columns) {
        return NearestEnd::Refused { number: 18 };
    }
    let time = Whole::of(time);
    let found = (0..)
        .zip(&chart.notes)
        .filter(|(_, note)| u32::from(note.column) == column)
        .min_by_key(|(place, note)| (start(note).minus(time).size(), start(note), *place));

    found.map_or(NearestEnd::Nothing, |(place, _)| NearestEnd::Place { place })
}
