//! Inputs for a comparison: buffers that are not zero, so that bytes which should keep their values show. Recorded answers.

use entry::{JobEnd, chart_bytes};
use jobs::{Need, Rng};

/// A chart of the most notes that a random job is given room for.
pub const LARGEST: usize = chart_bytes(100_000);

/// A job: its record, chart buffer and allowance.
pub struct Job {
    pub record: Vec<u8>,
    pub buffer: Vec<u8>,
    pub allowance: u32,
}

/// A random job; one in four is damaged. Allowance and buffer are often exactly what it needs, or one off.
pub fn job(rng: &mut Rng, plenty: &mut [u8]) -> Job {
    let damaged = rng.percent(25);
    let record = if damaged { jobs::damaged(rng) } else { jobs::record(rng) };
    let need = match second::job(&record, plenty, 1_000_000) {
        JobEnd::Chart { length, .. } => {
            let chart = second::read_chart(&plenty[..length]).expect("a written chart is read");
            Some(Need { draws: chart.draws, length })
        }
        JobEnd::Refused { .. } => None,
    };
    let (allowance, length) = jobs::lent(rng, need);

    Job { record, buffer: lent_bytes(length.min(LARGEST)), allowance }
}

/// Bytes that are not zero, and not all alike.
pub fn lent_bytes(length: usize) -> Vec<u8> {
    (0..length).map(|i| (i % 251) as u8 + 1).collect()
}

/// An entry of a list that the program `vectors` replays: what goes in, numbers of 32 bits, and the bytes that are due, each behind its
/// length in 32 bits. All numbers have their highest byte first; the first three are the buffer's length, the allowance and the answer's.
pub fn entry(input: &[u8], numbers: &[u32], due: &[u8]) -> Vec<u8> {
    let numbers: Vec<u8> = numbers.iter().flat_map(|number| number.to_be_bytes()).collect();
    let part = |part: &[u8]| [&(part.len() as u32).to_be_bytes(), part].concat();

    [part(input), part(&numbers), part(due)].concat()
}

#[cfg(test)]
mod tests {
    use entry::{Chart, ListEnd, NearestEnd, Note};

    /// A hold at 0.1 for 0.2 in column 0, circles at 1 and 3 there, and one at 3 in column 1.
    fn chart() -> Vec<u8> {
        let note = |column, start: f64, duration: f64| Note {
            column,
            hold: duration > 0.0,
            object: Some(7),
            start: start.to_bits(),
            duration: duration.to_bits(),
        };
        let notes = vec![note(0, 0.1, 0.2), note(0, 1.0, 0.0), note(0, 3.0, 0.0), note(1, 3.0, 0.0)];

        second::write_chart(&Chart { version: 2, columns: 2, draws: 0, notes })
    }

    /// The exact end of the hold lies between 0.1 + 0.2 rounded down and up.
    #[test]
    fn ends_are_exact() {
        for holds_at in [reference::holds_at, second::holds_at] {
            let mut list = [7; 2];
            assert_eq!(holds_at(&chart(), 0.1 + 0.2, &mut list), ListEnd::Places { count: 0 });
            assert_eq!(list, [7, 7]);
            assert_eq!(holds_at(&chart(), (0.1_f64 + 0.2).next_down(), &mut list), ListEnd::Places { count: 1 });
            assert_eq!(list, [0, 7]);
        }
    }

    #[test]
    fn starts_are_included_and_short_lists_untouched() {
        for notes_between in [reference::notes_between, second::notes_between] {
            let mut list = [7; 4];
            assert_eq!(notes_between(&chart(), 1.0, 3.0, &mut list), ListEnd::Places { count: 3 });
            assert_eq!(list, [1, 2, 3, 7]);
            let mut list = [7; 2];
            assert_eq!(notes_between(&chart(), 1.0, 3.0, &mut list), ListEnd::Refused { number: 19 });
            assert_eq!(list, [7, 7]);
            assert_eq!(notes_between(&chart(), 3.0, 1.0, &mut list), ListEnd::Refused { number: 17 });
        }
    }

    #[test]
    fn the_earlier_of_two_equally_near() {
        for nearest_note in [reference::nearest_note, second::nearest_note] {
            assert_eq!(nearest_note(&chart(), 0, 2.0), NearestEnd::Place { place: 1 });
            assert_eq!(nearest_note(&chart(), 0, 2.0_f64.next_up()), NearestEnd::Place { place: 2 });
            assert_eq!(nearest_note(&chart(), 0, -0.0), NearestEnd::Place { place: 0 });
            assert_eq!(nearest_note(&chart(), 2, 2.0), NearestEnd::Refused { number: 18 });
        }
    }
}
