//! The lookups of notes around a moment, in charts of two sizes, beside the reading of the chart, which each of them begins with.

use entry::{Chart, Note};
use jobs::Rng;
use library::lookups::{holds_at, list_numbers, nearest_note, nearest_numbers, notes_between};

use crate::tables::{count, head, row, us};
use crate::time::{Plan, medians, run};

const COLUMNS: u8 = 7;

/// A note each 10 ms, three of ten held for up to half a second. Times have fractions.
fn notes(seed: u64, count: usize) -> Vec<Note> {
    let mut rng = Rng::new(seed);
    let note = |index: usize| {
        let hold = rng.percent(30);
        let start = 10.0 * index as f64 + rng.unit();
        let duration = if hold { rng.uniform(50.0, 500.0) } else { 0.0 };
        let object = Some((index % 4095) as u16);
        Note { column: rng.below(COLUMNS.into()) as u8, hold, object, start: start.to_bits(), duration: duration.to_bits() }
    };

    (0..count).map(note).collect()
}

/// The answers of one time, held to the brute force.
fn compare(chart: &[u8], time: f64, list: &mut [u32]) {
    let mut expected = list.to_vec();
    let between = reference::notes_between(chart, time, time + 1000.0, &mut expected);
    assert_eq!((notes_between(chart, time, time + 1000.0, list), &list[..]), (list_numbers(between), &expected[..]));
    let held = reference::holds_at(chart, time, &mut expected);
    assert_eq!((holds_at(chart, time, list), &list[..]), (list_numbers(held), &expected[..]));
    assert_eq!(nearest_note(chart, 3, time), nearest_numbers(reference::nearest_note(chart, 3, time)));
}

pub fn table(seed: u64, plan: Plan) {
    head(
        "Lookups in a chart, ours alone",
        &["time", "notes", "reading alone, µs", "notes in a second, µs", "nearest note, µs", "holds at an instant, µs"],
    );
    for size in [16_000, 200_000] {
        let notes = notes(seed, size);
        let chart = second::write_chart(&Chart { version: 2, columns: COLUMNS, draws: 0, notes });
        let mut list = vec![u32::MAX; size];
        for (name, percent) in [("near the start", 1), ("in the middle", 50), ("near the end", 99)] {
            let time = 10.0 * (size * percent / 100) as f64 + 3.25;
            compare(&chart, time, &mut list);
            let (mut other, ready) = (list.clone(), || ());
            let times = medians(
                plan.runs,
                [
                    &mut || run(plan.least, ready, |()| library::read(&chart)),
                    &mut || run(plan.least, ready, |()| notes_between(&chart, time, time + 1000.0, &mut list)),
                    &mut || run(plan.least, ready, |()| nearest_note(&chart, 3, time)),
                    &mut || run(plan.least, ready, |()| holds_at(&chart, time, &mut other)),
                ],
            );
            row(&[[name.to_string(), count(size)].as_slice(), &times.map(us)].concat());
        }
    }
}
