//! The three lookups of notes around a moment against a brute force over exact whole numbers (`reference`) and against `second`.
//! Arguments: how many lookups (1,000,000), the seed (1). Every list stands between guard entries; all entries are compared, and the chart's bytes.
//! Prints how often each answer was met, and the differences.

use std::collections::BTreeMap;
use std::process::ExitCode;
use std::time::Instant;

use entry::{ListEnd, NearestEnd};
use jobs::{Notes, Rng, column, list_length, moment, noted_chart};
use library::lookups::{self, list_numbers, nearest_numbers};

/// Guard entries on either side of a list.
const GUARD: usize = 16;

/// Lookups of each kind in one chart.
const IN_ONE_CHART: usize = 5;

#[derive(Default)]
struct Tally {
    answers: BTreeMap<String, u64>,
    lookups: u64,
    differences: u64,
}

impl Tally {
    fn count(&mut self, answer: String, same: bool, what: impl Fn() -> String) {
        *self.answers.entry(answer).or_default() += 1;
        self.lookups += 1;
        if !same {
            self.differences += 1;
            if self.differences <= 10 {
                println!("differs: {}", what());
            }
        }
    }
}

/// A list lookup of one of the three implementations.
type List<'a, T> = &'a dyn Fn(&mut [u32]) -> T;

/// Entries that are no places, and not all alike.
fn lent_list(length: usize) -> Vec<u32> {
    (0..length + 2 * GUARD).map(|index| 0xF000_0000 + index as u32).collect()
}

/// What the brute force answers in a list of a length that often just fits, and whether the others answer alike and leave the same list.
fn same_list(rng: &mut Rng, notes: usize, exact: List<ListEnd>, second: List<ListEnd>, ours: List<(u32, u64)>) -> (ListEnd, bool) {
    let count = match exact(&mut vec![0; notes]) {
        ListEnd::Places { count } => count,
        ListEnd::Refused { .. } => rng.index(4),
    };
    let length = list_length(rng, count);
    let inner = GUARD..GUARD + length;
    let [mut expected, mut other, mut places] = [lent_list(length), lent_list(length), lent_list(length)];
    let end = exact(&mut expected[inner.clone()]);
    let same_second = second(&mut other[inner.clone()]) == end && other == expected;
    let numbers = ours(&mut places[inner]);

    (end, same_second && numbers == list_numbers(end) && places == expected)
}

fn list_name(end: ListEnd) -> String {
    match end {
        ListEnd::Places { count: 0 } => "nothing".into(),
        ListEnd::Places { count: 1 } => "one place".into(),
        ListEnd::Places { .. } => "more places".into(),
        ListEnd::Refused { number } => format!("refused {number}"),
    }
}

fn nearest_name(end: NearestEnd) -> String {
    match end {
        NearestEnd::Place { .. } => "place".into(),
        NearestEnd::Nothing => "nothing".into(),
        NearestEnd::Refused { number } => format!("refused {number}"),
    }
}

/// One lookup of each kind.
fn look(rng: &mut Rng, chart: &Notes, tally: &mut Tally) {
    let bytes = &chart.bytes[..];
    let (mut first, mut second) = (moment(rng, &chart.notes), moment(rng, &chart.notes));
    if first > second && rng.percent(80) {
        (first, second) = (second, first);
    }
    let (end, same) = same_list(
        rng,
        chart.notes.len(),
        &|list| reference::notes_between(bytes, first, second, list),
        &|list| second::notes_between(bytes, first, second, list),
        &|list| lookups::notes_between(bytes, first, second, list),
    );
    tally.count(format!("notes_between: {}", list_name(end)), same, || format!("notes_between {first:e} {second:e} {:?}", chart.notes));

    let time = moment(rng, &chart.notes);
    let (end, same) = same_list(
        rng,
        chart.notes.len(),
        &|list| reference::holds_at(bytes, time, list),
        &|list| second::holds_at(bytes, time, list),
        &|list| lookups::holds_at(bytes, time, list),
    );
    tally.count(format!("holds_at: {}", list_name(end)), same, || format!("holds_at {time:e} {:?}", chart.notes));

    let (column, time) = (column(rng, chart.columns), moment(rng, &chart.notes));
    let end = reference::nearest_note(bytes, column, time);
    let same = second::nearest_note(bytes, column, time) == end && lookups::nearest_note(bytes, column, time) == nearest_numbers(end);
    tally.count(format!("nearest_note: {}", nearest_name(end)), same, || format!("nearest_note {column} {time:e} {:?}", chart.notes));
}

fn main() -> ExitCode {
    let mut arguments = std::env::args().skip(1).map_while(|text| text.parse::<u64>().ok());
    let count = arguments.next().unwrap_or(1_000_000);
    let mut rng = Rng::new(arguments.next().unwrap_or(1));
    let mut tally = Tally::default();
    let begun = Instant::now();

    while tally.lookups < count {
        let chart = noted_chart(&mut rng);
        let before = chart.bytes.clone();
        for _ in 0..IN_ONE_CHART {
            look(&mut rng, &chart, &mut tally);
        }
        assert_eq!(chart.bytes, before, "a chart is only read");
    }

    for (answer, met) in &tally.answers {
        println!("{answer:28} {met:>12}");
    }
    println!("{} lookups: {} differences, {} s", tally.lookups, tally.differences, begun.elapsed().as_secs());
    if tally.differences == 0 { ExitCode::SUCCESS } else { ExitCode::FAILURE }
}
