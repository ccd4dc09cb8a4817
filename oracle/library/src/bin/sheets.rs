//! The chart sheet against `second`, on charts of 0 to 1,000 notes. Arguments: how many charts (100,000), the seed (1).
//! A buffer is often exactly as long as the sheet, or one byte shorter, and stands between guard bytes; all bytes are compared, and the chart's.
//! Prints how often each answer was met, and the differences.

use std::collections::BTreeMap;
use std::process::ExitCode;
use std::time::Instant;

use entry::SheetEnd;
use jobs::{Rng, sheet_chart, sheet_length};
use library::sheets::{sheet, sheet_numbers};

/// Guard bytes on either side of a buffer.
const GUARD: usize = 64;

/// Bytes that are not all alike.
fn lent(rng: &mut Rng, length: usize) -> Vec<u8> {
    let first = rng.word() as u8;

    (0..length + 2 * GUARD).map(|index| first.wrapping_add((index % 251) as u8)).collect()
}

fn name(end: SheetEnd) -> String {
    match end {
        SheetEnd::Sheet { length } => format!("{:>2} pages", length / 2624),
        SheetEnd::Refused { number } => format!("refused {number}"),
    }
}

fn main() -> ExitCode {
    let mut arguments = std::env::args().skip(1).map_while(|text| text.parse::<u64>().ok());
    let count = arguments.next().unwrap_or(100_000);
    let mut rng = Rng::new(arguments.next().unwrap_or(1));
    let mut answers: BTreeMap<String, u64> = BTreeMap::new();
    let mut differences = 0;
    let begun = Instant::now();

    for _ in 0..count {
        let chart = sheet_chart(&mut rng);
        let before = chart.bytes.clone();
        let length = sheet_length(&mut rng, chart.notes.len());
        let mut expected = lent(&mut rng, length);
        let mut ours = expected.clone();
        let inner = GUARD..GUARD + length;
        let end = second::sheet(&chart.bytes, &mut expected[inner.clone()]);
        let numbers = sheet(&chart.bytes, &mut ours[inner]);

        *answers.entry(name(end)).or_default() += 1;
        if numbers != sheet_numbers(end) || ours != expected || chart.bytes != before {
            differences += 1;
            if differences <= 10 {
                println!("differs: {end:?} {numbers:?}, {} notes, a buffer of {length}", chart.notes.len());
            }
        }
    }

    for (answer, met) in &answers {
        println!("{answer:12} {met:>12}");
    }
    println!("{count} sheets: {differences} differences, {} s", begun.elapsed().as_secs());
    if differences == 0 { ExitCode::SUCCESS } else { ExitCode::FAILURE }
}
