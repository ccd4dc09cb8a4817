//! Hit object lines, written and read, against `second`.
//! Arguments: how many charts (200,000), how many texts (200,000), the seed (1). Every buffer stands between guard bytes; all bytes are compared.
//! What was written is read again, as a chart of version 1, and what was read is written and read again. Prints how often each answer was met, and the differences.

use std::collections::BTreeMap;
use std::process::ExitCode;

use entry::LinesEnd;
use jobs::{Rng, buffer_length, lines_columns, lines_text, whole_chart};
use library::hit_objects::{self as ours, lines_numbers};

/// Guard bytes on either side of a buffer.
const GUARD: usize = 16;

#[derive(Default)]
struct Tally {
    answers: BTreeMap<String, u64>,
    differences: u64,
}

impl Tally {
    fn count(&mut self, what: &str, end: LinesEnd, same: bool, input: &[u8]) {
        let answer = match end {
            LinesEnd::Written { .. } => "written".into(),
            LinesEnd::Refused { number } => format!("refused {number}"),
        };
        *self.answers.entry(format!("{what}: {answer}")).or_default() += 1;
        if !same {
            self.differences += 1;
            if self.differences <= 10 {
                println!("differs: {what} {answer} {:?}", String::from_utf8_lossy(input));
            }
        }
    }
}

/// Bytes that are not all alike.
fn lent(length: usize) -> Vec<u8> {
    (0..length + 2 * GUARD).map(|index| 0xA0 ^ index as u8).collect()
}

/// What `second` answers in a buffer that often just fits, whether the library answers alike and leaves the same bytes, and what was written.
fn compared(
    rng: &mut Rng,
    second: &dyn Fn(&mut [u8]) -> LinesEnd,
    ours: &dyn Fn(&mut [u8]) -> (u32, u64),
) -> (LinesEnd, bool, Option<Vec<u8>>) {
    let whole = match second(&mut vec![0; 4096]) {
        LinesEnd::Written { length } => length,
        LinesEnd::Refused { .. } => rng.index(60),
    };
    let length = buffer_length(rng, whole);
    let inner = GUARD..GUARD + length;
    let [mut expected, mut bytes] = [lent(length), lent(length)];
    let end = second(&mut expected[inner.clone()]);
    let same = ours(&mut bytes[inner.clone()]) == lines_numbers(end) && bytes == expected;
    let written = match end {
        LinesEnd::Written { length } => Some(bytes[inner][..length].to_vec()),
        LinesEnd::Refused { .. } => None,
    };

    (end, same, written)
}

/// A chart as version 1 has it, with no objects and no draws.
fn old(chart: &[u8]) -> Vec<u8> {
    let size = if chart[0] / 16 == 1 { 17 } else { 19 };
    let mut bytes = vec![16 + chart[0] % 16, chart[1], chart[2], chart[3], 0, 0, 0, 0];
    for note in chart[8..].chunks(size) {
        bytes.push(note[0] & 0xf8);
        bytes.extend(&note[size - 16..]);
    }

    bytes
}

fn main() -> ExitCode {
    let mut arguments = std::env::args().skip(1).map_while(|text| text.parse::<u64>().ok());
    let (charts, texts) = (arguments.next().unwrap_or(200_000), arguments.next().unwrap_or(200_000));
    let mut rng = Rng::new(arguments.next().unwrap_or(1));
    let mut tally = Tally::default();

    for _ in 0..charts {
        let chart = whole_chart(&mut rng);
        let (end, same, text) =
            compared(&mut rng, &|buffer| second::write_hit_objects(&chart, buffer), &|buffer| ours::write_hit_objects(&chart, buffer));
        tally.count("write", end, same, &chart);
        if let Some(text) = text {
            let old = old(&chart);
            let mut made = vec![0; old.len()];
            let answer = ours::read_hit_objects(&text, u32::from(chart[0] % 16), &mut made);
            let same = answer == (0, old.len() as u64) && made == old;
            tally.count("read what was written", LinesEnd::Written { length: old.len() }, same, &text);
        }
    }
    for _ in 0..texts {
        let (text, columns) = (lines_text(&mut rng), lines_columns(&mut rng));
        let (end, same, chart) = compared(
            &mut rng,
            &|buffer| second::read_hit_objects(&text, columns, buffer),
            &|buffer| ours::read_hit_objects(&text, columns, buffer),
        );
        tally.count("read", end, same, &text);
        if let Some(chart) = chart {
            let mut lines = vec![0; text.len() + 64];
            let (number, length) = ours::write_hit_objects(&chart, &mut lines);
            let mut again = vec![0; chart.len()];
            let answer = ours::read_hit_objects(&lines[..length as usize], columns, &mut again);
            tally.count("read again", end, number == 0 && answer == (0, chart.len() as u64) && again == chart, &text);
        }
    }

    for (answer, met) in &tally.answers {
        println!("{answer:32} {met:>12}");
    }
    println!("{charts} charts and {texts} texts: {} differences", tally.differences);
    if tally.differences == 0 { ExitCode::SUCCESS } else { ExitCode::FAILURE }
}
