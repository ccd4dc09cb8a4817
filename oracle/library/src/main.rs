//! The proved library against the unchanged Rust, on random and damaged jobs and charts, and under every allowance.
//! Arguments: how many jobs (100,000), how many small jobs for the allowances (1,000), the seed (1).
//! Every lent buffer stands between guard bytes; record and guards must stay as they are. Prints the answers and the differences.

use std::collections::BTreeMap;
use std::process::ExitCode;
use std::time::Instant;

use compare::{LARGEST, lent_bytes};
use entry::{HEADER_BYTES, JobEnd, NOTE_BYTES, OLD_NOTE_BYTES};
use jobs::Rng;
use library::{NoteNumbers, Numbers, header};

/// Guard bytes on either side.
const GUARD: usize = 64;
/// The most draws of a small job.
const SMALL: u32 = 60;

/// Bytes between guards.
struct Guarded(Vec<u8>);

impl Guarded {
    fn new(bytes: &[u8]) -> Self {
        Self([&[0xA5; GUARD], bytes, &[0x5A; GUARD]].concat())
    }

    fn inner(&mut self) -> &mut [u8] {
        let end = self.0.len() - GUARD;
        &mut self.0[GUARD..end]
    }

    /// Whether the guards stand and the bytes between them are these.
    fn holds(&self, bytes: &[u8]) -> bool {
        let (front, rest) = self.0.split_at(GUARD);
        let (inner, back) = rest.split_at(rest.len() - GUARD);
        front == [0xA5; GUARD] && back == [0x5A; GUARD] && inner == bytes
    }
}

/// What the Rust gives, and whether the library gives the same numbers and bytes.
fn same_job(record: &[u8], buffer: &[u8], allowance: u32) -> (JobEnd, Vec<u8>, bool) {
    let mut expected = buffer.to_vec();
    let end = reference::job(record, &mut expected, allowance);
    let (mut lent, mut chart) = (Guarded::new(record), Guarded::new(buffer));
    let numbers = library::convert(lent.inner(), chart.inner(), allowance);
    let same = numbers == Numbers::of(end, &expected) && chart.holds(&expected) && lent.holds(record);

    (end, expected, same)
}

/// Whether the library reads a chart, each of its notes and the two indices after them as the Rust does. Bytes that are no chart are taken for
/// version 2 unless they say 1.
fn same_chart(bytes: &[u8]) -> bool {
    let chart = reference::read_chart(bytes);
    let mut lent = Guarded::new(bytes);
    let same = library::read(lent.inner()) == header(chart.as_ref());
    let notes = chart.map_or(Vec::new(), |chart| chart.notes);
    let same_notes = notes.iter().zip(0..).all(|(note, index)| library::note(lent.inner(), index) == NoteNumbers::from(note));
    let size = if bytes.first().is_some_and(|first| first >> 4 == 1) { OLD_NOTE_BYTES } else { NOTE_BYTES };
    let past = (bytes.len().saturating_sub(HEADER_BYTES) / size) as u32;
    let none = [past, past + 1, u32::MAX].iter().all(|&index| library::note(lent.inner(), index) == NoteNumbers::default());

    same && same_notes && none && lent.holds(bytes)
}

struct Tally {
    answers: BTreeMap<String, u64>,
    differences: u64,
}

impl Tally {
    fn count(&mut self, what: &str, index: u64, answer: &str, same: bool) {
        *self.answers.entry(format!("{what}: {answer}")).or_default() += 1;
        if !same {
            self.differences += 1;
            if self.differences <= 10 {
                println!("{what} {index} differs");
            }
        }
    }
}

fn name(end: JobEnd) -> String {
    match end {
        JobEnd::Chart { .. } => "chart".to_string(),
        JobEnd::Refused { number, .. } => format!("refused {number:2}"),
    }
}

/// Random and damaged jobs; each chart that is made is read back.
fn jobs_alike(rng: &mut Rng, count: u64, tally: &mut Tally) {
    let mut plenty = vec![0; LARGEST];
    for index in 0..count {
        let job = compare::job(rng, &mut plenty);
        let (end, chart, same) = same_job(&job.record, &job.buffer, job.allowance);
        let read = match end {
            JobEnd::Chart { length, .. } => same_chart(&chart[..length]),
            JobEnd::Refused { .. } => true,
        };
        tally.count("job", index, &name(end), same && read);
    }
}

fn charts_alike(rng: &mut Rng, count: u64, tally: &mut Tally) {
    for index in 0..count {
        let bytes = if rng.percent(40) { jobs::chart(rng) } else { jobs::damaged_chart(rng) };
        let answer = if reference::read_chart(&bytes).is_some() { "read" } else { "refused 14" };
        tally.count("reader", index, answer, same_chart(&bytes));
    }
}

/// Small jobs under every allowance from none to two more than their draws. Gives the number of runs.
fn allowances_alike(rng: &mut Rng, count: u64, tally: &mut Tally) -> u64 {
    let mut plenty = vec![0; LARGEST];
    let (mut done, mut runs) = (0, 0);
    while done < count {
        let record = jobs::record(rng);
        let whole = second::job(&record, &mut plenty, 1_000_000);
        let JobEnd::Chart { length, .. } = whole else { continue };
        let draws = second::read_chart(&plenty[..length]).expect("a written chart is read").draws;
        if draws > SMALL {
            continue;
        }
        let buffer = lent_bytes(length + rng.index(40));
        for allowance in 0..=draws + 2 {
            let (end, _, same) = same_job(&record, &buffer, allowance);
            tally.count("allowance", done, &name(end), same && (allowance < draws) == (end != whole));
            runs += 1;
        }
        done += 1;
    }
    runs
}

fn main() -> ExitCode {
    let mut arguments = std::env::args().skip(1).map_while(|text| text.parse::<u64>().ok());
    let count = arguments.next().unwrap_or(100_000);
    let small = arguments.next().unwrap_or(1_000);
    let mut rng = Rng::new(arguments.next().unwrap_or(1));
    let mut tally = Tally { answers: BTreeMap::new(), differences: 0 };
    let begun = Instant::now();

    jobs_alike(&mut rng, count, &mut tally);
    charts_alike(&mut rng, count, &mut tally);
    let runs = allowances_alike(&mut rng, small, &mut tally);

    for (answer, met) in &tally.answers {
        println!("{answer:30} {met:>12}");
    }
    println!(
        "{count} jobs, {count} charts, {small} small jobs under {runs} allowances: {} differences, {} s",
        tally.differences,
        begun.elapsed().as_secs()
    );
    if tally.differences == 0 { ExitCode::SUCCESS } else { ExitCode::FAILURE }
}
