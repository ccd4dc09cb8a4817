//! Runs random inputs through `second` and prints how often each branch was met.
//! Arguments: how many of each kind of input (20,000), the seed (1).

use std::process::ExitCode;

use entry::{JobEnd, SingleEnd, chart_bytes};
use jobs::{Need, Rng};
use second::hits;

const LARGEST: usize = chart_bytes(100_000);

fn main() -> ExitCode {
    let mut arguments = std::env::args()
        .skip(1)
        .map_while(|text| text.parse::<u64>().ok());
    let count = arguments.next().unwrap_or(20_000);
    let mut rng = Rng::new(arguments.next().unwrap_or(1));
    let mut plenty = vec![0; LARGEST];
    let (mut accepted, mut made) = (0, 0);
    hits::start();

    let mut from_jobs = vec![0; hits::NAMES.len()];
    let add = |to: &mut Vec<u64>| {
        for (sum, count) in to.iter_mut().zip(hits::take()) {
            *sum += count;
        }
    };

    for _ in 0..count {
        let record = jobs::record(&mut rng);
        let need = match second::job(&record, &mut plenty, 1_000_000) {
            JobEnd::Chart { length, .. } => {
                accepted += 1;
                let chart = second::read_chart(&plenty[..length]).expect("a written chart is read");
                Some(Need {
                    draws: chart.draws,
                    length,
                })
            }
            JobEnd::Refused { .. } => None,
        };
        let (allowance, length) = jobs::lent(&mut rng, need);
        second::job(&record, &mut plenty[..length.min(LARGEST)], allowance);

        let record = jobs::damaged(&mut rng);
        let (allowance, length) = jobs::lent(&mut rng, None);
        second::job(&record, &mut plenty[..length], allowance);
    }

    add(&mut from_jobs);
    let mut from_singles = vec![0; hits::NAMES.len()];

    for _ in 0..count {
        let (ask, length) = jobs::single(&mut rng);
        if let SingleEnd::Made { .. } = second::single(&ask, &mut plenty[..length]) {
            made += 1;
        }
        let (ask, length) = jobs::damaged_single(&mut rng);
        second::single(&ask, &mut plenty[..length]);
    }

    add(&mut from_singles);
    let mut from_charts = vec![0; hits::NAMES.len()];

    for _ in 0..count {
        second::read_chart(&jobs::chart(&mut rng)).expect("a valid chart is read");
        second::read_chart(&jobs::damaged_chart(&mut rng));
    }

    add(&mut from_charts);

    println!(
        "{:40} {:>12} {:>12} {:>12}",
        "branch", "jobs", "singles", "charts"
    );
    let mut wrong = Vec::new();

    for (index, name) in hits::NAMES.iter().enumerate() {
        let row = [from_jobs[index], from_singles[index], from_charts[index]];
        let never = hits::NEVER.iter().find(|(never, _)| never == name);
        let note = never.map_or(String::new(), |(_, why)| format!("  never: {why}"));
        println!(
            "{name:40} {:>12} {:>12} {:>12}{note}",
            row[0], row[1], row[2]
        );

        if (row.iter().sum::<u64>() > 0) == never.is_some() {
            wrong.push(*name);
        }
    }

    println!(
        "{} rows, {} never; {accepted} of {count} jobs and {made} of {count} singles accepted",
        hits::NAMES.len(),
        hits::NEVER.len()
    );

    if wrong.is_empty() {
        ExitCode::SUCCESS
    } else {
        println!("not as expected: {}", wrong.join(" "));
        ExitCode::FAILURE
    }
}
