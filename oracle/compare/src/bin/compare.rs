//! The unchanged Rust against the second implementation, on random and damaged jobs, single objects and charts.
//! Arguments: how many of each (100,000), the seed (1). Prints how often each branch and each answer was met, and the differences.

use std::collections::BTreeMap;
use std::process::ExitCode;

use compare::{LARGEST, lent_bytes};
use entry::{JobEnd, SingleEnd};
use jobs::Rng;
use second::hits;

fn main() -> ExitCode {
    let mut arguments = std::env::args().skip(1).map_while(|text| text.parse::<u64>().ok());
    let count = arguments.next().unwrap_or(100_000);
    let mut rng = Rng::new(arguments.next().unwrap_or(1));
    let mut plenty = vec![0; LARGEST];
    let mut answers: BTreeMap<String, u64> = BTreeMap::new();
    let mut differences = 0u64;
    let mut differ = |what: &str, index: u64| {
        differences += 1;
        if differences <= 10 {
            println!("{what} {index} differs");
        }
    };
    hits::start();

    for index in 0..count {
        let job = compare::job(&mut rng, &mut plenty);
        let (mut first, mut other) = (job.buffer.clone(), job.buffer);
        let end = reference::job(&job.record, &mut first, job.allowance);
        if end != second::job(&job.record, &mut other, job.allowance) || first != other {
            differ("job", index);
        }
        let name = match end {
            JobEnd::Chart { .. } => "job: chart".to_string(),
            JobEnd::Refused { number, .. } => format!("job: refused {number:2}"),
        };
        *answers.entry(name).or_default() += 1;
    }

    for index in 0..count {
        let (ask, length) = if rng.percent(80) { jobs::single(&mut rng) } else { jobs::damaged_single(&mut rng) };
        let mut first = lent_bytes(length);
        let mut other = first.clone();
        let end = reference::single(&ask, &mut first);
        if end != second::single(&ask, &mut other) || first != other {
            differ("single", index);
        }
        let name = match end {
            SingleEnd::Made { .. } => "single: notes".to_string(),
            SingleEnd::Refused { number, .. } => format!("single: refused {number:2}"),
        };
        *answers.entry(name).or_default() += 1;
    }

    for index in 0..count {
        let bytes = if rng.percent(40) { jobs::chart(&mut rng) } else { jobs::damaged_chart(&mut rng) };
        let chart = reference::read_chart(&bytes);
        if chart != second::read_chart(&bytes) {
            differ("chart", index);
        }
        let name = if chart.is_some() { "chart: read" } else { "chart: refused 14" };
        *answers.entry(name.to_string()).or_default() += 1;
    }

    let mut missing = Vec::new();
    for (name, met) in hits::NAMES.iter().zip(hits::take()) {
        let never = hits::NEVER.iter().find(|(never, _)| never == name);
        let note = never.map_or(String::new(), |(_, why)| format!("  never: {why}"));
        println!("{name:40} {met:>12}{note}");
        if met == 0 && never.is_none() {
            missing.push(*name);
        }
    }
    for (name, met) in answers {
        println!("{name:40} {met:>12}");
    }
    println!("{count} jobs, {count} single objects, {count} charts: {differences} differences");

    if !missing.is_empty() {
        println!("branches never met: {}", missing.join(" "));
    }
    if differences == 0 && missing.is_empty() { ExitCode::SUCCESS } else { ExitCode::FAILURE }
}
