//! The proved library's speed beside that of the unchanged Rust's `convert`, as tables in Markdown.
//! Arguments: how many runs a median is taken of (7), the ms that a run lasts at least (100), the seed (1).
//! Or: `lookups`, that table alone; `largest`, one run of the job with the most notes; `once ROW ours` and `once ROW rust`, one call for a profiler.
//! Every job is compared with the Rust first, its answer and every byte of its chart buffer; the program fails where they differ.

mod growth;
mod job;
mod lookups;
mod refused;
mod songs;
mod tables;
mod time;

use std::time::Duration;

use jobs::Song;

use job::accepted;
use tables::{count, head, ms, row, times, whole};
use time::Plan;

const SEED: u64 = 1;

const ABOUT: &str = "\
Ours is a whole job through `sumopine_convert`: the record is read and checked, converted, and the chart written in order into the lent buffer. \
The Rust's is `convert` alone, which ends with its own sort, on a beatmap that was built before; it reads no record and writes no chart bytes. \
Its generator counts draws. Not timed: building and copying the beatmap, dropping the notes made, comparing. \
No buffer is cleared before a call; a job that is refused zeroes its whole buffer, which is timed.";

fn song_table(songs: impl IntoIterator<Item = (&'static str, Song)>, plan: Plan) {
    head(
        "Songs",
        &[
            "song",
            "objects",
            "notes",
            "draws",
            "ours, ms",
            "Rust, ms",
            "Rust / ours",
            "ours, objects/s",
            "Rust, objects/s",
            "ours, draws/s",
            "Rust, draws/s",
        ],
    );
    for (name, song) in songs {
        let mut job = accepted(name, &song);
        let [ours, rust] = job.measure(plan);
        let rate = |what: f64, seconds: f64| whole(what / seconds);
        let (objects, draws) = (job.objects as f64, f64::from(job.draws));
        row(&[
            name.to_string(),
            count(job.objects),
            count(job.notes as usize),
            count(job.draws as usize),
            ms(ours),
            ms(rust),
            times(rust / ours),
            rate(objects, ours),
            rate(objects, rust),
            rate(draws, ours),
            rate(draws, rust),
        ]);
    }
}

/// One call of `ours` or `rust` for a profiler. Rows count from 1, through the table of songs and then that of orders.
fn once(row: usize, side: &str) {
    let mut songs = songs::measured(SEED).into_iter().chain(songs::by_order(SEED));
    let (name, song) = songs.nth(row - 1).expect("a row of the two tables");
    accepted(name, &song).once(side);
}

/// The share of its time that the program waited for a processor, in percent, where the system says it.
fn waited() -> Option<f64> {
    let text = std::fs::read_to_string("/proc/self/schedstat").ok()?;
    let times: Vec<f64> = text.split_whitespace().map_while(|word| word.parse().ok()).collect();
    let [ran, waited, ..] = times[..] else { return None };

    Some(100.0 * waited / (ran + waited))
}

fn tables(numbers: &[u64]) {
    let number = |index: usize, or: u64| numbers.get(index).copied().unwrap_or(or);
    let plan = Plan { runs: number(0, 7).max(1) as usize, least: Duration::from_millis(number(1, 100)) };
    let seed = number(2, SEED);

    println!("{ABOUT}\n\nMedians of {} runs of at least {} ms each; seed {seed}.", plan.runs, plan.least.as_millis());
    song_table(songs::measured(seed), plan);
    refused::table(seed, plan);
    growth::songs(seed, plan);
    growth::orders(seed, plan);
    lookups::table(seed, plan);
    if let Some(share) = waited() {
        println!("\nThe program waited for a processor for {share:.1} % of its time; the figures hold where that is near 0.");
    }
}

fn main() {
    let words: Vec<String> = std::env::args().skip(1).collect();
    let words: Vec<&str> = words.iter().map(String::as_str).collect();
    match words[..] {
        ["once", row, side] => once(row.parse().expect("a row"), side),
        ["lookups"] => lookups::table(SEED, Plan { runs: 7, least: Duration::from_millis(100) }),
        ["largest"] => song_table([("largest", songs::largest(SEED))], Plan { runs: 1, least: Duration::ZERO }),
        _ => tables(&words.iter().map(|word| word.parse().expect("a number")).collect::<Vec<_>>()),
    }
}
