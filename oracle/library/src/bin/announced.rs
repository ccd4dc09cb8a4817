//! `sumopine_column_counts` and `sumopine_slider_ends` against the unchanged Rust, by brute force, and the second implementation.
//! Arguments: how many songs (200,000), how many sliders (100,000), the seed (1). Of every song's ranges eight values of od and cs are also drawn, of every
//! slider's range sixteen distances. Prints how often each answer was met, and the differences.

use std::collections::BTreeMap;
use std::process::ExitCode;
use std::time::Instant;

use entry::{AnnouncedSlider, AnnouncedSong};
use jobs::Rng;
use library::announced::{column_counts, counts_of, ends_of, slider_ends};

/// Values of od and cs drawn for each song, and distances for each slider.
const VALUES: usize = 8;
const DISTANCES: usize = 16;

/// Document 01's limit for a slider's end.
const LAST_END: u64 = 33_554_431;

/// Whether values of the ranges, drawn anywhere in them, give columns among the counts.
fn among(ask: &AnnouncedSong, counts: u32, rng: &mut Rng) -> bool {
    let Ok(mut song) = reference::announced(ask) else { return counts == 0 };
    let mut any = |[low, high]: [f32; 2]| (rng.uniform(low.into(), high.into()) as f32).clamp(low, high);

    (0..VALUES).all(|_| counts >> song.columns(any(ask.od), any(ask.cs)) & 1 == 1)
}

/// What is given, and whether the other two give the same.
fn songs_alike(ask: &AnnouncedSong, rng: &mut Rng) -> ((u32, u32), bool) {
    let given = column_counts(ask);
    let same = given == counts_of(reference::column_counts(ask)) && given == counts_of(second::column_counts(ask));

    (given, same && among(ask, given.1, rng))
}

/// Whether the two ends are those of the range's two distances.
fn reached(ask: &AnnouncedSlider, earliest: u64, latest: u64) -> bool {
    let end = |distance| reference::slider_end(ask, Some(distance));

    end(ask.distance[0]) == Ok(earliest) && end(ask.distance[1]) == Ok(latest)
}

/// What is given, and whether the other two give the same.
fn sliders_alike(ask: &AnnouncedSlider, distances: &[f64], other: u32) -> ((u32, u64, u64), bool) {
    let given = slider_ends(ask, other);
    let same = given == ends_of(reference::slider_ends(ask, distances)) && given == ends_of(second::slider_ends(ask));

    (given, same && (given.0 != 0 || reached(ask, given.1, given.2)))
}

#[derive(Default)]
struct Tally {
    answers: BTreeMap<String, u64>,
    differences: u64,
}

impl Tally {
    fn count(&mut self, what: &str, number: u32, same: bool, ask: &dyn std::fmt::Debug) {
        let answer = if number == 0 { "answered".to_string() } else { format!("refused {number:2}") };
        *self.answers.entry(format!("{what} {answer}")).or_default() += 1;
        if !same {
            self.differences += 1;
            if self.differences <= 10 {
                println!("{what} differs: {ask:?}");
            }
        }
    }
}

fn main() -> ExitCode {
    let mut arguments = std::env::args().skip(1).map_while(|text| text.parse::<u64>().ok());
    let songs = arguments.next().unwrap_or(200_000);
    let sliders = arguments.next().unwrap_or(100_000);
    let mut rng = Rng::new(arguments.next().unwrap_or(1));
    let mut tally = Tally::default();
    let (mut several, mut ended, mut last) = (0_u64, 0_u64, 0_u64);
    let begun = Instant::now();

    for _ in 0..songs {
        let ask = jobs::announced_song(&mut rng);
        let ((number, counts), same) = songs_alike(&ask, &mut rng);
        several += u64::from(counts.count_ones() > 1);
        tally.count("song", number, same, &ask);
    }
    for _ in 0..sliders {
        let ask = jobs::announced_slider(&mut rng);
        let distances = jobs::distances(&mut rng, &ask, DISTANCES);
        let ((number, _, latest), same) = sliders_alike(&ask, &distances, rng.word() as u32);
        ended += if number == 0 { distances.len() as u64 } else { 0 };
        last += u64::from(latest == LAST_END);
        tally.count("slider", number, same, &ask);
    }

    for (answer, met) in &tally.answers {
        println!("{answer:20} {met:>12}");
    }
    println!("{several} songs with more than one column count, {last} sliders whose latest end is the limit, {ended} distances between the ends given");
    println!(
        "{songs} songs, {sliders} sliders: {} differences, {} s",
        tally.differences,
        begun.elapsed().as_secs()
    );
    if tally.differences == 0 { ExitCode::SUCCESS } else { ExitCode::FAILURE }
}
