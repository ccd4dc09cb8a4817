//! Jobs that are refused as late as can be. The Rust's `convert` reads no records and writes no charts, so only ours is measured.

use compare::lent_bytes;
use entry::{JobEnd, Kind};
use jobs::{Object, Song};

use crate::job::{Job, accepted};
use crate::songs::{self, MOST};
use crate::tables::{count, head, row, us, whole};
use crate::time::{Plan, medians};

/// A song of the most objects whose last one is this, with bits left over in its last byte.
fn ending(seed: u64, kind: Kind) -> Song {
    let mut song = songs::realistic(seed, MOST - 1);
    let start = song.objects[MOST - 2].start + 5000.0;
    song.objects.push(Object { kind, sound: 0, x: 100.0, y: 100.0, start });
    while bits(&song).is_multiple_of(8) {
        let time = song.effect.last().map_or(0.0, |point| point.0);
        song.effect.push((time + 0.5, false));
    }
    song
}

fn bits(song: &Song) -> usize {
    song.fields().iter().map(|field| field.width).sum()
}

/// A hold of plain sound: it takes a draw.
const HOLD: Kind = Kind::Hold { duration: 300.0 };

/// Records that are refused after their last object was read.
fn damaged(seed: u64, room: usize) -> Vec<(&'static str, Job)> {
    let good = ending(seed, HOLD).bytes();
    let job = |record| Job { record, chart: lent_bytes(room), allowance: u32::MAX };
    let mut filling = good.clone();
    if let Some(last) = filling.last_mut() {
        *last |= 1;
    }
    let cut = good[..good.len() - 1].to_vec();
    let range = ending(seed, Kind::Hold { duration: -1.0 }).bytes();
    let more = |song: Song| job([&song.bytes()[..], &[0]].concat());

    vec![
        ("a filling bit set", job(filling)),
        ("a byte less", job(cut)),
        ("the last field out of range", job(range)),
        ("a byte more", more(ending(seed, HOLD))),
        ("a byte more, circles only", more(songs::stream(seed))),
        ("a byte more, sliders only", more(songs::all_sliders(seed))),
        ("a byte more, the most points", more(songs::most_points(seed))),
    ]
}

/// Songs that are refused at their last object.
fn stopped(seed: u64) -> Vec<(&'static str, Job)> {
    let late = Kind::Slider { repeats: 299, distance: Some(131_072.0), node_sound: None };
    let good = accepted("the song of the refusals", &ending(seed, HOLD));
    let room = good.job.chart.len();
    let job = |record, room, allowance| Job { record, chart: lent_bytes(room), allowance };
    let record = || good.job.record.clone();

    vec![
        ("the last slider ends too late", job(ending(seed, late).bytes(), room, u32::MAX)),
        ("the chart buffer a byte short", job(record(), room - 1, u32::MAX)),
        ("the allowance a draw short", job(record(), room, good.draws - 1)),
    ]
}

/// The refusal's number and the object's index.
fn refusal(name: &str, job: &mut Job) -> (u8, u32) {
    match job.compare(name) {
        JobEnd::Refused { number, object, .. } => (number, object),
        JobEnd::Chart { .. } => panic!("{name}: not refused"),
    }
}

pub fn table(seed: u64, plan: Plan) {
    head(
        "Refusals after 4,095 objects, ours alone",
        &["job", "refused by", "object", "record, bytes", "buffer, bytes", "ours, µs", "of it zeroing, µs", "objects/s", "record bits/s"],
    );
    let stopped = stopped(seed);
    let room = stopped[0].1.chart.len();
    for (name, mut job) in damaged(seed, room).into_iter().chain(stopped) {
        let (number, object) = refusal(name, &mut job);
        let mut empty = Job { record: Vec::new(), chart: vec![0; job.chart.len()], allowance: 0 };
        let [ours, zero] = medians(plan.runs, [&mut || job.run(plan.least), &mut || empty.run(plan.least)]);
        row(&[
            name.to_string(),
            number.to_string(),
            count(object as usize),
            count(job.record.len()),
            count(job.chart.len()),
            us(ours),
            us(zero),
            whole(MOST as f64 / ours),
            whole(job.record.len() as f64 * 8.0 / ours),
        ]);
    }
}
