//! Writes the jobs that the program `vectors` replays, with the unchanged Rust's answers. Arguments: the file, the seed (1).
//!
//! First jobs that meet each branch that a job can reach, each answer and each column count, the smallest found; then small random
//! jobs. A file is its jobs one after the other, as `compare::entry` makes them: the record goes in; the numbers are the buffer's length,
//! the allowance, number (0: a chart), object, draws and longest search; what is due is the chart.
//! Buffers are lent as `lent_bytes` makes them. Standard output is what `vectors` has to print; standard error names the branches that
//! no job of the list meets.

use std::process::ExitCode;

use compare::{Job, entry, lent_bytes};
use entry::{HEADER_BYTES, JobEnd, Kind, NOTE_BYTES, chart_bytes};
use jobs::{Need, Object, Rng, Song};
use second::hits;

const JOBS: usize = 640;
const MOST_BYTES: usize = 300_000;
/// The program's chart buffer.
const MOST_BUFFER: usize = 65_536;
const TRIES: usize = 60_000;
/// A refusal's number is below this.
const NUMBERS: usize = 32;

/// A job with its answer and what it met: branches, then refusals by number, then charts by columns.
struct Answered {
    job: Job,
    end: JobEnd,
    chart: Vec<u8>,
    met: Vec<usize>,
}

impl Answered {
    fn new(job: Job) -> Self {
        let mut buffer = job.buffer.clone();
        hits::take();
        let end = second::job(&job.record, &mut buffer, job.allowance);
        let mut met: Vec<usize> = (0..).zip(hits::take()).filter(|(_, count)| *count > 0).map(|(row, _)| row).collect();
        let mut buffer = job.buffer.clone();
        assert_eq!(end, reference::job(&job.record, &mut buffer, job.allowance), "the two implementations differ");
        let chart = match end {
            JobEnd::Chart { length, .. } => {
                met.push(hits::NAMES.len() + NUMBERS + usize::from(buffer[0] & 15));
                buffer[..length].to_vec()
            }
            JobEnd::Refused { number, .. } => {
                met.push(hits::NAMES.len() + usize::from(number));
                Vec::new()
            }
        };

        Self { job, end, chart, met }
    }

    fn bytes(&self) -> Vec<u8> {
        let [number, object, draws, longest_search] = match self.end {
            JobEnd::Chart { longest_search, .. } => {
                let draws = second::read_chart(&self.chart).expect("a written chart is read").draws;
                [0, 0, draws, longest_search]
            }
            JobEnd::Refused { number, object, draws } => [number.into(), object, draws, 0],
        };
        let numbers = [self.job.buffer.len() as u32, self.job.allowance, number, object, draws, longest_search];

        entry(&self.job.record, &numbers, &self.chart)
    }
}

fn slider(start: f64, repeats: u32, distance: f64) -> Object {
    let kind = Kind::Slider { repeats, distance: Some(distance), node_sound: None };

    Object { kind, sound: 0, x: 100.0, y: 100.0, start }
}

fn job(song: &Song, buffer: usize, allowance: u32) -> Job {
    Job { record: song.bytes(), buffer: lent_bytes(buffer), allowance }
}

/// Long sliders: the latest end that is taken and the first that is not.
fn long_sliders() -> Vec<Job> {
    let mut list = Vec::new();
    for columns in [4, 8] {
        let song = |object| Song { key_choice: columns, objects: vec![object], ..Song::default() };
        // 10 ms a pixel without points
        list.push(job(&song(slider(16_777_215.0, 0, 131_072.0)), 400, 100));
        list.push(job(&song(slider(16_777_215.0, 127, 13_107.2)), 400, 100));
        list.push(job(&song(slider(16_777_215.0, 127, 13_107.3)), 400, 100));
        let slow = Song { timing: vec![(0.0, 60_000.0)], difficulty: vec![(0.0, 0.1)], ..song(slider(0.0, 0, 131_072.0)) };
        list.push(job(&slow, 400, 100));
    }

    list
}

/// Repeat counts up to the limit and above it, in a record that is whole, that ends right after the repeats, and that ends inside them, with
/// the number due.
fn many_repeats() -> Vec<(Job, u8)> {
    let mut list = Vec::new();
    for (repeats, due) in [(298, [0, 1, 1]), (299, [0, 1, 1]), (300, [6, 6, 1]), (1023, [6, 6, 1])] {
        let song = Song { key_choice: 4, objects: vec![slider(0.0, repeats, 10.0)], ..Song::default() };
        let whole = job(&song, chart_bytes(301), 1000);
        // the first object begins at byte 32, and its repeats end 144 bits later
        for (length, number) in [whole.record.len(), 50, 49].into_iter().zip(due) {
            list.push((Job { record: whole.record[..length].to_vec(), buffer: whole.buffer.clone(), allowance: whole.allowance }, number));
        }
    }

    list
}

fn refused_when_many(list: Vec<(Job, u8)>) -> impl Iterator<Item = Answered> {
    list.into_iter().map(|(job, due)| {
        let answered = Answered::new(job);
        let number = if let JobEnd::Refused { number, .. } = answered.end { number } else { 0 };
        assert_eq!(number, due, "a repeat count is not refused as it should be");
        answered
    })
}

/// The most notes of an object, two in each of 301 rows, after two circles a second before, which raise the difficulty above 3.
fn most_notes() -> Vec<Job> {
    let circle = Object { kind: Kind::Circle, sound: 0, x: 100.0, y: 100.0, start: 0.0 };
    let objects = vec![circle, circle, slider(1000.0, 299, 18.0)];
    let song = |columns| Song { key_choice: columns, hp: 10.0, ar: 7.0, objects: objects.clone(), ..Song::default() };

    [3, 9].map(|columns| job(&song(columns), chart_bytes(700), 1000)).into()
}

/// Sees that the slider, which is object 2, has 602 notes: all but those that start at 0.
fn has_most_notes(answered: &Answered) {
    let later = answered.chart[HEADER_BYTES..].chunks(NOTE_BYTES).filter(|note| note[3..11] != [0; 8]);
    assert_eq!(later.clone().count(), 602, "the slider has not two notes in each row");
    assert!(later.map(|note| note[1]).all(|index| index == 1), "the slider's notes have another object");
}

/// As many objects as fill ten bits of a note's index, a note each.
fn many_objects() -> Job {
    let circle = |index| Object { kind: Kind::Circle, sound: 0, x: 100.0, y: 100.0, start: 100.0 * f64::from(index) };
    let song = Song { key_choice: 1, objects: (0..520).map(circle).collect(), ..Song::default() };

    job(&song, chart_bytes(520), 0)
}

/// Sees that each note has its object's index.
fn has_each_object(answered: &Answered) {
    let chart = second::read_chart(&answered.chart).expect("a written chart is read");
    assert!(chart.notes.iter().map(|note| note.object).eq((0..520).map(Some)), "the notes have other objects");
}

/// Two circles whose separation has document 02's sums of squares: 400, 400 − 2^−15, whose root is 20, and 400 − 2^−14, whose root is less. Only the
/// last makes another chart.
fn rulers() -> Vec<Job> {
    let mut list = Vec::new();
    for (columns, gap) in [(4, 130.0), (7, 140.0), (8, 145.0)] {
        let at = |x, y, start| Object { kind: Kind::Circle, sound: 0, x, y, start };
        let song = |y| Song { key_choice: columns, objects: vec![at(0.0, 0.0, 1000.0), at(12.0, y, 1000.0 + gap)], ..Song::default() };
        let under = 16.0_f32.next_down();
        list.extend([16.0, under, under.next_down()].map(|y| job(&song(y), 100, 100)));
    }

    list
}

/// Objects that start together, in either order: document 02's order of equal starts. On one column equal start and column keep walk order, which a hold
/// and circles show.
fn chords() -> Vec<Job> {
    let mut list = Vec::new();
    for columns in [1, 4, 7, 8] {
        let at = |kind, x| Object { kind, sound: 0, x, y: 100.0, start: 1000.0 };
        let hold = Kind::Hold { duration: 500.0 };
        let mut objects = vec![at(Kind::Circle, 400.0), at(hold, 256.0), at(Kind::Circle, 40.0), slider(1000.0, 40, 20.0), at(Kind::Circle, 200.0)];
        for _ in 0..2 {
            let song = Song { key_choice: columns, objects: objects.clone(), ..Song::default() };
            list.push(job(&song, chart_bytes(100), 1000));
            objects.reverse();
        }
    }

    list
}

/// Sees that of each three rulers the first two make the same chart, and the third another.
fn differ_where_near(list: &[Answered]) {
    for three in list.chunks(3) {
        assert!(three[0].chart == three[1].chart && three[1].chart != three[2].chart, "the ruler does not show");
    }
}

/// A random job; one in four is damaged. Half of the others get a key choice, most often 8, which has rules of its own.
fn random(rng: &mut Rng, plenty: &mut [u8]) -> Option<Job> {
    let damaged = rng.percent(25);
    let mut record = if damaged { jobs::damaged(rng) } else { jobs::record(rng) };
    if !damaged && rng.percent(50) {
        record[0] = 0x10 + if rng.percent(40) { 8 } else { rng.between(1, 9) as u8 };
    }
    let need = match second::job(&record, plenty, 1_000_000) {
        JobEnd::Chart { length, .. } => {
            let draws = second::read_chart(&plenty[..length]).expect("a written chart is read").draws;
            Some(Need { draws, length })
        }
        JobEnd::Refused { .. } => None,
    };
    let (allowance, length) = jobs::lent(rng, need);

    (length <= MOST_BUFFER).then(|| Job { record, buffer: lent_bytes(length), allowance })
}

fn main() -> ExitCode {
    let mut arguments = std::env::args().skip(1);
    let Some(path) = arguments.next() else {
        eprintln!("usage: answers FILE [SEED]");
        return ExitCode::from(2);
    };
    let seed = arguments.next().and_then(|text| text.parse().ok()).unwrap_or(1);
    let mut rng = Rng::new(seed);
    let mut plenty = vec![0; compare::LARGEST];
    hits::start();

    let rows = hits::NAMES.len() + NUMBERS + 16;
    let mut list: Vec<Answered> = rulers().into_iter().map(Answered::new).collect();
    differ_where_near(&list);
    list.extend(long_sliders().into_iter().chain(chords()).map(Answered::new));
    list.extend(refused_when_many(many_repeats()));
    let most: Vec<Answered> = most_notes().into_iter().map(Answered::new).collect();
    most.iter().for_each(has_most_notes);
    list.extend(most);
    let many = Answered::new(many_objects());
    has_each_object(&many);
    list.push(many);
    let tried: Vec<Answered> = (0..TRIES).filter_map(|_| random(&mut rng, &mut plenty)).map(Answered::new).collect();
    let sizes: Vec<usize> = tried.iter().map(|answered| answered.bytes().len()).collect();
    let mut met = vec![false; rows];
    let mut kept = vec![false; tried.len()];

    // the smallest job of each row that no kept job meets, the rarest rows first
    let counts: Vec<usize> = (0..rows).map(|row| tried.iter().filter(|answered| answered.met.contains(&row)).count()).collect();
    let mut order: Vec<usize> = (0..rows).filter(|&row| counts[row] > 0).collect();
    order.sort_by_key(|&row| counts[row]);
    for row in order {
        if met[row] {
            continue;
        }
        let smallest = (0..tried.len()).filter(|&index| tried[index].met.contains(&row)).min_by_key(|&index| sizes[index]);
        if let Some(index) = smallest {
            kept[index] = true;
            tried[index].met.iter().for_each(|&row| met[row] = true);
        }
    }

    // then random ones, as they came, that fit, a third of them refused
    let mut size: usize = list.iter().map(|answered| answered.bytes().len()).sum();
    size += (0..tried.len()).filter(|&index| kept[index]).map(|index| sizes[index]).sum::<usize>();
    let mut count = list.len() + kept.iter().filter(|kept| **kept).count();
    let mut refused = 0;
    for index in 0..tried.len() {
        let is_refused = tried[index].chart.is_empty();
        let room = MOST_BYTES.saturating_sub(size) / JOBS.saturating_sub(count).max(1);
        if count < JOBS && !kept[index] && !(is_refused && refused * 3 > count) && sizes[index] <= room * 2 && size + sizes[index] <= MOST_BYTES {
            kept[index] = true;
            size += sizes[index];
            count += 1;
            refused += usize::from(is_refused);
        }
    }

    list.extend(tried.into_iter().zip(kept).filter(|(_, kept)| *kept).map(|(answered, _)| answered));
    let bytes: Vec<u8> = list.iter().flat_map(Answered::bytes).collect();
    if let Err(error) = std::fs::write(&path, &bytes) {
        eprintln!("{path}: {error}");
        return ExitCode::FAILURE;
    }

    let all: Vec<usize> = (0..rows).map(|row| list.iter().filter(|answered| answered.met.contains(&row)).count()).collect();
    let (branches, answers) = all.split_at(hits::NAMES.len());
    let (refusals, columns) = answers.split_at(NUMBERS);
    println!("{} jobs, 0 differ", list.len());
    println!("charts: {}", columns.iter().sum::<usize>());
    for (number, count) in refusals.iter().enumerate().filter(|(_, count)| **count > 0) {
        println!("refused {number}: {count}");
    }

    eprintln!("{} bytes; charts by columns from 1: {:?}", bytes.len(), &columns[1..10]);
    for (name, _) in hits::NAMES.iter().zip(branches).filter(|(_, count)| **count == 0) {
        let elsewhere = name.starts_with("single_") || name.starts_with("chart_");
        if !elsewhere && hits::NEVER.iter().all(|(never, _)| never != name) {
            eprintln!("not met: {name}");
        }
    }

    ExitCode::SUCCESS
}
