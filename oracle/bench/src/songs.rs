//! The songs that are measured, the same for the same seed.

use entry::Kind;
use jobs::{Object, Rng, Song};

/// The most objects or points that a list of a record has.
pub const MOST: usize = 4095;
const MOST_BREAKS: usize = 255;

/// A point or break comes after so many objects.
#[derive(Clone, Copy)]
struct Every {
    timing: usize,
    difficulty: usize,
    effect: usize,
    breaks: usize,
}

const USUAL: Every = Every { timing: 400, difficulty: 12, effect: 100, breaks: 300 };
const EACH: Every = Every { timing: 1, difficulty: 1, effect: 1, breaks: 16 };

/// A song in making: the points in force, and where and when the next object comes.
struct Maker {
    rng: Rng,
    song: Song,
    beat: f64,
    velocity: f64,
    time: f64,
    place: (f32, f32),
}

impl Maker {
    fn new(seed: u64) -> Self {
        let song = Song { hp: 5.5, cs: 4.0, od: 7.0, ar: 8.5, multiplier: 1.6, ..Song::default() };

        Self { rng: Rng::new(seed), song, beat: 345.0, velocity: 1.0, time: 1000.0, place: (256.0, 192.0) }
    }

    /// The points and the break that come before an object.
    fn points(&mut self, every: Every) {
        let index = self.song.objects.len();
        if index.is_multiple_of(every.timing) {
            self.beat = self.rng.pick(&[315.0, 333.0, 345.0, 375.0]);
            self.song.timing.push((self.time, self.beat));
        }
        if index.is_multiple_of(every.difficulty) {
            self.velocity = self.rng.pick(&[0.75, 1.0, 1.0, 1.25]);
            self.song.difficulty.push((self.time, self.velocity));
        }
        if index.is_multiple_of(every.effect) {
            let kiai = self.rng.percent(40);
            self.song.effect.push((self.time, kiai));
        }
        if index % every.breaks == every.breaks - 1 && self.song.breaks.len() < MOST_BREAKS {
            self.song.breaks.push((self.time, self.time + 5000.0));
            self.time += 5000.0;
        }
    }

    /// Adds an object, and goes on by so many beats, to a whole millisecond.
    fn add(&mut self, kind: Kind, beats: f64) {
        let (dx, dy) = (self.rng.uniform(-120.0, 120.0), self.rng.uniform(-90.0, 90.0));
        self.place = ((self.place.0 + dx as f32).clamp(0.0, 512.0), (self.place.1 + dy as f32).clamp(0.0, 384.0));
        let sound = self.rng.pick(&[0, 0, 0, 0, 2, 2, 4, 8]);
        self.song.objects.push(Object { kind, sound, x: self.place.0, y: self.place.1, start: self.time });
        self.time += (self.beat * beats).floor();
    }

    fn circle(&mut self) {
        let beats = self.rng.pick(&[0.25, 0.25, 0.5, 0.5, 1.0]);
        self.add(Kind::Circle, beats);
    }

    fn slider(&mut self) {
        let beats = self.rng.pick(&[0.5, 0.5, 1.0, 1.0, 2.0]);
        let repeats = self.rng.pick(&[0, 0, 0, 0, 0, 0, 0, 1, 1, 3]);
        let distance = Some(beats * self.velocity * self.song.multiplier * 100.0);
        let node_sound = Some(self.rng.pick(&[0, 0, 2, 8]));
        self.add(Kind::Slider { repeats, distance, node_sound }, beats * f64::from(repeats + 1) + 0.5);
    }

    fn lasting(&mut self) {
        let beats = self.rng.pick(&[1.0, 4.0]);
        let duration = (beats * self.beat).floor();
        let kind = if beats > 1.0 { Kind::Spinner { duration } } else { Kind::Hold { duration } };
        self.add(kind, beats + 1.0);
    }
}

/// The songs of the first table.
pub fn measured(seed: u64) -> [(&'static str, Song); 6] {
    [
        ("realistic", realistic(seed, 1000)),
        ("realistic", realistic(seed, MOST)),
        ("circles only", stream(seed)),
        ("sliders only", all_sliders(seed)),
        ("realistic, the most points", most_points(seed)),
        ("overlapping sliders", rows(seed, Order::Random, MOST, 50)),
    ]
}

/// The songs of the order's table, three sizes of each: 10^4, 10^5 and 10^6 notes, as far out of order as a job of that size goes. For more than
/// 2 · 10^5 notes in order, starts have no room.
pub fn by_order(seed: u64) -> [(&'static str, Song); 9] {
    [
        ("in order", rows(seed, Order::Rising, 20, 250)),
        ("in order", rows(seed, Order::Rising, 200, 250)),
        ("in order", rows(seed, Order::Rising, 400, 250)),
        ("at random", rows(seed, Order::Random, 500, 10)),
        ("at random", rows(seed, Order::Random, 2500, 20)),
        ("at random", rows(seed, Order::Random, 4000, 125)),
        ("falling in each row", rows(seed, Order::Falling, 500, 10)),
        ("falling in each row", rows(seed, Order::Falling, 2500, 20)),
        ("falling in each row", rows(seed, Order::Falling, 4000, 125)),
    ]
}

/// The most notes that a job makes.
pub fn largest(seed: u64) -> Song {
    rows(seed, Order::Random, MOST, 301)
}

/// Three circles to two sliders, now and then a spinner or a hold; some points and breaks.
pub fn realistic(seed: u64, count: usize) -> Song {
    mixed(seed, count, USUAL)
}

/// The same, with the most points and breaks that a record has.
pub fn most_points(seed: u64) -> Song {
    mixed(seed, MOST, EACH)
}

fn mixed(seed: u64, count: usize, every: Every) -> Song {
    let mut maker = Maker::new(seed);
    for _ in 0..count {
        maker.points(every);
        match maker.rng.below(100) {
            0..60 => maker.circle(),
            60..98 => maker.slider(),
            _ => maker.lasting(),
        }
    }
    maker.song
}

/// Circles, a quarter of a beat apart.
pub fn stream(seed: u64) -> Song {
    let mut maker = Maker::new(seed);
    for _ in 0..MOST {
        maker.points(USUAL);
        maker.add(Kind::Circle, 0.25);
    }
    maker.song
}

pub fn all_sliders(seed: u64) -> Song {
    let mut maker = Maker::new(seed);
    for _ in 0..MOST {
        maker.points(USUAL);
        maker.slider();
    }
    maker.song
}

/// How the notes of long sliders come. An object's notes rise and objects' starts never fall, so no job makes notes that only fall.
#[derive(Clone, Copy, PartialEq)]
enum Order {
    /// One slider after another.
    Rising,
    /// All at once, with rows at random distances.
    Random,
    /// All at once, each with rows nearer to each other than the one before: the notes of a row fall from slider to slider.
    Falling,
}

/// The shortest and the longest span, in ms, that makes rows of two notes.
const SPAN: (i64, i64) = (161, 200);
/// The drain of these songs, in ms: a second, so that their difficulty is high and rows have two notes.
const DRAIN: usize = 1500;

/// Sliders of so many rows of two notes each.
fn rows(seed: u64, order: Order, sliders: usize, rows: u32) -> Song {
    let mut rng = Rng::new(seed);
    let mut song = Song { key_choice: 7, timing: vec![(0.0, 1000.0)], ..Song::default() };
    for index in 0..sliders {
        let span = match order {
            Order::Rising => SPAN.0,
            Order::Random => rng.between(SPAN.0, SPAN.1),
            Order::Falling => SPAN.1 - (SPAN.1 - SPAN.0) * index as i64 / sliders as i64,
        };
        let start = match order {
            _ if index == 0 => 0,
            Order::Rising => index * rows as usize * SPAN.0 as usize,
            Order::Random => DRAIN + index * SPAN.0 as usize / sliders,
            Order::Falling => DRAIN,
        };
        // A little more, so that rounding does not take a millisecond off.
        let distance = Some((span as f64 + 0.0001) / 10.0);
        let kind = Kind::Slider { repeats: rows - 2, distance, node_sound: None };
        let x = rng.below(512) as f32;
        song.objects.push(Object { kind, sound: 0, x, y: 192.0, start: start as f64 });
    }
    // A break takes the rest of a long song off its drain.
    let last = song.objects.last().map_or(0.0, |object| object.start);
    song.breaks.push((0.0, last - DRAIN as f64));
    song
}
