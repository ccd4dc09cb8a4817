//! How the time grows with the work.

use jobs::Song;

use crate::job::accepted;
use crate::songs;
use crate::tables::{count, head, ms, row, times, whole};
use crate::time::Plan;

/// So much more than n log² n is taken for the same: for lower terms, caches and measuring.
const MARGIN: f64 = 1.25;

/// A part of a job below this share of it is lost in the noise, since it is found as a difference.
const SMALL: f64 = 0.05;

/// Times by size, rising, and whether each stays within n log² n of the one before and of the first.
struct Series {
    points: Vec<(f64, f64)>,
    within: bool,
}

/// The factor that n log² n allows from one size to another.
fn allowed(from: f64, to: f64) -> f64 {
    MARGIN * (to * to.ln().powi(2)) / (from * from.ln().powi(2))
}

impl Series {
    const fn new() -> Self {
        Self { points: Vec::new(), within: true }
    }

    /// Adds a time. The factor to the size before, and the one that is allowed.
    fn add(&mut self, size: f64, seconds: f64) -> [String; 2] {
        let ends = self.points.first().copied().zip(self.points.last().copied());
        self.points.push((size, seconds));
        let Some((first, before)) = ends else { return [String::new(), String::new()] };
        let factor = |from: (f64, f64)| seconds / from.1;
        self.within &= [first, before].iter().all(|&from| factor(from) <= allowed(from.0, size));

        [times(factor(before)), times(allowed(before.0, size))]
    }

    fn say(&self, what: &str) -> String {
        format!("- {what}: {}", if self.within { "within n log² n" } else { "NOT within n log² n" })
    }
}

/// Realistic songs by objects.
pub fn songs(seed: u64, plan: Plan) {
    head(
        "Growth with the objects of a realistic song",
        &["objects", "notes", "ours, ms", "ours, ns an object", "factor", "allowed", "Rust, ms", "factor"],
    );
    let (mut ours, mut rust) = (Series::new(), Series::new());
    for objects in [500, 1000, 2000, 4000] {
        let mut job = accepted("growth", &songs::realistic(seed, objects));
        let [mine, theirs] = job.measure(plan);
        let [factor, allowed] = ours.add(objects as f64, mine);
        let [their_factor, _] = rust.add(objects as f64, theirs);
        let each = whole(mine / objects as f64 * 1e9);
        row(&[count(objects), count(job.notes as usize), ms(mine), each, factor, allowed, ms(theirs), their_factor]);
    }
    println!("\nAllowed is {MARGIN} times the factor of n log² n.\n\n{}", ours.say("objects, the whole job"));
}

const ORDERS: &str = "\
The order's part is the job less the same job in a buffer a byte too short, which ends at the last object and zeroes the buffer; \
the zeroing is put back. \
An object's notes rise and starts never fall, so a job makes no notes that only fall, and at most some 200,000 in order.";

/// The chart writer's order, by notes.
pub fn orders(seed: u64, plan: Plan) {
    head(
        "Growth with the notes of a chart",
        &[
            "notes come",
            "notes",
            "ours, ms",
            "ours, ns a note",
            "factor",
            "of it the order, ms",
            "factor",
            "allowed",
            "Rust, ms",
            "factor",
            "Rust / ours",
        ],
    );
    let mut lines = Vec::new();
    for sizes in songs::by_order(seed).chunks(3) {
        lines.extend(order(plan, sizes));
    }
    println!("\n{ORDERS}\n\n{}", lines.join("\n"));
}

/// One order in rising sizes.
fn order(plan: Plan, sizes: &[(&str, Song)]) -> [String; 2] {
    let [mut ours, mut part, mut rust] = [const { Series::new() }; 3];
    for (name, song) in sizes {
        let mut job = accepted(name, song);
        let [mine, theirs, ordering] = job.measure_order(plan);
        let notes = f64::from(job.notes);
        let [factor, allowed] = ours.add(notes, mine);
        let [part_factor, _] = if ordering < SMALL * mine { [String::new(), String::new()] } else { part.add(notes, ordering) };
        let [their_factor, _] = rust.add(notes, theirs);
        row(&[
            name.to_string(),
            whole(notes),
            ms(mine),
            whole(mine / notes * 1e9),
            factor,
            ms(ordering),
            part_factor,
            allowed,
            ms(theirs),
            their_factor,
            times(theirs / mine),
        ]);
    }
    let name = sizes[0].0;
    let alone = format!("notes {name}, the order alone");
    let said = if part.points.is_empty() { format!("- {alone}: under {SMALL} of the job") } else { part.say(&alone) };

    [ours.say(&format!("notes {name}, the whole job")), said]
}
