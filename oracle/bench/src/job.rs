//! Jobs: compared with the Rust before they are measured.

use std::time::Duration;

use compare::lent_bytes;
use entry::{JobEnd, chart_bytes};
use jobs::Song;
use library::Numbers;
use reference::Prepared;

use crate::time::{Plan, medians, run};

/// A job as a host lends it. The chart buffer is not cleared between calls.
pub struct Job {
    pub record: Vec<u8>,
    pub chart: Vec<u8>,
    pub allowance: u32,
}

impl Job {
    /// How the job ends in the Rust. Fails where ours gives another number or another byte of the buffer.
    pub fn compare(&mut self, name: &str) -> JobEnd {
        let mut expected = self.chart.clone();
        let end = reference::job(&self.record, &mut expected, self.allowance);
        let numbers = library::convert(&self.record, &mut self.chart, self.allowance);
        assert!(numbers == Numbers::of(end, &expected), "{name}: the answers differ: {numbers:?}, {end:?}");
        assert!(self.chart == expected, "{name}: the charts differ");

        end
    }

    /// One run of ours: the seconds of a job.
    pub fn run(&mut self, least: Duration) -> f64 {
        let Self { record, chart, allowance } = self;
        run(least, || (), |()| library::convert(record, chart, *allowance))
    }
}

/// A song that is accepted, with what the Rust needs and makes.
pub struct Accepted {
    pub objects: usize,
    pub notes: u32,
    pub draws: u32,
    pub job: Job,
    prepared: Prepared,
}

/// The chart's length in bytes.
pub fn length(notes: u32) -> usize {
    chart_bytes(notes as usize)
}

/// A job with exactly the room and the draws that its song needs, compared with the Rust.
pub fn accepted(name: &str, song: &Song) -> Accepted {
    let record = song.bytes();
    let prepared = reference::prepare(&record).expect("the record is accepted");
    let (notes, draws) = prepared.convert().expect("the song is converted");
    let mut job = Job { record, chart: lent_bytes(length(notes)), allowance: draws };
    let end = job.compare(name);
    assert!(matches!(end, JobEnd::Chart { length: bytes, .. } if bytes == length(notes)), "{name}: {end:?}");

    Accepted { objects: song.objects.len(), notes, draws, job, prepared }
}

impl Accepted {
    /// One call of one side, for a profiler.
    pub fn once(&mut self, side: &str) {
        match side {
            "ours" => self.job.run(Duration::ZERO),
            _ => run(Duration::ZERO, || self.prepared.clone(), Prepared::run),
        };
    }

    /// The median seconds of ours, a whole job, and of the Rust's `convert`.
    pub fn measure(&mut self, plan: Plan) -> [f64; 2] {
        let Self { job, prepared, .. } = self;
        let mut rust = || run(plan.least, || prepared.clone(), Prepared::run);

        medians(plan.runs, [&mut || job.run(plan.least), &mut rust])
    }

    /// The same, and the part of ours that orders the chart. A buffer that is a byte too short ends the job at the last object, in place of
    /// ordering, and zeroes the buffer; an empty record only zeroes it.
    pub fn measure_order(&mut self, plan: Plan) -> [f64; 3] {
        let room = self.job.chart.len() - 1;
        let mut short = Job { record: self.job.record.clone(), chart: vec![0; room], allowance: self.draws };
        let mut empty = Job { record: Vec::new(), chart: vec![0; room], allowance: 0 };
        let Self { job, prepared, .. } = self;
        let [ours, rust, walk, zero] = medians(
            plan.runs,
            [
                &mut || job.run(plan.least),
                &mut || run(plan.least, || prepared.clone(), Prepared::run),
                &mut || short.run(plan.least),
                &mut || empty.run(plan.least),
            ],
        );

        [ours, rust, ours - (walk - zero)]
    }
}
