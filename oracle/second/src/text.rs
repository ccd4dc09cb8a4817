//! The text that `charttext` prints for a job on its standard input.

use entry::JobEnd;

use crate::{job, read_chart};

/// Input longer than this is not read as a job.
const LONGEST: usize = 65_536;

pub fn charttext(input: &[u8]) -> String {
    if input.len() > LONGEST {
        return "too long\n".into();
    }

    let mut chart = vec![0; LONGEST];

    let length = match job(input, &mut chart, 1_000_000) {
        JobEnd::Chart { length, .. } => length,
        JobEnd::Refused {
            number,
            object,
            draws,
        } => {
            return format!("refused {number} object {object} draws {draws}\n");
        }
    };

    read_chart(&chart[..length]).map_or_else(|| "refused 14\n".into(), |chart| chart.text())
}
