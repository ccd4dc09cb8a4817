//! The proved library, called as a host in C calls it.

use entry::{Chart, JobEnd, Note};

pub mod announced;
pub mod hit_objects;
pub mod lookups;
pub mod object;
pub mod sheets;

mod c {
    unsafe extern "C" {
        pub fn sumopine_convert(
            record: *const u8,
            record_len: usize,
            chart: *mut u8,
            chart_len: usize,
            allowance: u32,
            length: *mut u64,
            object: *mut u32,
            draws: *mut u32,
            longest_search: *mut u32,
        ) -> u32;
        pub fn sumopine_read_chart(
            chart: *const u8,
            chart_len: usize,
            version: *mut u32,
            columns: *mut u32,
            notes: *mut u32,
            draws: *mut u32,
        ) -> u32;
        pub fn sumopine_note(
            chart: *const u8,
            chart_len: usize,
            index: u32,
            column: *mut u32,
            hold: *mut u32,
            start: *mut u64,
            duration: *mut u64,
            has_object: *mut u32,
            object: *mut u32,
        ) -> u32;
    }
}

/// The five numbers that a job gives to the host.
#[derive(Clone, Copy, Debug, PartialEq, Eq)]
pub struct Numbers {
    pub number: u32,
    pub length: u64,
    pub object: u32,
    pub draws: u32,
    pub longest_search: u32,
}

/// What include/sumopine.h says of each case. A chart has its draws in its header.
impl Numbers {
    pub fn of(end: JobEnd, chart: &[u8]) -> Self {
        match end {
            JobEnd::Chart { length, longest_search } => {
                let draws = u32::from_be_bytes([chart[4], chart[5], chart[6], chart[7]]);
                Self { number: 0, length: length as u64, object: 0, draws, longest_search }
            }
            JobEnd::Refused { number, object, draws } => Self { number: number.into(), length: 0, object, draws, longest_search: 0 },
        }
    }
}

/// `sumopine_convert`. The outputs are lent with all bits set, so that one that is not written shows.
pub fn convert(record: &[u8], chart: &mut [u8], allowance: u32) -> Numbers {
    let (mut length, mut object, mut draws, mut longest_search) = (u64::MAX, u32::MAX, u32::MAX, u32::MAX);
    let number = unsafe {
        c::sumopine_convert(
            record.as_ptr(),
            record.len(),
            chart.as_mut_ptr(),
            chart.len(),
            allowance,
            &mut length,
            &mut object,
            &mut draws,
            &mut longest_search,
        )
    };

    Numbers { number, length, object, draws, longest_search }
}

/// `sumopine_read_chart`: its result, then version, columns, notes and draws.
pub fn read(chart: &[u8]) -> [u32; 5] {
    let [mut version, mut columns, mut notes, mut draws] = [u32::MAX; 4];
    let number = unsafe { c::sumopine_read_chart(chart.as_ptr(), chart.len(), &mut version, &mut columns, &mut notes, &mut draws) };

    [number, version, columns, notes, draws]
}

/// What `sumopine_note` gives to the host.
#[derive(Clone, Copy, Debug, Default, PartialEq, Eq)]
pub struct NoteNumbers {
    pub found: u32,
    pub column: u32,
    pub hold: u32,
    pub start: u64,
    pub duration: u64,
    pub has_object: u32,
    pub object: u32,
}

/// `sumopine_note`.
pub fn note(chart: &[u8], index: u32) -> NoteNumbers {
    let ([mut column, mut hold, mut has_object, mut object], [mut start, mut duration]) = ([u32::MAX; 4], [u64::MAX; 2]);
    let found = unsafe {
        c::sumopine_note(
            chart.as_ptr(),
            chart.len(),
            index,
            &mut column,
            &mut hold,
            &mut start,
            &mut duration,
            &mut has_object,
            &mut object,
        )
    };

    NoteNumbers { found, column, hold, start, duration, has_object, object }
}

/// What `read` gives for what the Rust reads.
pub fn header(chart: Option<&Chart>) -> [u32; 5] {
    chart.map_or([14, 0, 0, 0, 0], |chart| [0, chart.version.into(), chart.columns.into(), chart.notes.len() as u32, chart.draws])
}

/// What `note` gives for a note.
impl From<&Note> for NoteNumbers {
    fn from(note: &Note) -> Self {
        Self {
            found: 1,
            column: note.column.into(),
            hold: note.hold.into(),
            start: note.start,
            duration: note.duration,
            has_object: note.object.is_some().into(),
            object: note.object.unwrap_or(0).into(),
        }
    }
}
