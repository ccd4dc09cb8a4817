//! Hit object lines, written and read as a host in C does.

use entry::LinesEnd;

mod c {
    unsafe extern "C" {
        pub fn sumopine_write_hit_objects(chart: *const u8, chart_len: usize, text: *mut u8, text_len: usize, length: *mut u64) -> u32;
        pub fn sumopine_read_hit_objects(text: *const u8, text_len: usize, columns: u32, chart: *mut u8, chart_len: usize, length: *mut u64) -> u32;
    }
}

/// `sumopine_write_hit_objects`: its result, then the length. The outputs are lent with all bits set, so that one that is not written shows.
pub fn write_hit_objects(chart: &[u8], text: &mut [u8]) -> (u32, u64) {
    let mut length = u64::MAX;
    let number = unsafe { c::sumopine_write_hit_objects(chart.as_ptr(), chart.len(), text.as_mut_ptr(), text.len(), &mut length) };

    (number, length)
}

/// `sumopine_read_hit_objects`: its result, then the length.
pub fn read_hit_objects(text: &[u8], columns: u32, chart: &mut [u8]) -> (u32, u64) {
    let mut length = u64::MAX;
    let number = unsafe { c::sumopine_read_hit_objects(text.as_ptr(), text.len(), columns, chart.as_mut_ptr(), chart.len(), &mut length) };

    (number, length)
}

/// What include/sumopine.h says of each end.
pub fn lines_numbers(end: LinesEnd) -> (u32, u64) {
    match end {
        LinesEnd::Written { length } => (0, length as u64),
        LinesEnd::Refused { number } => (number.into(), 0),
    }
}
