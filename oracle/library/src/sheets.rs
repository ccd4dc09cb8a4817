//! The chart sheet, called as a host in C calls it.

use entry::SheetEnd;

mod c {
    unsafe extern "C" {
        pub fn sumopine_sheet(chart: *const u8, chart_len: usize, sheet: *mut u8, sheet_len: usize, length: *mut u64) -> u32;
    }
}

/// `sumopine_sheet`: its result, then the length. The output is lent with all bits set, so that it shows where it is not written.
pub fn sheet(chart: &[u8], buffer: &mut [u8]) -> (u32, u64) {
    let mut length = u64::MAX;
    let number = unsafe { c::sumopine_sheet(chart.as_ptr(), chart.len(), buffer.as_mut_ptr(), buffer.len(), &mut length) };

    (number, length)
}

/// What include/sumopine.h says of each end.
pub fn sheet_numbers(end: SheetEnd) -> (u32, u64) {
    match end {
        SheetEnd::Sheet { length } => (0, length as u64),
        SheetEnd::Refused { number } => (number.into(), 0),
    }
}
