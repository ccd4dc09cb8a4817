//! The lookups of notes around a moment, called as a host in C calls them.

use entry::{ListEnd, NearestEnd};

mod c {
    unsafe extern "C" {
        pub fn sumopine_notes_between(
            chart: *const u8,
            chart_len: usize,
            first: f64,
            second: f64,
            places: *mut u32,
            places_len: usize,
            count: *mut u64,
        ) -> u32;
        pub fn sumopine_holds_at(chart: *const u8, chart_len: usize, time: f64, places: *mut u32, places_len: usize, count: *mut u64) -> u32;
        pub fn sumopine_nearest_note(
            chart: *const u8,
            chart_len: usize,
            column: u32,
            time: f64,
            found: *mut u32,
            place: *mut u32,
        ) -> u32;
    }
}

/// `sumopine_notes_between`: its result, then the count. The outputs are lent with all bits set, so that one that is not written shows.
pub fn notes_between(chart: &[u8], first: f64, second: f64, places: &mut [u32]) -> (u32, u64) {
    let mut count = u64::MAX;
    let number = unsafe { c::sumopine_notes_between(chart.as_ptr(), chart.len(), first, second, places.as_mut_ptr(), places.len(), &mut count) };

    (number, count)
}

/// `sumopine_holds_at`: its result, then the count.
pub fn holds_at(chart: &[u8], time: f64, places: &mut [u32]) -> (u32, u64) {
    let mut count = u64::MAX;
    let number = unsafe { c::sumopine_holds_at(chart.as_ptr(), chart.len(), time, places.as_mut_ptr(), places.len(), &mut count) };

    (number, count)
}

/// `sumopine_nearest_note`: its result, then whether a note is found, and its place.
pub fn nearest_note(chart: &[u8], column: u32, time: f64) -> (u32, u32, u32) {
    let (mut found, mut place) = (u32::MAX, u32::MAX);
    let number = unsafe { c::sumopine_nearest_note(chart.as_ptr(), chart.len(), column, time, &mut found, &mut place) };

    (number, found, place)
}

/// What include/sumopine.h says of each end of a list lookup.
pub fn list_numbers(end: ListEnd) -> (u32, u64) {
    match end {
        ListEnd::Places { count } => (0, count as u64),
        ListEnd::Refused { number } => (number.into(), 0),
    }
}

/// What include/sumopine.h says of each end of the nearest note's.
pub fn nearest_numbers(end: NearestEnd) -> (u32, u32, u32) {
    match end {
        NearestEnd::Place { place } => (0, 1, place),
        NearestEnd::Nothing => (0, 0, 0),
        NearestEnd::Refused { number } => (number.into(), 0, 0),
    }
}
