//! `sumopine_column_counts` and `sumopine_slider_ends`, called as a host in C calls them.

use entry::{AnnouncedSlider, AnnouncedSong};

mod c {
    unsafe extern "C" {
        pub fn sumopine_column_counts(
            od_low: f32,
            od_high: f32,
            cs_low: f32,
            cs_high: f32,
            objects: u32,
            sliders_and_spinners: u32,
            counts: *mut u32,
        ) -> u32;
        pub fn sumopine_slider_ends(
            multiplier: f64,
            beat: f64,
            velocity: f64,
            x: f32,
            y: f32,
            start: f64,
            sound: u32,
            repeats: u32,
            has_node: u32,
            node: u32,
            distance_low: f64,
            distance_high: f64,
            earliest: *mut u64,
            latest: *mut u64,
        ) -> u32;
    }
}

/// The result and the counts. The output is lent with all bits set, so that one that is not written shows.
pub fn column_counts(ask: &AnnouncedSong) -> (u32, u32) {
    let mut counts = u32::MAX;
    let AnnouncedSong { od, cs, objects, sliders_and_spinners } = *ask;
    let number = unsafe { c::sumopine_column_counts(od[0], od[1], cs[0], cs[1], objects, sliders_and_spinners, &mut counts) };

    (number, counts)
}

/// The result and the two ends. `other` is a flag where there is a node sound, and else the number that must not count.
pub fn slider_ends(ask: &AnnouncedSlider, other: u32) -> (u32, u64, u64) {
    let (mut earliest, mut latest) = (u64::MAX, u64::MAX);
    let (has_node, node) = ask.node_sound.map_or((0, other), |node| (other.max(1), node));
    let number = unsafe {
        c::sumopine_slider_ends(
            ask.multiplier,
            ask.beat_length,
            ask.velocity,
            ask.x,
            ask.y,
            ask.start,
            ask.sound,
            ask.repeats,
            has_node,
            node,
            ask.distance[0],
            ask.distance[1],
            &mut earliest,
            &mut latest,
        )
    };

    (number, earliest, latest)
}

/// What include/sumopine.h says of an answer.
pub fn counts_of(answer: Result<u32, u8>) -> (u32, u32) {
    answer.map_or_else(|number| (number.into(), 0), |counts| (0, counts))
}

pub fn ends_of(answer: Result<(u64, u64), u8>) -> (u32, u64, u64) {
    answer.map_or_else(|number| (number.into(), 0, 0), |(earliest, latest)| (0, earliest, latest))
}
