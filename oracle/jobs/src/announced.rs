//! Songs and sliders announced with rounded figures.

use entry::{AnnouncedSlider, AnnouncedSong};

use crate::{
    records::{MOST_REPEATS, beat_length, multiplier, position, repeats, sound, velocity},
    rng::Rng,
    singles::{beyond, beyond32, wide},
};

/// Document 01's limit for a slider's end.
const LAST_END: f64 = 33_554_431.0;

/// A whole number, a value midway between two, or an f32 beside one of these.
fn bound(rng: &mut Rng) -> f32 {
    let halves = rng.between(0, 20) as f32 / 2.0;

    rng.pick(&[halves, halves, halves.next_up(), halves.next_down()])
        .clamp(0.0, 10.0)
}

fn setting(rng: &mut Rng) -> f32 {
    if rng.percent(60) {
        bound(rng)
    } else {
        rng.uniform(0.0, 10.0) as f32
    }
}

/// A range of od or cs, one in eight of them refused.
fn setting_range(rng: &mut Rng) -> [f32; 2] {
    let (one, other) = (setting(rng), setting(rng));
    let (low, high) = (one.min(other), one.max(other));

    match rng.below(16) {
        // A figure with one decimal: from 0.05 less to 0.05 more.
        0..=5 => {
            let twentieths = 2.0 * rng.between(0, 100) as f64;
            let range = [twentieths - 1.0, twentieths + 1.0].map(|end| (end / 20.0) as f32);
            if rng.percent(10) {
                range
            } else {
                range.map(|end| end.clamp(0.0, 10.0))
            }
        }
        6 | 7 => [low, low],
        8 => {
            let steps = rng.below(3) as u32;
            [low, f32::from_bits(low.to_bits() + steps).min(10.0)]
        }
        9 => [high, low],
        10 => {
            let far = rng.pick(&[10.0_f32.next_up(), -1e-45, 10.5, -1.0, 11.0]);
            let end = if rng.percent(50) { beyond32(rng) } else { far };
            if rng.percent(50) {
                [end, high]
            } else {
                [low, end]
            }
        }
        _ => [low, high],
    }
}

/// An announced song. The share of sliders and spinners is often at a bound, or one object off.
pub fn announced_song(rng: &mut Rng) -> AnnouncedSong {
    let objects = match rng.below(40) {
        0 | 1 => 0,
        2 => rng.pick(&[4095, 4096, 4097, u32::MAX]),
        3 => rng.between(1000, 4095) as u32,
        _ => rng.between(1, 60) as u32,
    };
    let share = rng.pick(&[0.0, 0.2, 0.2, 0.3, 0.3, 0.45, 0.6, 0.6, 0.8, 1.0]);
    let near = (share * f64::from(objects)).round() as i64 + rng.pick(&[-1, 0, 0, 1]);
    let sliders_and_spinners = match rng.below(40) {
        0 => rng.pick(&[objects.wrapping_add(1), u32::MAX, 4095, 0]),
        _ => near.clamp(0, i64::from(objects)) as u32,
    };

    AnnouncedSong {
        od: setting_range(rng),
        cs: setting_range(rng),
        objects,
        sliders_and_spinners,
    }
}

/// About the distance that ends at the limit.
fn last_distance(slider: &AnnouncedSlider) -> f64 {
    let beat = slider.beat_length * (100.0 / slider.velocity).clamp(10.0, 10_000.0) / 100.0;
    let spans = f64::from(slider.repeats.min(MOST_REPEATS)) + 1.0;

    (LAST_END - slider.start) * slider.multiplier / (0.01 * beat * spans)
}

/// A range of distances, some of them refused.
fn distance_range(rng: &mut Rng, slider: &AnnouncedSlider) -> [f64; 2] {
    let distance = |rng: &mut Rng| match rng.below(6) {
        0 => rng.pick(&[0.0, 5e-324, 131_072.0, 131_072.0_f64.next_down()]),
        1 => rng.uniform(0.0, 131_072.0),
        2 => rng.between(0, 131_072) as f64,
        _ => rng.uniform(0.0, 1000.0),
    };
    let (one, other) = (distance(rng), distance(rng));
    let (low, high) = (one.min(other), one.max(other));

    match rng.below(20) {
        // A whole pixel: from a half less to a half more.
        0..=8 => {
            let pixels = if rng.percent(80) {
                rng.between(1, 1000)
            } else {
                rng.between(0, 131_072)
            } as f64;
            let range = [pixels - 0.5, pixels + 0.5];
            if rng.percent(10) {
                range
            } else {
                range.map(|end| end.clamp(0.0, 131_072.0))
            }
        }
        9 | 10 => [low, low],
        // Around the distance that ends at the limit, where there is one.
        11..=13 => {
            let last = last_distance(slider);
            let width = rng.pick(&[0.0, 1e-9, 1e-3, 0.5, 10.0]);
            [last - rng.unit() * width, last + rng.unit() * width]
                .map(|end| end.clamp(0.0, 131_072.0))
        }
        14 => [high, low],
        15 => {
            let end = beyond(rng, 0.0, 131_072.0);
            if rng.percent(50) {
                [end, high]
            } else {
                [low, end]
            }
        }
        _ => [low, high],
    }
}

/// Puts one field out of its range, or of its width.
fn fault(rng: &mut Rng, slider: &mut AnnouncedSlider) {
    match rng.below(10) {
        0 => slider.multiplier = beyond(rng, 0.4, 3.6),
        1 => slider.beat_length = beyond(rng, 6.0, 60_000.0),
        2 => slider.velocity = beyond(rng, 0.1, 10.0),
        3 => slider.x = beyond32(rng),
        4 => slider.y = beyond32(rng),
        5 => slider.start = beyond(rng, 0.0, 16_777_215.0),
        6 => {
            slider.sound = if rng.percent(50) {
                wide(rng, 16)
            } else {
                256 + rng.below(16) as u32
            }
        }
        7 => {
            slider.repeats = if rng.percent(50) {
                wide(rng, MOST_REPEATS + 1)
            } else {
                65_536 + rng.below(300) as u32
            }
        }
        8 => {
            slider.node_sound = Some(if rng.percent(50) {
                wide(rng, 16)
            } else {
                u32::MAX - 255 + rng.below(16) as u32
            })
        }
        _ => slider.distance = [beyond(rng, 0.0, 131_072.0), beyond(rng, 0.0, 131_072.0)],
    }
}

/// An announced slider; one in four has a field out of range, and some of these two or three.
pub fn announced_slider(rng: &mut Rng) -> AnnouncedSlider {
    let (x, y) = position(rng, 0, 7, (0.0, 0.0));
    let mut slider = AnnouncedSlider {
        multiplier: multiplier(rng),
        beat_length: beat_length(rng),
        velocity: velocity(rng),
        x,
        y,
        start: if rng.percent(50) {
            rng.uniform(0.0, 600_000.0)
        } else {
            rng.between(0, 33_554_430) as f64 / 2.0
        },
        sound: sound(rng),
        repeats: repeats(rng),
        node_sound: if rng.percent(50) {
            Some(sound(rng))
        } else {
            None
        },
        distance: [0.0, 0.0],
    };
    slider.distance = distance_range(rng, &slider);

    let faults = rng.pick(&[0, 0, 0, 0, 0, 0, 0, 0, 0, 1, 2, 3]);
    for _ in 0..faults {
        fault(rng, &mut slider);
    }

    slider
}

/// Distances of the slider's range, where it is one: next to its ends, midway, and anywhere.
pub fn distances(rng: &mut Rng, slider: &AnnouncedSlider, count: usize) -> Vec<f64> {
    let [low, high] = slider.distance;
    let next = [low.next_up(), high.next_down(), low + (high - low) / 2.0];
    let mut within: Vec<f64> = next
        .into_iter()
        .filter(|distance| (low..=high).contains(distance))
        .collect();

    while within.len() < count && low <= high {
        within.push(rng.uniform(low, high).clamp(low, high));
    }

    within
}
