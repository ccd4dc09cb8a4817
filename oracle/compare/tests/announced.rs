//! Worked examples of document 02's change request 11, of both implementations.

use entry::{AnnouncedSlider, AnnouncedSong};

fn counts(od: [f32; 2], cs: [f32; 2], sliders_and_spinners: u32, objects: u32) -> Result<Vec<u32>, u8> {
    let ask = AnnouncedSong { od, cs, objects, sliders_and_spinners };
    let counts = reference::column_counts(&ask);
    assert_eq!(second::column_counts(&ask), counts);

    counts.map(|counts| (0..32).filter(|column| counts >> column & 1 == 1).collect())
}

fn ends(ask: AnnouncedSlider) -> Result<(u64, u64), u8> {
    let ends = reference::slider_ends(&ask, &[]);
    assert_eq!(second::slider_ends(&ask), ends);

    ends
}

/// Document 01's slider, announced with a length of 100.
const SLIDER: AnnouncedSlider = AnnouncedSlider {
    multiplier: 1.0,
    beat_length: 1000.0,
    velocity: 1.0,
    x: 0.0,
    y: 0.0,
    start: 1000.4,
    sound: 0,
    repeats: 0,
    node_sound: None,
    distance: [99.5, 100.5],
};

const CS: [f32; 2] = [3.95, 4.05];

#[test]
fn columns_of_ranges() {
    // 5.45 rounds to 5, and 5.55 to 6.
    assert_eq!(counts([5.45, 5.55], CS, 2, 10), Ok(vec![6, 7]));
    // A cs of 5 counts otherwise than one of 4, but not without objects.
    assert_eq!(counts([4.0, 4.0], [4.0, 5.0], 5, 10), Ok(vec![5, 6]));
    assert_eq!(counts([4.0, 4.0], [4.0, 5.0], 0, 0), Ok(vec![5]));
    // What lies between the ends counts too.
    assert_eq!(counts([3.0, 6.0], CS, 0, 0), Ok(vec![4, 5, 6, 7]));
    assert_eq!(counts([0.0, 10.0], [0.0, 10.0], 4095, 4095), Ok(vec![4, 5, 6, 7]));
}

#[test]
fn ties_go_to_even() {
    assert_eq!(counts([4.5, 4.5], CS, 0, 0), Ok(vec![5]));
    assert_eq!(counts([4.5, 4.5_f32.next_up()], CS, 0, 0), Ok(vec![5, 6]));
    assert_eq!(counts([5.5_f32.next_down(), 5.5], CS, 0, 0), Ok(vec![6, 7]));
    assert_eq!(counts([5.5, 6.5], CS, 0, 0), Ok(vec![7]));
}

#[test]
fn refused_ranges_and_counts() {
    for end in [f32::NAN, f32::INFINITY, -0.0, -1e-45, 10.0_f32.next_up()] {
        for range in [[end, 5.0], [5.0, end]] {
            assert_eq!(counts(range, CS, 11, 10), Err(20));
            assert_eq!(counts(CS, range, 0, 4096), Err(20));
        }
    }
    assert_eq!(counts([5.55, 5.45], CS, 5, 4), Err(20));
    assert_eq!(counts(CS, CS, 5, 4), Err(21));
    assert_eq!(counts(CS, CS, 1, 0), Err(21));
    assert_eq!(counts(CS, CS, 0, 4096), Err(21));
}

#[test]
fn ends_of_a_range() {
    assert_eq!(ends(SLIDER), Ok((1995, 2005)));
    assert_eq!(ends(AnnouncedSlider { distance: [0.0, 0.0], ..SLIDER }), Ok((1000, 1000)));
    assert_eq!(ends(AnnouncedSlider { repeats: 2, distance: [0.0, 33.34], ..SLIDER }), Ok((1000, 2000)));
}

/// Each fault is refused before those that come after it.
#[test]
fn refused_sliders() {
    // The last end is 33,554,431: of a beat length of 60,000 and a velocity of 1 a unit lasts 600 ms.
    let late = AnnouncedSlider { beat_length: 60_000.0, start: 31.0, distance: [0.0, 55_924.0], ..SLIDER };
    assert_eq!(ends(late), Ok((31, 33_554_431)));
    let late = AnnouncedSlider { start: 32.0, ..late };
    assert_eq!(ends(late), Err(8));
    for range in [[55_924.0, 0.0], [-0.0, 1.0], [0.0, 131_072.0_f64.next_up()], [0.0, f64::NAN]] {
        let turned = AnnouncedSlider { distance: range, ..late };
        assert_eq!(ends(turned), Err(20));
        for object in [
            AnnouncedSlider { x: -513.0, ..turned },
            AnnouncedSlider { y: f32::NAN, ..turned },
            AnnouncedSlider { start: -0.0, ..turned },
            AnnouncedSlider { sound: 264, ..turned },
            AnnouncedSlider { repeats: 300, ..turned },
            AnnouncedSlider { repeats: 65_536 + 5, ..turned },
            AnnouncedSlider { node_sound: Some(u32::MAX), ..turned },
        ] {
            assert_eq!(ends(object), Err(6));
            assert_eq!(ends(AnnouncedSlider { beat_length: 5.0, ..object }), Err(5));
            assert_eq!(ends(AnnouncedSlider { velocity: 11.0, ..object }), Err(5));
            assert_eq!(ends(AnnouncedSlider { velocity: 11.0, multiplier: 0.3, ..object }), Err(4));
        }
    }
}
