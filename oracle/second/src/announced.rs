//! Songs announced with rounded figures (document 02, change request 11).

use entry::{AnnouncedSlider, AnnouncedSong};

use crate::{
    convert::checked,
    floats::{within, within32},
    record::columns_by_share,
    refusal::Refusal,
    slider::{Pace, Times},
};

/// The whole numbers that some f32 of the range rounds to. A value less than a half away rounds to
/// the whole number, one exactly a half away only where it is even. Where the range only reaches
/// beyond an odd number's bound, the f32 next to the bound is in the range, and rounds to it.
fn rounded([low, high]: [f32; 2]) -> impl Iterator<Item = f32> + Clone {
    (0..=10_u8)
        .filter(move |whole| {
            let (below, above) = (f32::from(*whole) - 0.5, f32::from(*whole) + 0.5);

            if whole % 2 == 0 {
                low <= above && high >= below
            } else {
                low < above && high > below
            }
        })
        .map(f32::from)
}

/// Bit c is set where c columns can come; or 20 or 21.
pub fn column_counts(ask: &AnnouncedSong) -> Result<u32, u8> {
    let AnnouncedSong {
        od,
        cs,
        objects,
        sliders_and_spinners: long,
    } = *ask;

    for [low, high] in [od, cs] {
        if !within32(low, 0.0, 10.0) || !within32(high, 0.0, 10.0) || low > high {
            return Err(20);
        }
    }

    if objects >= 1 << 12 || objects < long {
        return Err(21);
    }

    let mut counts = 0;
    for od in rounded(od) {
        for cs in rounded(cs) {
            counts |= 1 << columns_by_share(long as usize, objects as usize, cs, od);
        }
    }

    Ok(counts)
}

/// The earliest and the latest end. No step from a distance to its end turns the order round, so
/// they are those of the range's two distances.
pub fn slider_ends(ask: &AnnouncedSlider) -> Result<(u64, u64), u8> {
    checked(&ask.single(None)).map_err(Refusal::number)?;

    let [low, high] = ask.distance;
    if !within(low, 0.0, 131_072.0) || !within(high, 0.0, 131_072.0) || low > high {
        return Err(20);
    }

    let pace = Pace {
        multiplier: ask.multiplier,
        beat_length: ask.beat_length,
        velocity: ask.velocity,
    };
    let end =
        |distance| Times::new(ask.start, ask.repeats, distance, pace).map(|times| times.end as u64);
    let latest = end(high).map_err(Refusal::number)?;
    let earliest = end(low).map_err(Refusal::number)?;

    Ok((earliest, latest))
}
