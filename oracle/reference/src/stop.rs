//! Where the unchanged Rust stops: refusals 8, 9, 10, 12 and 16.

use std::panic::{self, AssertUnwindSafe};

use rosu_map::util::OffDeck;

use crate::{
    Beatmap,
    model::{
        control_point::{DifficultyPoint, TimingPoint},
        hit_object::{HitObject, HitObjectKind},
    },
    ranges::LAST,
    util::{
        get_precision_adjusted_beat_len,
        random::osu::{LongSearch, NoColumn, Spent},
    },
};

/// Runs unchanged code to its end, or to the refusal it stops with. A panic goes on.
pub fn guarded<T>(run: impl FnOnce() -> T) -> Result<T, u8> {
    panic::catch_unwind(AssertUnwindSafe(run)).map_err(|payload| {
        if payload.is::<NoColumn>() {
            9
        } else if payload.is::<OffDeck>() {
            10
        } else if payload.is::<Spent>() {
            12
        } else if payload.is::<LongSearch>() {
            16
        } else {
            panic::resume_unwind(payload)
        }
    })
}

/// Whether an object is a slider that ends above the limit: the end as `PathObjectPatternGenerator`
/// computes it, before its cast would saturate.
pub fn ends_too_late(object: &HitObject, map: &Beatmap) -> bool {
    let HitObjectKind::Slider(slider) = &object.kind else {
        return false;
    };

    let timing_beat_len = map
        .timing_point_at(object.start_time)
        .map_or(TimingPoint::DEFAULT_BEAT_LEN, |point| point.beat_len);
    let slider_velocity = map
        .difficulty_point_at(object.start_time)
        .map_or(DifficultyPoint::DEFAULT_SLIDER_VELOCITY, |point| point.slider_velocity);
    let beat_len = get_precision_adjusted_beat_len(slider_velocity, timing_beat_len);

    let dist = slider.expected_dist.unwrap_or(0.0);
    let spans = slider.span_count() as f64;
    let end = object.start_time.round_ties_even()
        + dist * beat_len * spans * 0.01 / map.slider_multiplier;

    end.floor() > LAST
}
