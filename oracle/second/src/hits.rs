//! Counts of branches by name, so that a run can show which rules it has not met.
//! Counting is off until `start`, and each thread counts for itself.

use std::cell::{Cell, RefCell};

use crate::pattern::Previous;

macro_rules! branches {
    ($($name:ident)*) => {
        /// A row of the table.
        #[allow(non_camel_case_types)]
        #[derive(Clone, Copy)]
        pub(crate) enum B { $($name),* }

        /// The names of all rows.
        pub const NAMES: &[&str] = &[$(stringify!($name)),*];
    };
}

branches! {
    // The record: cut fields, ranges, order; columns; difficulty; facts in force.
    cut_version
    wrong_version
    cut_key_choice
    wrong_key_choice
    cut_hp
    out_hp
    cut_cs
    out_cs
    cut_od
    out_od
    cut_ar
    out_ar
    cut_multiplier
    out_multiplier
    cut_count
    cut_break_start
    out_break_start
    cut_break_end
    out_break_end
    order_break
    cut_timing_time
    out_timing_time
    order_timing_time
    cut_beat_length
    out_beat_length
    cut_difficulty_time
    out_difficulty_time
    order_difficulty_time
    cut_velocity
    out_velocity
    cut_effect_time
    out_effect_time
    order_effect_time
    cut_kiai
    cut_kind
    cut_sound
    cut_x
    out_x
    cut_y
    out_y
    cut_start
    out_start
    order_start
    cut_duration
    out_duration
    cut_repeats
    out_repeats
    cut_distance_bit
    cut_distance
    out_distance
    cut_node_bit
    cut_node_sound
    filling_not_zero
    bytes_follow
    columns_key_choice
    columns_no_objects
    columns_share_under_0_2
    columns_share_under_0_3
    columns_cs_from_5
    columns_od_over_5
    columns_od_up_to_5
    columns_share_over_0_6_od
    columns_share_over_0_6
    columns_share_between
    columns_raised_to_4
    columns_by_od
    columns_cut_to_7
    drain_zero
    drain_negative
    drain_positive
    difficulty_cut_to_12
    timing_in_force
    timing_before_first
    timing_none
    velocity_in_force
    velocity_none
    velocity_before_first
    kiai_on
    kiai_off
    kiai_none
    kiai_before_first
    // Why a float field is out of range.
    float_nan
    float_infinite
    float_negative_zero
    float_below
    float_above
    // The walk and the entries.
    kind_circle
    kind_slider_with_distance
    kind_slider_without_distance
    kind_slider_with_node_sound
    kind_slider_without_node_sound
    kind_spinner
    kind_hold
    density_full
    density_some
    density_one_time
    job_notes_do_not_fit
    job_header_does_not_fit
    job_already_in_order
    job_chords_put_in_order
    job_put_in_order
    job_chart
    // What a job's object meets with 8 columns, by the columns of the previous pattern.
    previous_8_none
    previous_8_one
    previous_8_two
    previous_8_three
    previous_8_four
    previous_8_five
    previous_8_more
    previous_8_column_0_alone
    single_columns
    single_mask_beyond
    single_last_of_empty
    single_last_not_in_mask
    single_multiplier
    single_difficulty
    single_beat_length
    single_velocity
    single_sound
    single_repeats
    single_object_field
    single_previous_position
    single_previous_time
    single_density
    single_notes_do_not_fit
    single_made
    // Draws and counts of notes.
    draw_none_left
    count_5
    count_4
    count_3
    count_2
    count_1
    // Columns.
    pattern_off_deck
    column_below
    column_above
    column_inside
    // Outcomes of searches.
    search_circle_own
    search_circle_none
    search_circle_drawn
    search_gathered_own
    search_gathered_none
    search_gathered_stepped
    search_mirrored_own
    search_mirrored_none
    search_mirrored_drawn
    search_ended_own
    search_ended_none
    search_ended_drawn
    search_head_own
    search_head_none
    search_head_drawn
    search_holds_own
    search_holds_none
    search_holds_drawn
    search_more_holds_own
    search_more_holds_none
    search_more_holds_drawn
    search_other_own
    search_other_none
    search_other_drawn
    search_tiles_own
    search_tiles_none
    search_tiles_drawn
    search_beside_own
    search_beside_none
    search_beside_drawn
    search_gathered_wrapped
    search_again
    search_too_long
    // Circles.
    circle_caps_other
    circle_caps_2
    circle_caps_3
    circle_caps_4
    circle_caps_5
    mirrored_caps_other
    mirrored_caps_2
    mirrored_caps_3
    mirrored_caps_4
    mirrored_caps_5
    mirrored_caps_6
    circle_turns_to_reverse_stair
    circle_turns_to_stair
    circle_gap_80
    circle_gap_95
    circle_gap_105
    circle_gap_125
    circle_gap_135_near
    circle_gap_150_near
    circle_near_and_slow
    circle_near_and_dense
    circle_far_and_dense
    circle_slow_in_kiai
    circle_slow_without_kiai
    // The separation decides, and the squares' sum is at most four floats from 400.
    circle_sum_400
    circle_sum_400_less_2_15
    circle_sum_400_less_2_14
    circle_sum_about_400
    circle_mirror
    circle_gathered_8_finish
    circle_gathered
    circle_finish_8
    circle_plain_sound
    circle_one_column
    circle_reverse
    circle_reverse_8_empty
    circle_reverse_without_previous
    circle_cycle_not_one
    circle_cycle_8_column_0
    circle_cycle_centre
    circle_cycle
    circle_force_stack
    circle_force_stack_8_empty
    circle_force_stack_without_previous
    circle_stair_wrapped
    circle_stair
    circle_reverse_stair_wrapped
    circle_reverse_stair_8_column_0
    circle_reverse_stair
    circle_stair_not_one
    circle_keep_single
    circle_mirror_over_6_5
    circle_mirror_over_4
    circle_mirror_up_to_4
    mirrored_force_not_stack
    circle_over_6_5_low
    circle_over_6_5
    circle_over_4_low
    circle_over_4
    circle_over_2_low
    circle_over_2
    circle_up_to_2
    circle_room_below_0
    circle_room_0
    circle_room_cuts
    circle_room_suffices
    circle_may_stack
    circle_clap_2_columns
    circle_clap
    circle_8_special_column
    mirrored_count_1
    mirrored_count_2
    mirrored_count_3
    mirrored_centre
    mirrored_centre_not_with_3
    // Spinners and holds.
    ended_8_finish
    ended_8
    ended_plain
    ended_previous_full
    ended_hold
    ended_circle
    // Sliders.
    slider_end_beyond
    slider_caps_other
    slider_caps_2
    slider_caps_3
    slider_caps_4
    slider_caps_5
    slider_split_single
    slider_split_end_empty
    slider_split_all_at_end
    slider_split_both
    slider_one_column_circle
    slider_one_column
    slider_spans_zero_length
    slider_spans_90
    slider_spans_120
    slider_spans_160
    slider_spans_200_over_3
    slider_spans_4000
    slider_spans_tiled_8
    slider_spans_tiled
    slider_spans_400_not_tiled
    slider_spans_hold_and_normal
    slider_110_off_previous
    slider_110_previous_full
    slider_110_two
    slider_110_one
    slider_over_6_5_low
    slider_over_6_5
    slider_over_4_low
    slider_over_4
    slider_over_2_5_low
    slider_over_2_5
    slider_up_to_2_5_low
    slider_up_to_2_5
    slider_usable_below_0
    slider_usable_0
    slider_usable_some
    slider_usable_enough
    slider_double_own_sound
    slider_double_node_sound
    slider_double_not
    slider_double_without_kiai
    slider_head_not_searched
    slider_stair_rising
    slider_stair_falling
    slider_stair_turns_down
    slider_stair_turns_up
    slider_multiple_2
    slider_multiple_3
    slider_multiple_4_to_7
    slider_multiple_8
    slider_multiple_9
    slider_multiple_wrapped
    slider_multiple_straight
    slider_multiple_8_column_0
    slider_tiles_to_end
    slider_tiles_before_end
    slider_beside_over_6_5
    slider_beside_over_4_few
    slider_beside_over_4
    slider_beside_over_2_5_few
    slider_beside_over_2_5
    slider_beside_none
    slider_beside_cut_by_columns
    slider_beside_head
    slider_beside_no_head
    // The chart reader.
    chart_header_cut
    chart_version
    chart_columns
    chart_notes_missing
    chart_bytes_follow
    chart_column
    chart_zero_bits
    chart_old_zero_bits
    chart_negative_zero
    chart_not_finite
    chart_start_negative
    chart_start_falls
    chart_chord_column_falls
    chart_hold_not_above_0
    chart_circle_with_duration
    chart_end_beyond
    chart_read
    chart_old_read
    // Refusals by entry.
    job_refused_1
    job_refused_2
    job_refused_3
    job_refused_4
    job_refused_5
    job_refused_6
    job_refused_7
    job_refused_8
    job_refused_9
    job_refused_10
    job_refused_11
    job_refused_12
    job_refused_13
    job_refused_16
    single_refused_1
    single_refused_2
    single_refused_3
    single_refused_4
    single_refused_5
    single_refused_6
    single_refused_7
    single_refused_8
    single_refused_9
    single_refused_10
    single_refused_11
    single_refused_12
    single_refused_13
    single_refused_16
}

impl B {
    /// The row of a previous pattern that a job's object meets with 8 columns.
    pub(crate) const fn previous_8(previous: Previous) -> Self {
        match (previous.mask, previous.count()) {
            (1, _) => Self::previous_8_column_0_alone,
            (_, 0) => Self::previous_8_none,
            (_, 1) => Self::previous_8_one,
            (_, 2) => Self::previous_8_two,
            (_, 3) => Self::previous_8_three,
            (_, 4) => Self::previous_8_four,
            (_, 5) => Self::previous_8_five,
            _ => Self::previous_8_more,
        }
    }

    /// A job's refusals, by `Refusal`.
    pub(crate) const JOB: [Self; 14] = [
        Self::job_refused_1,
        Self::job_refused_2,
        Self::job_refused_3,
        Self::job_refused_4,
        Self::job_refused_5,
        Self::job_refused_6,
        Self::job_refused_7,
        Self::job_refused_8,
        Self::job_refused_9,
        Self::job_refused_10,
        Self::job_refused_11,
        Self::job_refused_12,
        Self::job_refused_13,
        Self::job_refused_16,
    ];

    /// The single entry's refusals, by `Refusal`.
    pub(crate) const SINGLE: [Self; 14] = [
        Self::single_refused_1,
        Self::single_refused_2,
        Self::single_refused_3,
        Self::single_refused_4,
        Self::single_refused_5,
        Self::single_refused_6,
        Self::single_refused_7,
        Self::single_refused_8,
        Self::single_refused_9,
        Self::single_refused_10,
        Self::single_refused_11,
        Self::single_refused_12,
        Self::single_refused_13,
        Self::single_refused_16,
    ];
}

/// Rows that no input reaches, and why. They are written so that a hit would show.
pub const NEVER: &[(&str, &str)] = &[
    ("cut_key_choice", "shares its byte with the version"),
    (
        "search_circle_none",
        "a circle has at most as many notes as free columns",
    ),
    (
        "search_gathered_none",
        "a circle has at most as many notes as free columns",
    ),
    ("search_mirrored_none", "a half has room for its notes"),
    ("search_holds_none", "as many holds as usable columns"),
    ("search_more_holds_none", "no more holds than columns"),
    ("search_other_own", "its own column is the one excluded"),
    ("search_other_none", "there are two columns at least"),
    ("search_tiles_none", "fewer tiles than columns"),
    (
        "search_beside_none",
        "a row has at most two circles, and fewer than columns",
    ),
    (
        "previous_8_more",
        "a song reaches at most five columns (change request 9)",
    ),
    (
        "previous_8_column_0_alone",
        "a song reaches no such pattern (change request 9)",
    ),
    (
        "job_refused_9",
        "a song makes no such pattern (change request 9)",
    ),
    (
        "job_refused_10",
        "a song makes no such pattern (change request 9)",
    ),
    ("job_refused_13", "the single entry only"),
    (
        "job_refused_16",
        "from a seed, 4,096 misses in a row have a chance below 10^-200",
    ),
    ("single_refused_1", "no record"),
    ("single_refused_2", "no record"),
    ("single_refused_3", "no record"),
    ("single_refused_7", "no record"),
];

thread_local! {
    static ON: Cell<bool> = const { Cell::new(false) };
    static COUNTS: RefCell<[u64; NAMES.len()]> = const { RefCell::new([0; NAMES.len()]) };
}

pub(crate) fn hit(row: B) {
    if ON.get() {
        COUNTS.with_borrow_mut(|counts| counts[row as usize] += 1);
    }
}

/// Counts from now on.
pub fn start() {
    ON.set(true);
}

/// The counts so far, in the order of `NAMES`; counting goes on from 0.
pub fn take() -> Vec<u64> {
    COUNTS.with_borrow_mut(|counts| {
        let taken = counts.to_vec();
        counts.fill(0);
        taken
    })
}
