//! Circles.

use crate::{
    convert::Ask,
    draws::Draws,
    hits::{B, hit},
    pattern::{Pattern, column_at, first_column},
    record::{CLAP, FINISH, has},
    refusal::Refusal,
    search::Rule,
};

#[derive(Clone, Copy, Debug, PartialEq, Eq)]
enum Stair {
    No,
    Up,
    Down,
}

/// What the times and sounds ask of the pattern.
#[derive(Clone, Copy, Debug)]
struct Wish {
    force_stack: bool,
    force_not_stack: bool,
    keep_single: bool,
    low_probability: bool,
    gathered: bool,
    mirror: bool,
    reverse: bool,
    cycle: bool,
    stair: Stair,
}

/// Caps on the chances of 2 to 5 notes, by column count. A cap of 1 leaves a chance as it is.
const CAPS: [[f64; 4]; 10] = [
    [1.0; 4],
    [1.0; 4],
    [0.0; 4],
    [0.1, 0.0, 0.0, 0.0],
    [0.23, 0.04, 0.0, 0.0],
    [1.0, 0.15, 0.03, 0.0],
    [1.0; 4],
    [1.0; 4],
    [1.0; 4],
    [1.0; 4],
];

/// How a column count changes a mirrored chance.
#[derive(Clone, Copy)]
enum Change {
    Keep,
    AtMost(f64),
    /// The chance of the contrary is doubled, and not below a bound.
    Doubled(f64),
}

impl Change {
    fn of(self, p: f64) -> f64 {
        match self {
            Self::Keep => p,
            Self::AtMost(cap) => p.min(cap),
            Self::Doubled(bound) => 1.0 - ((1.0 - p) * 2.0).max(bound),
        }
        .clamp(0.0, 1.0)
    }
}

/// Changes of centre, 2 and 3 notes of a mirrored pattern, by column count.
const MIRRORED: [[Change; 3]; 10] = {
    use Change::{AtMost, Doubled, Keep};

    [
        [Keep; 3],
        [Keep; 3],
        [AtMost(0.0); 3],
        [AtMost(0.03), AtMost(0.0), AtMost(0.0)],
        [AtMost(0.0), Doubled(0.8), AtMost(0.0)],
        [AtMost(0.03), Keep, AtMost(0.0)],
        [AtMost(0.0), Doubled(0.05), Doubled(0.85)],
        [Keep; 3],
        [Keep; 3],
        [Keep; 3],
    ]
};

const CAP_ROWS: [B; 10] = [
    B::circle_caps_other,
    B::circle_caps_other,
    B::circle_caps_2,
    B::circle_caps_3,
    B::circle_caps_4,
    B::circle_caps_5,
    B::circle_caps_other,
    B::circle_caps_other,
    B::circle_caps_other,
    B::circle_caps_other,
];

const MIRRORED_ROWS: [B; 10] = [
    B::mirrored_caps_other,
    B::mirrored_caps_other,
    B::mirrored_caps_2,
    B::mirrored_caps_3,
    B::mirrored_caps_4,
    B::mirrored_caps_5,
    B::mirrored_caps_6,
    B::mirrored_caps_other,
    B::mirrored_caps_other,
    B::mirrored_caps_other,
];

/// The pattern, and whether the stair is the reverse one from now on.
pub fn generate(ask: &Ask, draws: &mut Draws) -> Result<(Pattern, bool), Refusal> {
    let wish = wish(ask);
    let pattern = core(ask, wish, draws)?;
    let mut reverse_stair = ask.reverse_stair;

    for note in &pattern.notes {
        let column = i32::from(note.column);

        if wish.stair == Stair::Up && column == ask.columns - 1 {
            hit(B::circle_turns_to_reverse_stair);
            reverse_stair = true;
        }

        if wish.stair == Stair::Down && column == first_column(ask.columns) {
            hit(B::circle_turns_to_stair);
            reverse_stair = false;
        }
    }

    Ok((pattern, reverse_stair))
}

/// Whether the root of a sum, rounded to the nearest f32, is under 20: whether the exact root lies below the middle between 20 and the f32
/// before it, which is 2^-19 less. At the middle 20 is the even one. The middle's square, and every f32, is exact in f64.
pub fn root_under_20(sum: f32) -> bool {
    const MIDDLE: f64 = 20.0 - 1.0 / 1_048_576.0;

    f64::from(sum) < MIDDLE * MIDDLE
}

/// Counts the sums at most four floats from 400: 400, the two that document 02 names, and the others.
fn count_sum(sum: f32) {
    match i64::from(sum.to_bits()) - i64::from(400.0_f32.to_bits()) {
        0 => hit(B::circle_sum_400),
        -1 => hit(B::circle_sum_400_less_2_15),
        -2 => hit(B::circle_sum_400_less_2_14),
        -4..=4 => hit(B::circle_sum_about_400),
        _ => {}
    }
}

fn wish(ask: &Ask) -> Wish {
    let object = &ask.object;
    let gap = object.start - ask.time;
    let (dx, dy) = (object.x - ask.x, object.y - ask.y);
    let sum = dx * dx + dy * dy;
    let near = root_under_20(sum);
    let slow = ask.density >= ask.facts.beat_length / 2.5;

    if gap > 125.0 && (gap <= 150.0 || slow) {
        count_sum(sum);
    }

    let mut wish = Wish {
        force_stack: false,
        force_not_stack: false,
        keep_single: false,
        low_probability: false,
        gathered: false,
        mirror: false,
        reverse: false,
        cycle: false,
        stair: Stair::No,
    };

    if gap <= 80.0 {
        hit(B::circle_gap_80);
        wish.force_not_stack = true;
        wish.keep_single = true;
    } else if gap <= 95.0 {
        hit(B::circle_gap_95);
        wish.force_not_stack = true;
        wish.keep_single = true;
        wish.stair = if ask.reverse_stair {
            Stair::Down
        } else {
            Stair::Up
        };
    } else if gap <= 105.0 {
        hit(B::circle_gap_105);
        wish.force_not_stack = true;
        wish.low_probability = true;
    } else if gap <= 125.0 {
        hit(B::circle_gap_125);
        wish.force_not_stack = true;
    } else if near && gap <= 135.0 {
        hit(B::circle_gap_135_near);
        wish.cycle = true;
        wish.keep_single = true;
    } else if near && gap <= 150.0 {
        hit(B::circle_gap_150_near);
        wish.force_stack = true;
        wish.low_probability = true;
    } else if near && slow {
        hit(B::circle_near_and_slow);
        wish.reverse = true;
        wish.low_probability = true;
    } else if !slow {
        hit(if near {
            B::circle_near_and_dense
        } else {
            B::circle_far_and_dense
        });
    } else if ask.facts.kiai {
        hit(B::circle_slow_in_kiai);
    } else {
        hit(B::circle_slow_without_kiai);
        wish.low_probability = true;
    }

    if !wish.keep_single {
        if has(object.sound, FINISH) && ask.columns != 8 {
            hit(B::circle_mirror);
            wish.mirror = true;
        } else if has(object.sound, CLAP) {
            hit(if has(object.sound, FINISH) {
                B::circle_gathered_8_finish
            } else {
                B::circle_gathered
            });
            wish.gathered = true;
        } else {
            hit(if has(object.sound, FINISH) {
                B::circle_finish_8
            } else {
                B::circle_plain_sound
            });
        }
    }

    wish
}

fn core(ask: &Ask, wish: Wish, draws: &mut Draws) -> Result<Pattern, Refusal> {
    let Ask {
        columns, previous, ..
    } = *ask;
    let start = ask.object.start;
    let first = first_column(columns);
    let last = i32::from(previous.last);
    let mut pattern = Pattern::default();

    if columns == 1 {
        hit(B::circle_one_column);
        pattern.circle(columns, 0, start)?;
        return Ok(pattern);
    }

    if wish.reverse {
        if previous.mask != 0 {
            hit(B::circle_reverse);

            for column in (first..columns).filter(|&c| previous.has(c)) {
                pattern.circle(columns, first + columns - 1 - column, start)?;
            }

            if pattern.notes.is_empty() {
                hit(B::circle_reverse_8_empty);
            }

            return Ok(pattern);
        }

        hit(B::circle_reverse_without_previous);
    }

    if wish.cycle {
        if previous.count() != 1 {
            hit(B::circle_cycle_not_one);
        } else if columns == 8 && last == 0 {
            hit(B::circle_cycle_8_column_0);
        } else if columns % 2 == 1 && last == columns / 2 {
            hit(B::circle_cycle_centre);
        } else {
            hit(B::circle_cycle);
            pattern.circle(columns, first + columns - 1 - last, start)?;
            return Ok(pattern);
        }
    }

    if wish.force_stack {
        if previous.mask != 0 {
            hit(B::circle_force_stack);

            for column in (first..columns).filter(|&c| previous.has(c)) {
                pattern.circle(columns, column, start)?;
            }

            if pattern.notes.is_empty() {
                hit(B::circle_force_stack_8_empty);
            }

            return Ok(pattern);
        }

        hit(B::circle_force_stack_without_previous);
    }

    if previous.count() == 1 {
        match wish.stair {
            Stair::No => {}
            Stair::Up => {
                let column = if last + 1 == columns {
                    hit(B::circle_stair_wrapped);
                    first
                } else {
                    hit(B::circle_stair);
                    last + 1
                };
                pattern.circle(columns, column, start)?;
                return Ok(pattern);
            }
            Stair::Down => {
                let column = if last == first {
                    hit(B::circle_reverse_stair_wrapped);
                    columns - 1
                } else {
                    hit(if last < first {
                        B::circle_reverse_stair_8_column_0
                    } else {
                        B::circle_reverse_stair
                    });
                    last - 1
                };
                pattern.circle(columns, column, start)?;
                return Ok(pattern);
            }
        }
    } else if wish.stair != Stair::No {
        hit(B::circle_stair_not_one);
    }

    if wish.keep_single {
        hit(B::circle_keep_single);
        return random_notes(ask, wish, 1, draws);
    }

    let difficulty = ask.facts.difficulty;

    if wish.mirror {
        let (row, p2, p3) = if difficulty > 6.5 {
            (B::circle_mirror_over_6_5, 0.38, 0.12)
        } else if difficulty > 4.0 {
            (B::circle_mirror_over_4, 0.17, 0.0)
        } else {
            (B::circle_mirror_up_to_4, 0.0, 0.0)
        };
        hit(row);

        if wish.force_not_stack {
            hit(B::mirrored_force_not_stack);
            return random_pattern(ask, wish, [0.5 + p2 / 2.0, p2, (p2 + p3) / 2.0, p3], draws);
        }

        return mirrored(ask, [0.12, p2, p3], draws);
    }

    let (row, p2, p3) = match (difficulty, wish.low_probability) {
        (d, true) if d > 6.5 => (B::circle_over_6_5_low, 0.78, 0.42),
        (d, false) if d > 6.5 => (B::circle_over_6_5, 1.0, 0.62),
        (d, true) if d > 4.0 => (B::circle_over_4_low, 0.35, 0.08),
        (d, false) if d > 4.0 => (B::circle_over_4, 0.52, 0.15),
        (d, true) if d > 2.0 => (B::circle_over_2_low, 0.18, 0.0),
        (d, false) if d > 2.0 => (B::circle_over_2, 0.45, 0.0),
        _ => (B::circle_up_to_2, 0.0, 0.0),
    };
    hit(row);

    random_pattern(ask, wish, [p2, p3, 0.0, 0.0], draws)
}

fn random_notes(ask: &Ask, wish: Wish, count: i32, draws: &mut Draws) -> Result<Pattern, Refusal> {
    let Ask {
        columns, previous, ..
    } = *ask;
    let mut pattern = Pattern::default();
    let mut room = count;
    let mut barred = 0;

    if wish.force_not_stack {
        // With 8 columns room can be -1, which is no note too.
        room = columns - first_column(columns) - previous.count();
        barred = previous.mask;
        hit(match room {
            r if r < 0 => B::circle_room_below_0,
            0 => B::circle_room_0,
            r if r < count => B::circle_room_cuts,
            _ => B::circle_room_suffices,
        });
    } else {
        hit(B::circle_may_stack);
    }

    let mut column = column_at(ask.object.x, columns);

    for _ in 0..room.min(count) {
        let taken = pattern.held.mask | barred;
        let rule = if wish.gathered {
            Rule::Gathered(taken)
        } else {
            Rule::Circle(taken)
        };
        column = rule.find(column, columns, draws)?;
        pattern.circle(columns, column, ask.object.start)?;
    }

    Ok(pattern)
}

fn random_pattern(
    ask: &Ask,
    wish: Wish,
    p: [f64; 4],
    draws: &mut Draws,
) -> Result<Pattern, Refusal> {
    let columns = ask.columns;
    let sound = ask.object.sound;
    hit(CAP_ROWS[columns as usize]);
    let mut p: [f64; 4] = std::array::from_fn(|i| p[i].min(CAPS[columns as usize][i]));

    // After the caps, so that it reaches 2 columns too.
    if has(sound, CLAP) {
        hit(if columns == 2 {
            B::circle_clap_2_columns
        } else {
            B::circle_clap
        });
        p[0] = 1.0;
    }

    let count = draws.count(p)?;
    let mut pattern = random_notes(ask, wish, count, draws)?;

    if columns == 8 && has(sound, CLAP) && has(sound, FINISH) {
        hit(B::circle_8_special_column);
        pattern.circle(columns, 0, ask.object.start)?;
    }

    Ok(pattern)
}

/// Never met with 8 columns, which have no mirror.
fn mirrored(ask: &Ask, p: [f64; 3], draws: &mut Draws) -> Result<Pattern, Refusal> {
    let columns = ask.columns;
    let start = ask.object.start;
    hit(MIRRORED_ROWS[columns as usize]);
    let [centre, p2, p3] = std::array::from_fn(|i| MIRRORED[columns as usize][i].of(p[i]));

    let at_centre = draws.unit()? > 1.0 - centre;
    let count = draws.count([p2, p3, 0.0, 0.0])?;
    let limit = columns / 2;
    let mut column = draws.range(first_column(columns), limit)?;
    let mut pattern = Pattern::default();

    hit([
        B::mirrored_count_1,
        B::mirrored_count_2,
        B::mirrored_count_3,
    ][count as usize - 1]);

    for _ in 0..count {
        column = Rule::Mirrored(pattern.held.mask, limit).find(column, columns, draws)?;
        pattern.circle(columns, column, start)?;
        pattern.circle(columns, first_column(columns) + columns - 1 - column, start)?;
    }

    if columns % 2 == 1 && at_centre {
        if count != 3 {
            hit(B::mirrored_centre);
            pattern.circle(columns, columns / 2, start)?;
        } else {
            hit(B::mirrored_centre_not_with_3);
        }
    }

    Ok(pattern)
}
