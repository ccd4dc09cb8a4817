//! Sliders. All their times are whole milliseconds.

use crate::{
    convert::Ask,
    draws::Draws,
    hits::{B, hit},
    pattern::{Pattern, Previous, column_at, first_column},
    record::{CLAP, FINISH, Object, WHISTLE, has},
    refusal::Refusal,
    search::Rule,
};

/// The largest end of a slider.
const LAST_END: f64 = 33_554_431.0;

/// When a slider starts and ends, its spans and the time of one.
#[derive(Clone, Copy, Debug, PartialEq, Eq)]
pub struct Times {
    pub start: i32,
    pub end: i32,
    pub spans: i32,
    pub segment: i32,
}

/// Velocity, beat length and multiplier, as far as a slider's end needs them.
#[derive(Clone, Copy, Debug)]
pub struct Pace {
    pub multiplier: f64,
    pub beat_length: f64,
    pub velocity: f64,
}

impl Times {
    pub fn new(start: f64, repeats: u32, distance: f64, pace: Pace) -> Result<Self, Refusal> {
        let start = start.round_ties_even() as i32;
        let spans = repeats as i32 + 1;

        // The velocity goes through an f32, as a beat length does in the file format.
        let percent = ((100.0 / pace.velocity) as f32).clamp(10.0, 10_000.0);
        let beat = pace.beat_length * (f64::from(percent) / 100.0);
        let lasts = distance * beat * f64::from(spans) * 0.01 / pace.multiplier;
        let end = (f64::from(start) + lasts).floor();

        if end > LAST_END {
            hit(B::slider_end_beyond);
            return Err(Refusal::SliderEnd);
        }

        let end = end as i32;

        Ok(Self {
            start,
            end,
            spans,
            segment: (end - start) / spans,
        })
    }
}

/// A slider as its rules read it.
pub struct Slider<'a> {
    pub ask: &'a Ask,
    pub times: Times,
    pub node_sound: u8,
}

/// Caps on the chances of 2 to 4 holds, by column count.
const CAPS: [[f64; 3]; 10] = [
    [1.0; 3],
    [1.0; 3],
    [0.0; 3],
    [0.1, 0.0, 0.0],
    [0.3, 0.04, 0.0],
    [0.34, 0.1, 0.03],
    [1.0; 3],
    [1.0; 3],
    [1.0; 3],
    [1.0; 3],
];

const CAP_ROWS: [B; 10] = [
    B::slider_caps_other,
    B::slider_caps_other,
    B::slider_caps_2,
    B::slider_caps_3,
    B::slider_caps_4,
    B::slider_caps_5,
    B::slider_caps_other,
    B::slider_caps_other,
    B::slider_caps_other,
    B::slider_caps_other,
];

/// A slider's notes in walk order, and the pattern that the next object meets.
pub struct Split {
    pub notes: Pattern,
    pub previous: Previous,
}

impl Slider<'_> {
    pub fn generate(&self, draws: &mut Draws) -> Result<Split, Refusal> {
        let whole = self.notes(draws)?;

        if whole.notes.len() == 1 {
            hit(B::slider_split_single);
            let previous = whole.held;
            return Ok(Split {
                notes: whole,
                previous,
            });
        }

        // First what does not end at the slider's end, then what does.
        let end = f64::from(self.times.end);
        let mut notes = Pattern::default();
        let mut last = Pattern::default();

        for &note in whole
            .notes
            .iter()
            .filter(|note| note.start + note.duration != end)
        {
            notes.put(note);
        }

        let before = notes.notes.len();

        for &note in whole
            .notes
            .iter()
            .filter(|note| note.start + note.duration == end)
        {
            notes.put(note);
            last.put(note);
        }

        hit(match (before, last.notes.len()) {
            (_, 0) => B::slider_split_end_empty,
            (0, _) => B::slider_split_all_at_end,
            _ => B::slider_split_both,
        });

        Ok(Split {
            notes,
            previous: last.held,
        })
    }

    const fn object(&self) -> &Object {
        &self.ask.object
    }

    /// A circle where start and end are one, else a hold.
    fn put(&self, pattern: &mut Pattern, column: i32, start: i32, end: i32) -> Result<(), Refusal> {
        let columns = self.ask.columns;

        if start == end {
            pattern.circle(columns, column, f64::from(start))
        } else {
            pattern.hold(columns, column, f64::from(start), f64::from(end - start))
        }
    }

    fn notes(&self, draws: &mut Draws) -> Result<Pattern, Refusal> {
        let Ask {
            columns,
            previous,
            facts,
            ..
        } = *self.ask;
        let Times {
            start,
            end,
            spans,
            segment,
        } = self.times;
        let difficulty = facts.difficulty;

        if columns == 1 {
            hit(if start == end {
                B::slider_one_column_circle
            } else {
                B::slider_one_column
            });
            let mut pattern = Pattern::default();
            self.put(&mut pattern, 0, start, end)?;
            return Ok(pattern);
        }

        if spans > 1 {
            return if segment <= 90 {
                hit(if start == end {
                    B::slider_spans_zero_length
                } else {
                    B::slider_spans_90
                });
                self.holds(1, draws)
            } else if segment <= 120 {
                hit(B::slider_spans_120);
                self.random_notes(spans + 1, true, draws)
            } else if segment <= 160 {
                hit(B::slider_spans_160);
                self.stair(draws)
            } else if segment <= 200 && difficulty > 3.0 {
                hit(B::slider_spans_200_over_3);
                self.multiple_notes(draws)
            } else if end - start >= 4000 {
                hit(B::slider_spans_4000);
                self.some_holds([0.23, 0.0, 0.0], draws)
            } else if segment > 400 && spans < columns - 1 - first_column(columns) {
                hit(if columns == 8 {
                    B::slider_spans_tiled_8
                } else {
                    B::slider_spans_tiled
                });
                self.tiles(draws)
            } else {
                hit(if segment > 400 {
                    B::slider_spans_400_not_tiled
                } else {
                    B::slider_spans_hold_and_normal
                });
                self.hold_and_normal(draws)
            };
        }

        if segment <= 110 {
            let off_previous = previous.count() < columns;
            hit(if off_previous {
                B::slider_110_off_previous
            } else {
                B::slider_110_previous_full
            });
            let count = if segment >= 80 {
                hit(B::slider_110_two);
                2
            } else {
                hit(B::slider_110_one);
                1
            };
            return self.random_notes(count, off_previous, draws);
        }

        // Without kiai chances are low.
        let (row, p) = match (difficulty, !facts.kiai) {
            (d, true) if d > 6.5 => (B::slider_over_6_5_low, [0.78, 0.3, 0.0]),
            (d, false) if d > 6.5 => (B::slider_over_6_5, [0.85, 0.36, 0.03]),
            (d, true) if d > 4.0 => (B::slider_over_4_low, [0.43, 0.08, 0.0]),
            (d, false) if d > 4.0 => (B::slider_over_4, [0.56, 0.18, 0.0]),
            (d, true) if d > 2.5 => (B::slider_over_2_5_low, [0.3, 0.0, 0.0]),
            (d, false) if d > 2.5 => (B::slider_over_2_5, [0.37, 0.08, 0.0]),
            (_, true) => (B::slider_up_to_2_5_low, [0.17, 0.0, 0.0]),
            (_, false) => (B::slider_up_to_2_5, [0.27, 0.0, 0.0]),
        };
        hit(row);

        self.some_holds(p, draws)
    }

    /// Holds over the whole slider, off the previous pattern while it leaves room.
    fn holds(&self, count: i32, draws: &mut Draws) -> Result<Pattern, Refusal> {
        let Ask {
            columns, previous, ..
        } = *self.ask;
        let Times { start, end, .. } = self.times;
        let first = first_column(columns);
        let usable = columns - first - previous.count();
        let mut pattern = Pattern::default();
        let mut column = draws.range(first, columns)?;

        hit(match usable {
            u if u < 0 => B::slider_usable_below_0,
            0 => B::slider_usable_0,
            u if u < count => B::slider_usable_some,
            _ => B::slider_usable_enough,
        });

        for _ in 0..usable.min(count) {
            let taken = pattern.held.mask | previous.mask;
            column = Rule::Holds(taken).find(column, columns, draws)?;
            self.put(&mut pattern, column, start, end)?;
        }

        for _ in 0..count - usable {
            column = Rule::MoreHolds(pattern.held.mask).find(column, columns, draws)?;
            self.put(&mut pattern, column, start, end)?;
        }

        Ok(pattern)
    }

    /// A number of holds by chances of 2 to 4.
    fn some_holds(&self, p: [f64; 3], draws: &mut Draws) -> Result<Pattern, Refusal> {
        let columns = self.ask.columns;
        hit(CAP_ROWS[columns as usize]);
        let mut p: [f64; 3] = std::array::from_fn(|i| p[i].min(CAPS[columns as usize][i]));
        let double = CLAP | FINISH;

        // After the caps.
        if self.ask.facts.kiai {
            if has(self.object().sound, double) {
                hit(B::slider_double_own_sound);
                p[0] = 1.0;
            } else if has(self.node_sound, double) {
                hit(B::slider_double_node_sound);
                p[0] = 1.0;
            } else {
                hit(B::slider_double_not);
            }
        } else if has(self.object().sound | self.node_sound, double) {
            hit(B::slider_double_without_kiai);
        }

        let count = draws.count([p[0], p[1], p[2], 0.0])?;
        self.holds(count, draws)
    }

    /// A circle at each node, each off the column before it. The last search is made for no note.
    fn random_notes(
        &self,
        count: i32,
        off_previous: bool,
        draws: &mut Draws,
    ) -> Result<Pattern, Refusal> {
        let Ask {
            columns, previous, ..
        } = *self.ask;
        let mut time = self.times.start;
        let mut column = column_at(self.object().x, columns);
        let mut pattern = Pattern::default();

        if off_previous && previous.count() < columns {
            column = Rule::Head(previous.mask).find(column, columns, draws)?;
        } else {
            hit(B::slider_head_not_searched);
        }

        for _ in 0..count {
            self.put(&mut pattern, column, time, time)?;
            column = Rule::Other(column).find(column, columns, draws)?;
            time += self.times.segment;
        }

        Ok(pattern)
    }

    fn stair(&self, draws: &mut Draws) -> Result<Pattern, Refusal> {
        let columns = self.ask.columns;
        let mut time = self.times.start;
        let mut column = column_at(self.object().x, columns);
        let mut rising = draws.unit()? > 0.5;
        let mut pattern = Pattern::default();

        hit(if rising {
            B::slider_stair_rising
        } else {
            B::slider_stair_falling
        });

        for _ in 0..=self.times.spans {
            self.put(&mut pattern, column, time, time)?;
            time += self.times.segment;

            if rising && column >= columns - 1 {
                hit(B::slider_stair_turns_down);
                rising = false;
            } else if !rising && column <= first_column(columns) {
                hit(B::slider_stair_turns_up);
                rising = true;
            }

            column += if rising { 1 } else { -1 };
        }

        Ok(pattern)
    }

    /// Two circles at each node, an interval apart; one at each with 2 columns.
    fn multiple_notes(&self, draws: &mut Draws) -> Result<Pattern, Refusal> {
        let columns = self.ask.columns;
        let first = first_column(columns);
        let less = i32::from((4..=8).contains(&columns));
        let interval = draws.range(1, columns - less)?;
        let mut time = self.times.start;
        let mut column = column_at(self.object().x, columns);
        let mut pattern = Pattern::default();

        hit(match columns {
            2 => B::slider_multiple_2,
            3 => B::slider_multiple_3,
            4..=7 => B::slider_multiple_4_to_7,
            8 => B::slider_multiple_8,
            _ => B::slider_multiple_9,
        });

        for _ in 0..=self.times.spans {
            self.put(&mut pattern, column, time, time)?;

            if columns > 2 {
                let mut second = column + interval;

                if second >= columns - first {
                    hit(B::slider_multiple_wrapped);
                    second += less - columns - first;
                } else {
                    hit(B::slider_multiple_straight);
                }

                second += first;

                if columns == 8 && second == 0 {
                    hit(B::slider_multiple_8_column_0);
                }

                self.put(&mut pattern, second, time, time)?;
            }

            // Drawn after every row, also after the last.
            column = draws.range(first, columns)?;
            time += self.times.segment;
        }

        Ok(pattern)
    }

    /// Holds that start one after another; they end at the last span's end, which may be before the slider's.
    fn tiles(&self, draws: &mut Draws) -> Result<Pattern, Refusal> {
        let columns = self.ask.columns;
        let Times {
            start,
            end,
            spans,
            segment,
        } = self.times;
        let tiled_end = start + segment * spans;
        let mut time = start;
        let mut column = column_at(self.object().x, columns);
        let mut pattern = Pattern::default();

        hit(if tiled_end == end {
            B::slider_tiles_to_end
        } else {
            B::slider_tiles_before_end
        });

        for _ in 0..spans.min(columns) {
            column = Rule::Tiles(pattern.held.mask).find(column, columns, draws)?;
            self.put(&mut pattern, column, time, tiled_end)?;
            time += segment;
        }

        Ok(pattern)
    }

    /// A hold over the whole slider, with rows of circles beside it.
    fn hold_and_normal(&self, draws: &mut Draws) -> Result<Pattern, Refusal> {
        let Ask { columns, facts, .. } = *self.ask;
        let Times {
            start,
            end,
            spans,
            segment,
        } = self.times;
        let hold = column_at(self.object().x, columns);
        let mut pattern = Pattern::default();
        self.put(&mut pattern, hold, start, end)?;

        // Drawn even where no circle follows.
        let mut column = draws.range(first_column(columns), columns)?;
        let few = columns < 6;

        let chance = if facts.difficulty > 6.5 {
            hit(B::slider_beside_over_6_5);
            Some(0.63)
        } else if facts.difficulty > 4.0 {
            hit(if few {
                B::slider_beside_over_4_few
            } else {
                B::slider_beside_over_4
            });
            Some(if few { 0.12 } else { 0.45 })
        } else if facts.difficulty > 2.5 {
            hit(if few {
                B::slider_beside_over_2_5_few
            } else {
                B::slider_beside_over_2_5
            });
            Some(if few { 0.0 } else { 0.24 })
        } else {
            hit(B::slider_beside_none);
            None
        };

        let drawn = match chance {
            Some(p) => draws.count([p, 0.0, 0.0, 0.0])?,
            None => 0,
        };

        if drawn > columns - 1 {
            hit(B::slider_beside_cut_by_columns);
        }

        let count = drawn.min(columns - 1);
        let head = has(self.node_sound, WHISTLE | FINISH | CLAP);
        hit(if head {
            B::slider_beside_head
        } else {
            B::slider_beside_no_head
        });
        let mut time = start;

        for _ in 0..=spans {
            let mut row: u16 = 0;

            if head || time != start {
                for _ in 0..count {
                    column = Rule::Beside(hold, row).find(column, columns, draws)?;
                    self.put(&mut pattern, column, time, time)?;
                    row |= 1 << column;
                }
            }

            time += segment;
        }

        Ok(pattern)
    }
}
