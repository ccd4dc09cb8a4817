//! The walk over a job's objects, and the entry for one object.

use entry::{Chart, JobEnd, Single, SingleEnd};

use crate::{
    chart::{HEADER, NOTE, pack_note, write_chart},
    circle,
    draws::Draws,
    ended,
    hits::{B, hit},
    pattern::{Note, Previous},
    record::{self, Distance, Kind, MOST_REPEATS, NodeSound, Object, Song},
    refusal::Refusal,
    slider::{Pace, Slider, Times},
};

/// What is in force at an object.
#[derive(Clone, Copy, Debug)]
pub struct Facts {
    pub difficulty: f64,
    pub multiplier: f64,
    pub beat_length: f64,
    pub velocity: f64,
    pub kiai: bool,
}

/// An object, what is in force, and what was before it.
#[derive(Clone, Copy, Debug)]
pub struct Ask {
    pub columns: i32,
    pub object: Object,
    pub facts: Facts,
    pub density: f64,
    pub time: f64,
    pub x: f32,
    pub y: f32,
    pub previous: Previous,
    pub reverse_stair: bool,
}

/// An object's notes in walk order, and what the next object meets.
struct Made {
    notes: Vec<Note>,
    previous: Previous,
    reverse_stair: bool,
    times: Option<Times>,
}

fn make(ask: &Ask, draws: &mut Draws) -> Result<Made, Refusal> {
    let mut made = Made {
        notes: Vec::new(),
        previous: ask.previous,
        reverse_stair: ask.reverse_stair,
        times: None,
    };

    match ask.object.kind {
        Kind::Circle => {
            hit(B::kind_circle);
            let (pattern, reverse_stair) = circle::generate(ask, draws)?;
            made.previous = pattern.held;
            made.reverse_stair = reverse_stair;
            made.notes = pattern.notes;
        }
        Kind::Slider {
            repeats,
            distance,
            node_sound,
        } => {
            let distance = match distance {
                Distance::Given(distance) => {
                    hit(B::kind_slider_with_distance);
                    distance
                }
                Distance::Missing => {
                    hit(B::kind_slider_without_distance);
                    0.0
                }
            };
            let node_sound = match node_sound {
                NodeSound::Given(sound) => {
                    hit(B::kind_slider_with_node_sound);
                    sound
                }
                NodeSound::Missing => {
                    hit(B::kind_slider_without_node_sound);
                    ask.object.sound
                }
            };
            let Facts {
                multiplier,
                beat_length,
                velocity,
                ..
            } = ask.facts;
            let pace = Pace {
                multiplier,
                beat_length,
                velocity,
            };
            let times = Times::new(ask.object.start, repeats, distance, pace)?;
            let split = Slider {
                ask,
                times,
                node_sound,
            }
            .generate(draws)?;
            made.previous = split.previous;
            made.notes = split.notes.notes;
            made.times = Some(times);
        }
        Kind::Spinner(duration) => {
            hit(B::kind_spinner);
            made.notes = ended::generate(ask, duration, draws)?.notes;
        }
        Kind::Hold(duration) => {
            hit(B::kind_hold);
            made.notes = ended::generate(ask, duration, draws)?.notes;
        }
    }

    Ok(made)
}

/// The last seven times and their mean distance.
struct Density {
    times: Vec<f64>,
    mean: f64,
}

impl Density {
    fn push(&mut self, time: f64) {
        self.times.push(time);

        if self.times.len() > 7 {
            hit(B::density_full);
            self.times.remove(0);
        }

        if let [first, .., last] = self.times[..] {
            hit(B::density_some);
            self.mean = (last - first) / self.times.len() as f64;
        } else {
            hit(B::density_one_time);
        }
    }
}

/// A refusal in the walk, with the object's index.
struct Stop {
    refusal: Refusal,
    object: usize,
}

/// All notes in walk order, each behind the index of its object.
fn walk(song: &Song, columns: i32, room: usize, draws: &mut Draws) -> Result<Vec<(u16, Note)>, Stop> {
    let difficulty = song.conversion_difficulty();
    let mut density = Density {
        times: Vec::new(),
        mean: f64::from(i32::MAX),
    };
    let (mut time, mut x, mut y) = (0.0, 0.0, 0.0);
    let mut previous = Previous::default();
    let mut reverse_stair = false;
    let mut notes = Vec::new();

    for (index, &object) in song.objects.iter().enumerate() {
        let stop = |refusal| Stop {
            refusal,
            object: index,
        };
        let start = object.start;

        if object.kind == Kind::Circle {
            density.push(start);
        }

        let facts = Facts {
            difficulty,
            multiplier: song.settings.multiplier,
            beat_length: song.beat_length_at(start),
            velocity: song.velocity_at(start),
            kiai: song.kiai_at(start),
        };
        let ask = Ask {
            columns,
            object,
            facts,
            density: density.mean,
            time,
            x,
            y,
            previous,
            reverse_stair,
        };
        if columns == 8 {
            hit(B::previous_8(previous));
        }
        let made = make(&ask, draws).map_err(stop)?;

        (time, x, y) = (start, object.x, object.y);

        match object.kind {
            Kind::Circle => {}
            Kind::Slider { repeats, .. } => {
                let segment = made.times.map_or(0.0, |times| f64::from(times.segment));

                for node in 0..=repeats + 1 {
                    time = start + segment * f64::from(node);
                    density.push(time);
                }
            }
            Kind::Spinner(duration) | Kind::Hold(duration) => {
                (time, x, y) = (start + duration, 256.0, 192.0);
                density.push(time);
            }
        }

        previous = made.previous;
        reverse_stair = made.reverse_stair;

        if notes.len() + made.notes.len() > room {
            hit(B::job_notes_do_not_fit);
            return Err(stop(Refusal::BufferShort));
        }

        notes.extend(made.notes.into_iter().map(|note| (index as u16, note)));
    }

    Ok(notes)
}

pub fn job(record: &[u8], chart: &mut [u8], allowance: u32) -> JobEnd {
    let refused = |refusal: Refusal, object: usize, draws: u32, chart: &mut [u8]| {
        hit(B::JOB[refusal as usize]);
        chart.fill(0);
        JobEnd::Refused {
            number: refusal.number(),
            object: object as u32,
            draws,
        }
    };

    let song = match record::read(record) {
        Ok(song) => song,
        Err(refusal) => return refused(refusal, 0, 0, chart),
    };

    if chart.len() < HEADER {
        hit(B::job_header_does_not_fit);
        return refused(Refusal::BufferShort, 0, 0, chart);
    }

    let columns = song.columns();
    let room = (chart.len() - HEADER) / NOTE;
    let mut draws = Draws::new(Draws::seeded(song.seed()), allowance);

    match walk(&song, columns, room, &mut draws) {
        Ok(mut notes) => {
            hit(if notes.is_sorted_by(|(_, a), (_, b)| (a.start, a.column) <= (b.start, b.column)) {
                B::job_already_in_order
            } else if notes.is_sorted_by(|(_, a), (_, b)| a.start <= b.start) {
                B::job_chords_put_in_order
            } else {
                B::job_put_in_order
            });

            // By column, then by start. Both sorts are stable, so of equal starts the lowest column comes first, and equal start and
            // column keep walk order.
            notes.sort_by_key(|(_, note)| note.column);
            notes.sort_by(|(_, a), (_, b)| a.start.total_cmp(&b.start));
            let bytes = write_chart(&Chart {
                version: 2,
                columns: columns as u8,
                draws: draws.taken,
                notes: notes.iter().map(|(index, note)| note.of_object(*index)).collect(),
            });
            chart[..bytes.len()].copy_from_slice(&bytes);

            hit(B::job_chart);
            JobEnd::Chart {
                length: bytes.len(),
                longest_search: draws.longest_search,
            }
        }
        Err(Stop { refusal, object }) => refused(refusal, object, draws.taken, chart),
    }
}

/// Refusals 13, 4, 5 and 6 of a single object, and what it then asks.
pub fn checked(single: &Single) -> Result<Ask, Refusal> {
    let Single {
        columns,
        prev_mask,
        prev_last,
        ..
    } = *single;
    let demand = |holds: bool, row: B, refusal: Refusal| {
        if holds {
            Ok(())
        } else {
            hit(row);
            Err(refusal)
        }
    };

    demand(
        (1..=9).contains(&columns),
        B::single_columns,
        Refusal::Previous,
    )?;
    demand(
        prev_mask >> columns == 0,
        B::single_mask_beyond,
        Refusal::Previous,
    )?;

    if prev_mask == 0 {
        demand(prev_last == 0, B::single_last_of_empty, Refusal::Previous)?;
    } else {
        let inside = prev_last < columns && prev_mask >> prev_last & 1 == 1;
        demand(inside, B::single_last_not_in_mask, Refusal::Previous)?;
    }

    demand(
        record::multiplier(single.multiplier),
        B::single_multiplier,
        Refusal::Setting,
    )?;
    let fit = single.difficulty.is_finite() && single.difficulty <= 12.0;
    demand(fit, B::single_difficulty, Refusal::Setting)?;
    demand(
        record::beat_length(single.beat_length),
        B::single_beat_length,
        Refusal::Point,
    )?;
    demand(
        record::velocity(single.velocity),
        B::single_velocity,
        Refusal::Point,
    )?;

    let sound = |sound: u32| {
        demand(sound <= 15, B::single_sound, Refusal::ObjectField).map(|()| sound as u8)
    };
    let kind = match single.kind {
        entry::Kind::Circle => Kind::Circle,
        entry::Kind::Spinner { duration } => Kind::Spinner(duration),
        entry::Kind::Hold { duration } => Kind::Hold(duration),
        entry::Kind::Slider {
            repeats,
            distance,
            node_sound,
        } => {
            demand(repeats <= MOST_REPEATS, B::single_repeats, Refusal::ObjectField)?;
            Kind::Slider {
                repeats,
                distance: distance.map_or(Distance::Missing, Distance::Given),
                node_sound: match node_sound {
                    None => NodeSound::Missing,
                    Some(node) => NodeSound::Given(sound(node)?),
                },
            }
        }
    };
    let object = Object {
        kind,
        sound: sound(single.sound)?,
        x: single.x,
        y: single.y,
        start: single.start,
    };

    demand(
        object.in_range(),
        B::single_object_field,
        Refusal::ObjectField,
    )?;
    let near = record::position(single.prev_x) && record::position(single.prev_y);
    demand(near, B::single_previous_position, Refusal::ObjectField)?;
    demand(
        single.prev_time.is_finite(),
        B::single_previous_time,
        Refusal::ObjectField,
    )?;
    demand(
        single.density.is_finite(),
        B::single_density,
        Refusal::ObjectField,
    )?;

    Ok(Ask {
        columns: columns as i32,
        object,
        facts: Facts {
            difficulty: single.difficulty,
            multiplier: single.multiplier,
            beat_length: single.beat_length,
            velocity: single.velocity,
            kiai: single.kiai,
        },
        density: single.density,
        time: single.prev_time,
        x: single.prev_x,
        y: single.prev_y,
        previous: Previous {
            mask: prev_mask as u16,
            last: prev_last as u8,
        },
        reverse_stair: single.reverse_stair,
    })
}

pub fn single(ask: &Single, buffer: &mut [u8]) -> SingleEnd {
    let mut draws = Draws::new(ask.state, ask.allowance);
    let made = checked(ask)
        .and_then(|ask| make(&ask, &mut draws))
        .and_then(|made| {
            if made.notes.len() * NOTE > buffer.len() {
                hit(B::single_notes_do_not_fit);
                Err(Refusal::BufferShort)
            } else {
                Ok(made)
            }
        });

    match made {
        Ok(made) => {
            for (place, note) in buffer.chunks_exact_mut(NOTE).zip(&made.notes) {
                place.copy_from_slice(&pack_note(&note.of_object(0)));
            }

            hit(B::single_made);
            SingleEnd::Made {
                notes: made.notes.len() as u32,
                mask: u32::from(made.previous.mask),
                last: u32::from(made.previous.last),
                reverse_stair: made.reverse_stair,
                state: draws.state,
                draws: draws.taken,
            }
        }
        Err(refusal) => {
            hit(B::SINGLE[refusal as usize]);
            SingleEnd::Refused {
                number: refusal.number(),
                state: ask.state,
            }
        }
    }
}
