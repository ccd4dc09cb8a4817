//! Document 01's bench table and refusal table, and laws on random inputs.

use entry::{Chart, JobEnd, Kind, NOTE_BYTES, Single, SingleEnd, State, chart_bytes};
use jobs::{Object, Rng, Song};

use crate::{
    charttext,
    circle::root_under_20,
    draws::Draws,
    floats::Ticks,
    job, read_chart,
    record::read,
    single,
    slider::{Pace, Times},
    write_chart,
};

const CIRCLE: Object = Object {
    kind: Kind::Circle,
    sound: 0,
    x: 0.0,
    y: 0.0,
    start: 0.0,
};

fn hold(start: f64, duration: f64) -> Object {
    Object {
        kind: Kind::Hold { duration },
        start,
        ..CIRCLE
    }
}

fn slider(start: f64, repeats: u32, distance: f64) -> Object {
    let kind = Kind::Slider {
        repeats,
        distance: Some(distance),
        node_sound: None,
    };
    Object {
        kind,
        start,
        ..CIRCLE
    }
}

/// A job with plenty of everything.
fn run(song: &Song) -> JobEnd {
    run_bytes(&song.bytes())
}

fn run_bytes(record: &[u8]) -> JobEnd {
    let mut chart = vec![0xaa; 100_000];
    let end = job(record, &mut chart, 1_000_000);
    if let JobEnd::Refused { .. } = end {
        assert!(chart.iter().all(|&byte| byte == 0));
    }
    end
}

fn refused(number: u8, object: u32, draws: u32) -> JobEnd {
    JobEnd::Refused {
        number,
        object,
        draws,
    }
}

fn ask() -> Single {
    Single {
        x: 0.0,
        y: 0.0,
        start: 1000.0,
        sound: 0,
        kind: Kind::Circle,
        difficulty: 1.0,
        multiplier: 1.0,
        beat_length: 500.0,
        velocity: 1.0,
        kiai: false,
        density: 2_147_483_647.0,
        prev_time: 0.0,
        prev_x: 0.0,
        prev_y: 0.0,
        prev_mask: 0,
        prev_last: 0,
        reverse_stair: false,
        columns: 4,
        state: Draws::seeded(0),
        allowance: 1000,
    }
}

fn single_refused(ask: &Single) -> u8 {
    let mut buffer = vec![0xaa; 40_000];
    match single(ask, &mut buffer) {
        SingleEnd::Made { .. } => 0,
        SingleEnd::Refused { number, state } => {
            assert_eq!(state, ask.state);
            assert!(buffer.iter().all(|&byte| byte == 0xaa));
            number
        }
    }
}

// The bench table.

#[test]
fn first_value_of_seed_0() {
    let draws = Draws::new(Draws::seeded(0), 1);
    assert_eq!(draws.clone().value(), Ok(273_327_012));
    assert_eq!(draws.clone().range(0, 9), Ok(1));
    assert_eq!(draws.clone().range(0, 7), Ok(0));
}

#[test]
fn seeds() {
    let seed = |hp, cs, od, ar| {
        read(
            &Song {
                hp,
                cs,
                od,
                ar,
                ..Song::default()
            }
            .bytes(),
        )
        .map(|song| song.seed())
    };
    assert_eq!(seed(4.5, 4.0, 0.0, 0.0), Ok(160));
    assert_eq!(seed(5.0, 4.0, 8.0, 9.0), Ok(518));
}

#[test]
fn rounding() {
    let pace = Pace {
        multiplier: 1.0,
        beat_length: 1000.0,
        velocity: 1.0,
    };
    let start = |start| Times::new(start, 0, 0.0, pace).map(|times| times.start);
    assert_eq!(start(1000.5), Ok(1000));
    assert_eq!(start(1001.5), Ok(1002));
    assert_eq!(start(-0.5), Ok(0));
}

#[test]
fn columns_by_share() {
    let columns = |long: usize, count: usize, cs, od| {
        let objects = (0..count)
            .map(|i| {
                if i < long {
                    slider(0.0, 0, 1.0)
                } else {
                    CIRCLE
                }
            })
            .collect();
        read(
            &Song {
                cs,
                od,
                objects,
                ..Song::default()
            }
            .bytes(),
        )
        .map(|song| song.columns())
    };
    assert_eq!(columns(2, 10, 0.0, 5.0), Ok(6));
    assert_eq!(columns(2, 10, 0.0, 5.5), Ok(7));
    assert_eq!(columns(6, 10, 4.0, 8.0), Ok(7));
    assert_eq!(columns(1, 10, 9.0, 0.0), Ok(7));
    assert_eq!(columns(7, 10, 4.0, 4.0), Ok(4));
    assert_eq!(columns(7, 10, 4.0, 4.6), Ok(5));
    // 61 of 100 is above 0.6, 30 of 100 is not below 0.3.
    assert_eq!(columns(61, 100, 4.0, 8.0), Ok(5));
    assert_eq!(columns(30, 100, 4.0, 8.0), Ok(7));
    assert_eq!(columns(30, 100, 4.0, 0.0), Ok(4));
}

#[test]
fn slider_times() {
    let pace = Pace {
        multiplier: 1.0,
        beat_length: 1000.0,
        velocity: 1.0,
    };
    let times = Times::new(1000.4, 0, 100.0, pace);
    assert_eq!(
        times,
        Ok(Times {
            start: 1000,
            end: 2000,
            spans: 1,
            segment: 1000
        })
    );
    let times = Times::new(0.0, 2, 100.0 / 3.0, pace).unwrap();
    assert_eq!((times.end, times.spans, times.segment), (1000, 3, 333));
}

#[test]
fn end_time_notes() {
    let note = |duration| {
        let mut buffer = [0; NOTE_BYTES];
        let ask = Single {
            start: 0.0,
            kind: Kind::Spinner { duration },
            ..ask()
        };
        assert!(matches!(
            single(&ask, &mut buffer),
            SingleEnd::Made {
                notes: 1,
                draws: 1,
                ..
            }
        ));
        (
            buffer[0] >> 3 & 1,
            f64::from_bits(u64::from_be_bytes(buffer[11..].try_into().unwrap())),
        )
    };
    assert_eq!(note(99.9), (0, 0.0));
    assert_eq!(note(100.0), (1, 100.0));
}

#[test]
fn reverse_of_column_1() {
    let mut buffer = [0; NOTE_BYTES];
    let ask = Single {
        prev_mask: 2,
        prev_last: 1,
        ..ask()
    };
    let end = single(&ask, &mut buffer);
    assert_eq!(
        end,
        SingleEnd::Made {
            notes: 1,
            mask: 4,
            last: 2,
            reverse_stair: false,
            state: ask.state,
            draws: 0
        }
    );
    assert_eq!(buffer[0], 0x20);
}

#[test]
fn charttext_example() {
    let mut song = Song {
        key_choice: 9,
        objects: vec![hold(1000.0, 300.0)],
        ..Song::default()
    };
    assert_eq!(
        charttext(&song.bytes()),
        "columns 9 notes 1 draws 1\n1 H 408F400000000000 4072C00000000000\n"
    );
    song.version = 2;
    assert_eq!(charttext(&song.bytes()), "refused 2 object 0 draws 0\n");
    assert_eq!(charttext(&[0; 65_537]), "too long\n");
    assert_eq!(charttext(&[0; 65_536]), "refused 2 object 0 draws 0\n");
}

// The refusal table.

#[test]
fn refusal_1() {
    let bytes = Song::default().bytes();
    assert_eq!(run_bytes(&bytes[..31]), refused(1, 0, 0));
    assert_eq!(run_bytes(&[]), refused(1, 0, 0));
    // Each cut before the last byte: no field is out of range.
    let song = Song {
        breaks: vec![(-1.0, 5.0)],
        timing: vec![(0.0, 500.0)],
        difficulty: vec![(0.0, 1.0)],
        effect: vec![(0.0, true)],
        objects: vec![CIRCLE, slider(5.0, 3, 10.0), hold(6.0, 10.0)],
        ..Song::default()
    };
    let bytes = song.bytes();
    assert!(matches!(run_bytes(&bytes), JobEnd::Chart { .. }));
    for length in 0..bytes.len() {
        assert_eq!(run_bytes(&bytes[..length]), refused(1, 0, 0));
    }
}

#[test]
fn refusals_2_and_3() {
    assert_eq!(
        run(&Song {
            version: 2,
            ..Song::default()
        }),
        refused(2, 0, 0)
    );
    assert_eq!(
        run(&Song {
            key_choice: 10,
            ..Song::default()
        }),
        refused(3, 0, 0)
    );
    // One byte holds both.
    assert_eq!(run_bytes(&[0x2a]), refused(2, 0, 0));
    assert_eq!(run_bytes(&[0x1a]), refused(3, 0, 0));
    assert_eq!(run_bytes(&[0x19]), refused(1, 0, 0));
}

#[test]
fn refusal_4() {
    for hp in [
        10.5,
        -0.0,
        f32::NAN,
        f32::INFINITY,
        10.0_f32.next_up(),
        -1e-45,
    ] {
        assert_eq!(
            run(&Song {
                hp,
                ..Song::default()
            }),
            refused(4, 0, 0)
        );
    }
    for multiplier in [0.4_f64.next_down(), 3.6_f64.next_up()] {
        assert_eq!(
            run(&Song {
                multiplier,
                ..Song::default()
            }),
            refused(4, 0, 0)
        );
    }
    for multiplier in [0.4, 3.6] {
        assert_eq!(
            run(&Song {
                multiplier,
                ..Song::default()
            }),
            JobEnd::Chart {
                length: 8,
                longest_search: 0
            }
        );
    }
    // The setting comes before the record's end.
    assert_eq!(
        run_bytes(
            &Song {
                hp: 10.5,
                ..Song::default()
            }
            .bytes()[..5]
        ),
        refused(4, 0, 0)
    );
}

#[test]
fn refusal_5() {
    let twice = Song {
        timing: vec![(0.0, 500.0), (0.0, 500.0)],
        ..Song::default()
    };
    assert_eq!(run(&twice), refused(5, 0, 0));
    assert_eq!(
        run(&Song {
            breaks: vec![(2.0, 1.0)],
            ..Song::default()
        }),
        refused(5, 0, 0)
    );
    assert_eq!(
        run(&Song {
            breaks: vec![(1.0, 1.0)],
            ..Song::default()
        }),
        JobEnd::Chart {
            length: 8,
            longest_search: 0
        }
    );
    // A bad break start with a cut end is 5.
    let bytes = Song {
        breaks: vec![(f64::NAN, 1.0)],
        ..Song::default()
    }
    .bytes();
    assert_eq!(run_bytes(&bytes[..40]), refused(5, 0, 0));
    assert_eq!(run_bytes(&bytes[..39]), refused(1, 0, 0));
}

#[test]
fn refusal_6() {
    let falling = |last: Object| Song {
        objects: vec![
            Object {
                start: 5.0,
                ..CIRCLE
            },
            last,
        ],
        ..Song::default()
    };
    assert_eq!(
        run(&falling(Object {
            start: 4.0,
            ..CIRCLE
        })),
        refused(6, 0, 0)
    );
    // The repeats come before the bit of the distance, once they are whole.
    let many = Song {
        objects: vec![Object {
            kind: Kind::Slider {
                repeats: 300,
                distance: Some(1.0),
                node_sound: None,
            },
            ..CIRCLE
        }],
        ..Song::default()
    }
    .bytes();
    assert_eq!(run_bytes(&many), refused(6, 0, 0));
    assert_eq!(run_bytes(&many[..50]), refused(6, 0, 0));
    assert_eq!(run_bytes(&many[..49]), refused(1, 0, 0));
    // The order of starts comes before the wholeness of a duration.
    let bytes = falling(hold(4.0, 100.0)).bytes();
    assert_eq!(run_bytes(&bytes[..bytes.len() - 4]), refused(6, 0, 0));
    assert_eq!(
        run(&Song {
            objects: vec![Object { x: -0.0, ..CIRCLE }],
            ..Song::default()
        }),
        refused(6, 0, 0)
    );
}

#[test]
fn refusal_7() {
    let mut bytes = Song::default().bytes();
    bytes.push(0);
    assert_eq!(run_bytes(&bytes), refused(7, 0, 0));
    let mut bytes = Song {
        objects: vec![CIRCLE],
        ..Song::default()
    }
    .bytes();
    *bytes.last_mut().unwrap() |= 1;
    assert_eq!(run_bytes(&bytes), refused(7, 0, 0));
}

#[test]
fn refusal_8() {
    let song = Song {
        key_choice: 4,
        timing: vec![(0.0, 60_000.0)],
        difficulty: vec![(0.0, 0.1)],
        objects: vec![hold(0.0, 5.0), slider(0.0, 0, 131_072.0)],
        ..Song::default()
    };
    assert_eq!(run(&song), refused(8, 1, 1));
    // 8 is met before a draw.
    let kind = Kind::Slider {
        repeats: 0,
        distance: Some(131_072.0),
        node_sound: None,
    };
    let far = Single {
        kind,
        beat_length: 60_000.0,
        velocity: 0.1,
        allowance: 0,
        ..ask()
    };
    assert_eq!(single_refused(&far), 8);
    // 10 ms a pixel: an end at the limit, and one beyond.
    let end = |distance| {
        let objects = vec![slider(16_777_215.0, 15, distance)];
        run(&Song {
            key_choice: 1,
            objects,
            ..Song::default()
        })
    };
    assert!(matches!(
        end(16_777_216.0 / 160.0),
        JobEnd::Chart { length: 27, .. }
    ));
    assert_eq!(end(16_777_217.0 / 160.0), refused(8, 0, 0));
}

#[test]
fn refusals_9_10_and_13() {
    let spinner = Kind::Spinner { duration: 5.0 };
    let full = Single {
        columns: 8,
        prev_mask: 0xfe,
        prev_last: 1,
        kind: spinner,
        ..ask()
    };
    assert_eq!(single_refused(&full), 9);
    assert_eq!(
        single_refused(&Single {
            allowance: 0,
            ..full
        }),
        12
    );
    assert_eq!(single_refused(&Single { sound: 4, ..full }), 0);

    let stair = Single {
        columns: 8,
        prev_mask: 1,
        prev_time: 910.0,
        reverse_stair: true,
        ..ask()
    };
    assert_eq!(single_refused(&stair), 10);
    assert_eq!(
        single_refused(&Single {
            reverse_stair: false,
            ..stair
        }),
        0
    );

    assert_eq!(
        single_refused(&Single {
            prev_mask: 16,
            prev_last: 4,
            ..ask()
        }),
        13
    );
    assert_eq!(
        single_refused(&Single {
            prev_mask: 2,
            prev_last: 0,
            ..ask()
        }),
        13
    );
    assert_eq!(
        single_refused(&Single {
            prev_last: 1,
            ..ask()
        }),
        13
    );
    assert_eq!(
        single_refused(&Single {
            columns: 0,
            ..ask()
        }),
        13
    );
    assert_eq!(
        single_refused(&Single {
            columns: 10,
            ..ask()
        }),
        13
    );
    assert_eq!(
        single_refused(&Single {
            columns: 10,
            multiplier: 9.0,
            ..ask()
        }),
        13
    );
}

#[test]
fn single_refusals_4_5_and_6() {
    assert_eq!(
        single_refused(&Single {
            multiplier: 0.3,
            ..ask()
        }),
        4
    );
    assert_eq!(
        single_refused(&Single {
            difficulty: 12.0_f64.next_up(),
            ..ask()
        }),
        4
    );
    assert_eq!(
        single_refused(&Single {
            difficulty: f64::NEG_INFINITY,
            ..ask()
        }),
        4
    );
    assert_eq!(
        single_refused(&Single {
            difficulty: -0.0,
            ..ask()
        }),
        0
    );
    assert_eq!(
        single_refused(&Single {
            beat_length: 5.0,
            difficulty: 1.0,
            ..ask()
        }),
        5
    );
    assert_eq!(
        single_refused(&Single {
            velocity: 0.09,
            sound: 16,
            ..ask()
        }),
        5
    );
    assert_eq!(single_refused(&Single { sound: 16, ..ask() }), 6);
    assert_eq!(
        single_refused(&Single {
            prev_x: -0.0,
            ..ask()
        }),
        6
    );
    assert_eq!(
        single_refused(&Single {
            prev_time: f64::NAN,
            ..ask()
        }),
        6
    );
    assert_eq!(
        single_refused(&Single {
            prev_time: -0.0,
            density: -0.0,
            ..ask()
        }),
        0
    );
    let slider = |repeats, node| Kind::Slider {
        repeats,
        distance: None,
        node_sound: Some(node),
    };
    assert_eq!(
        single_refused(&Single {
            kind: slider(300, 0),
            ..ask()
        }),
        6
    );
    assert_eq!(
        single_refused(&Single {
            kind: slider(0, 16),
            ..ask()
        }),
        6
    );
    assert_eq!(
        single_refused(&Single {
            kind: slider(299, 15),
            ..ask()
        }),
        0
    );
}

#[test]
fn refusal_11() {
    let song = Song {
        key_choice: 9,
        objects: vec![hold(1000.0, 300.0), hold(2000.0, 300.0)],
        ..Song::default()
    };
    let end = |length: usize, allowance| {
        let mut chart = vec![0xaa; length];
        let end = job(&song.bytes(), &mut chart, allowance);
        let kept = chart.iter().filter(|&&byte| byte == 0xaa).count();
        (end, kept)
    };
    assert_eq!(end(7, 9), (refused(11, 0, 0), 0));
    assert_eq!(end(8, 9), (refused(11, 0, 1), 0));
    assert_eq!(end(26, 9), (refused(11, 0, 1), 0));
    assert_eq!(end(27, 1), (refused(12, 1, 1), 0));
    let (
        JobEnd::Refused {
            number: 11,
            object: 1,
            draws,
        },
        0,
    ) = end(45, 99)
    else {
        panic!()
    };
    assert!(draws >= 2);
    let chart = JobEnd::Chart {
        length: 46,
        longest_search: 0,
    };
    assert_eq!(end(46, 99), (chart, 0));
    assert_eq!(end(54, 99), (chart, 8));
    // The record comes before the buffer, the buffer before the walk.
    let mut chart = [0xaa; 7];
    assert_eq!(job(&[0x2a], &mut chart, 0), refused(2, 0, 0));
    assert_eq!(chart, [0; 7]);
}

#[test]
fn refusal_12() {
    let song = Song {
        objects: vec![hold(0.0, 300.0)],
        ..Song::default()
    };
    let mut chart = [0xaa; 100];
    assert_eq!(job(&song.bytes(), &mut chart, 0), refused(12, 0, 0));
    assert_eq!(chart, [0; 100]);
    assert_eq!(
        single_refused(&Single {
            kind: Kind::Hold { duration: 1.0 },
            allowance: 0,
            ..ask()
        }),
        12
    );
}

// A state of zeros never leaves a column that is taken. The hold's own column is drawn before its search.
#[test]
fn refusal_16() {
    let zeros = State {
        x: 0,
        y: 0,
        z: 0,
        w: 0,
    };
    let stuck = |allowance| {
        single_refused(&Single {
            kind: Kind::Hold { duration: 1.0 },
            prev_mask: 1,
            state: zeros,
            allowance,
            ..ask()
        })
    };
    assert_eq!([0, 1, 4095, 4096].map(stuck), [12; 4]);
    assert_eq!([4097, 4098, 1_000_000].map(stuck), [16; 3]);
}

// A hold draws its own column; its other draws, here by songs that are one hold longer each, are its search's.
#[test]
fn longest_search() {
    let mut song = Song {
        key_choice: 2,
        objects: vec![CIRCLE],
        ..Song::default()
    };
    let end = |song: &Song| {
        let mut bytes = [0; 2000];
        let JobEnd::Chart {
            length,
            longest_search,
        } = job(&song.bytes(), &mut bytes, 1000)
        else {
            panic!()
        };
        let chart = read_chart(&bytes[..length]).expect("a written chart is read");
        (chart.draws, longest_search)
    };
    let (mut before, mut longest) = end(&song);
    let mut growths = 0;

    for second in 1..100 {
        song.objects.push(hold(f64::from(second) * 1000.0, 300.0));
        let (draws, longest_search) = end(&song);
        let search = draws - before - 1;
        growths += u32::from(search > longest);
        (before, longest) = (draws, longest.max(search));
        assert_eq!(longest_search, longest);
    }

    assert!(growths > 1 && longest < 90);
}

#[test]
fn refusal_14() {
    assert_eq!(read_chart(&[0x11, 0, 0, 0, 0, 0, 0]), None);
    let note = |hold, start: f64, duration: f64| entry::Note {
        column: 0,
        hold,
        object: None,
        start: start.to_bits(),
        duration: duration.to_bits(),
    };
    let reads_in = |version, object: Option<u16>, notes: &[entry::Note]| {
        let notes = notes.iter().map(|&note| entry::Note { object, ..note }).collect();
        let chart = Chart { version, columns: 1, draws: 7, notes };
        let read = read_chart(&write_chart(&chart));
        assert!(read.is_none() || read == Some(chart));
        read.is_some()
    };
    // In both versions, whatever the object.
    let reads = |notes: &[entry::Note]| {
        let old = reads_in(1, None, notes);
        assert!([0, 1, 2, 255, 256, 4094, 4095].iter().all(|&object| reads_in(2, Some(object), notes) == old));
        old
    };
    let circle = [note(false, 1.0, 0.0)];
    assert!([0, 3, 4, 15].iter().all(|&version| !reads_in(version, None, &circle) && !reads_in(version, Some(0), &circle)));
    assert!(!reads_in(1, Some(0), &circle) && !reads_in(2, None, &circle));
    let last = 33_554_431.0_f64;
    assert!(reads(&[]));
    assert!(reads(&[note(false, last, 0.0)]));
    assert!(!reads(&[note(false, last.next_up(), 0.0)]));
    assert!(!reads(&[note(true, last, 5e-324)]));
    assert!(reads(&[note(true, 0.0, last)]));
    assert!(!reads(&[note(true, 5e-324, last)]));
    assert!(reads(&[note(
        true,
        last.next_down(),
        last - last.next_down()
    )]));
    assert!(!reads(&[note(
        true,
        last.next_down(),
        (last - last.next_down()).next_up()
    )]));
    assert!(!reads(&[note(true, 0.0, 0.0)]));
    assert!(!reads(&[note(true, 0.0, -0.0)]));
    assert!(!reads(&[note(false, -0.0, 0.0)]));
    assert!(!reads(&[note(false, 0.0, 1.0)]));
    assert!(!reads(&[note(false, f64::NAN, 0.0)]));
    assert!(!reads(&[note(false, f64::INFINITY, 0.0)]));
    // Every exponent has an answer.
    for exponent in 0..=2047 {
        let duration = f64::from_bits(exponent << 52 | 1);
        assert_eq!(reads(&[note(true, 0.0, duration)]), duration <= last);
    }
    assert!(!reads(&[note(false, 5.0, 0.0), note(false, 4.0, 0.0)]));
    assert!(reads(&[note(false, 5.0, 0.0), note(true, 5.0, 1.0)]));
}

// Slips a porter makes, and traps.

#[test]
fn a_spinner_is_not_the_previous_pattern() {
    let kind = Kind::Spinner { duration: 500.0 };
    let ask = Single {
        kind,
        prev_mask: 4,
        prev_last: 2,
        reverse_stair: true,
        ..ask()
    };
    let end = single(&ask, &mut [0; NOTE_BYTES]);
    assert!(matches!(
        end,
        SingleEnd::Made {
            notes: 1,
            mask: 4,
            last: 2,
            reverse_stair: true,
            ..
        }
    ));
}

#[test]
fn x_below_0_is_the_first_column() {
    let column = |columns, x| {
        let mut buffer = [0; NOTE_BYTES];
        let ask = Single {
            columns,
            x,
            prev_time: 1000.0,
            ..ask()
        };
        assert!(matches!(
            single(&ask, &mut buffer),
            SingleEnd::Made { notes: 1, .. }
        ));
        buffer[0] >> 4
    };
    assert_eq!(column(4, -300.0), 0);
    assert_eq!(column(8, -300.0), 1);
    assert_eq!(column(8, 1000.0), 7);
    assert_eq!(column(4, 1000.0), 3);
    assert_eq!(column(4, 128.0), 1);
}

/// The machine's root is rounded to the nearest f32.
#[test]
fn roots_are_under_20_as_the_machine_has_it() {
    let bound = 400.0_f32.to_bits();
    let around = bound - 100_000..bound + 100_000;
    let all = (0..f32::INFINITY.to_bits()).step_by(4_001);

    for bits in around.chain(all) {
        let sum = f32::from_bits(bits);
        assert_eq!(root_under_20(sum), sum.sqrt() < 20.0, "{sum}");
    }
    assert!(!root_under_20(f32::from_bits(bound - 1)) && root_under_20(f32::from_bits(bound - 2)));
}

#[test]
fn a_remainder_leaves_the_hold_alone_at_the_end() {
    // Two spans over 601 ms: rows at 0, 300 and 600, the hold to 601.
    let end = |distance| {
        let kind = Kind::Slider {
            repeats: 1,
            distance: Some(distance),
            node_sound: Some(8),
        };
        let ask = Single {
            kind,
            start: 0.0,
            difficulty: 12.0,
            beat_length: 1000.0,
            ..ask()
        };
        let SingleEnd::Made { notes, mask, .. } = single(&ask, &mut [0; NOTE_BYTES * 9]) else {
            panic!()
        };
        (notes, mask.count_ones())
    };
    let (notes, held) = end(30.05);
    assert_eq!((notes > 3, held), (true, 1));
    let (_, held) = end(30.0);
    assert!(held > 1);
}

#[test]
fn a_finish_at_8_columns_needs_no_draw() {
    let kind = Kind::Hold { duration: 999.9 };
    let ask = Single {
        columns: 8,
        kind,
        sound: 4,
        allowance: 0,
        ..ask()
    };
    assert!(matches!(
        single(&ask, &mut [0; NOTE_BYTES]),
        SingleEnd::Made {
            notes: 1,
            draws: 0,
            ..
        }
    ));
    assert_eq!(
        single_refused(&Single {
            kind: Kind::Hold { duration: 1000.0 },
            ..ask
        }),
        12
    );
}

// Laws on random inputs.

#[test]
fn sums_of_ticks_are_exact() {
    let mut rng = Rng::new(17);

    for _ in 0..20_000 {
        let a = rng.uniform(0.0, 40.0);
        let b = if rng.percent(50) {
            rng.uniform(0.0, 40.0)
        } else {
            rng.unit() * 1e-12
        };
        let bound = rng.pick(&[a + b, (a + b).next_down(), (a + b).next_up(), 40.0]);
        // The error of a float sum is a float.
        let sum = a + b;
        let part = sum - a;
        let error = (a - (sum - part)) + (b - part);
        let expected = sum < bound || (sum == bound && error <= 0.0);
        let ticks = |x| Ticks::of(x).unwrap();
        assert_eq!(
            ticks(a).plus(ticks(b)).at_most(ticks(bound)),
            expected,
            "{a} {b} {bound}"
        );
    }

    assert_eq!(Ticks::of(-1.0), None);
    assert_eq!(Ticks::of(f64::NAN), None);
    assert_eq!(Ticks::of(f64::INFINITY), None);
    let large = 2f64.powi(64);
    assert_eq!(Ticks::of(large), None);
    assert!(Ticks::of(large.next_down()).is_some_and(|ticks| !ticks.plus(ticks).at_most(ticks)));
    let least = Ticks::of(5e-324).unwrap();
    assert!(
        !Ticks::of(33_554_431.0)
            .unwrap()
            .plus(least)
            .at_most(Ticks::of(33_554_431.0).unwrap())
    );
}

#[test]
fn an_allowance_only_ends_a_job() {
    let mut rng = Rng::new(19);

    for _ in 0..300 {
        let record = jobs::record(&mut rng);
        let mut whole = vec![0xaa; 300_000];
        let end = job(&record, &mut whole, u32::MAX);
        let JobEnd::Chart { length, .. } = end else {
            continue;
        };
        let chart = read_chart(&whole[..length]).expect("a written chart is read");
        assert!(whole[length..].iter().all(|&byte| byte == 0xaa));

        let mut exact = vec![0; length];
        assert_eq!(job(&record, &mut exact, chart.draws), end);
        assert_eq!(exact, whole[..length]);

        if chart.draws > 0 {
            let fewer = rng.below(u64::from(chart.draws)) as u32;
            let end = job(&record, &mut exact, fewer);
            assert!(
                matches!(end, JobEnd::Refused { number: 12, draws, .. } if draws == fewer),
                "{end:?}"
            );
            assert!(exact.iter().all(|&byte| byte == 0));
        }

        let end = job(&record, &mut exact[..length - 1], chart.draws);
        if length == 8 {
            assert_eq!(end, refused(11, 0, 0));
        } else {
            assert!(matches!(end, JobEnd::Refused { number: 11, .. }), "{end:?}");
        }
    }
}

#[test]
fn notes_of_one_object_share_no_instant_in_a_column() {
    let mut rng = Rng::new(23);
    let mut buffer = vec![0; NOTE_BYTES * 2100];

    for _ in 0..20_000 {
        let (ask, _) = jobs::single(&mut rng);
        let SingleEnd::Made {
            notes, mask, last, ..
        } = single(&ask, &mut buffer)
        else {
            continue;
        };
        assert!(mask >> ask.columns == 0 && (mask >> last & 1 == 1 || (mask, last) == (0, 0)));
        let word = |bytes: &[u8]| u64::from_be_bytes(bytes.try_into().unwrap());
        let notes = buffer[..NOTE_BYTES * notes as usize].chunks_exact(NOTE_BYTES).map(|note| entry::Note {
            column: note[0] >> 4,
            hold: note[0] >> 3 & 1 == 1,
            object: Some(0),
            start: word(&note[3..11]),
            duration: word(&note[11..]),
        });
        let notes: Vec<_> = notes.collect();
        assert!(notes.iter().all(|note| u32::from(note.column) < ask.columns));
        assert!(apart(notes), "{ask:?}");
    }
}

/// Whether no two notes of one object and column share an instant.
fn apart(mut notes: Vec<entry::Note>) -> bool {
    let ticks = |bits| Ticks::of(f64::from_bits(bits)).unwrap();
    let lane = |note: &entry::Note| (note.object, note.column);
    // Times from 0 have their patterns' order.
    notes.sort_by_key(|note| (lane(note), note.start));

    notes
        .windows(2)
        .filter(|pair| lane(&pair[0]) == lane(&pair[1]))
        .all(|pair| !ticks(pair[1].start).at_most(ticks(pair[0].start).plus(ticks(pair[0].duration))))
}

/// The lane rule, on a chart's bytes alone.
#[test]
fn notes_of_one_object_share_no_instant_in_a_chart() {
    let mut rng = Rng::new(29);
    let mut buffer = vec![0; chart_bytes(100_000)];
    let mut shared = 0;

    for _ in 0..500 {
        let JobEnd::Chart { length, .. } = job(&jobs::record(&mut rng), &mut buffer, u32::MAX) else {
            continue;
        };
        let notes = read_chart(&buffer[..length]).expect("a written chart is read").notes;
        let as_one = notes.iter().map(|&note| entry::Note { object: Some(0), ..note }).collect();
        shared += u32::from(!apart(as_one));
        assert!(apart(notes));
    }
    // Notes of different objects often do.
    assert!(shared > 50);
}
