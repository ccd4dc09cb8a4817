//! Document 01's bench table and refusal table, and the job against a walk of single objects.

use entry::{Chart, JobEnd, Kind, NOTE_BYTES, Note, Single, SingleEnd, State, chart_bytes};
use jobs::{Object, Song};

use rosu_map::util::Pos;

use crate::{
    chart::note_at,
    convert_only, job,
    job::walk,
    mania::{convert::single::representative, object::ManiaObject},
    prepare, read_chart,
    record::read,
    single,
    util::random::osu::{Random, SEED},
};

fn plain() -> Song {
    Song::default()
}

fn object(start: f64, kind: Kind) -> Object {
    Object { sound: 0, x: 0.0, y: 0.0, start, kind }
}

fn slider(repeats: u32, distance: f64) -> Kind {
    Kind::Slider { repeats, distance: Some(distance), node_sound: None }
}

fn hold(duration: f64) -> Kind {
    Kind::Hold { duration }
}

/// The song with a change.
fn with(song: &Song, change: impl FnOnce(&mut Song)) -> Song {
    let mut song = song.clone();
    change(&mut song);
    song
}

/// Runs a job in a buffer of other bytes, and tests what every end says of them.
fn run(record: &[u8], buffer: usize, allowance: u32) -> (JobEnd, Option<Chart>) {
    let mut bytes = vec![0xA5; buffer];
    let end = job(record, &mut bytes, allowance);
    match end {
        JobEnd::Refused { .. } => {
            assert!(bytes.iter().all(|byte| *byte == 0));
            (end, None)
        }
        JobEnd::Chart { length, .. } => {
            assert!(bytes[length..].iter().all(|byte| *byte == 0xA5));
            (end, Some(read_chart(&bytes[..length]).expect("a written chart reads back")))
        }
    }
}

fn chart(song: &Song) -> Chart {
    run(&song.bytes(), 1 << 20, u32::MAX).1.expect("accepted")
}

fn refusal(record: &[u8], buffer: usize, allowance: u32) -> (u8, u32, u32) {
    match run(record, buffer, allowance).0 {
        JobEnd::Refused { number, object, draws } => (number, object, draws),
        JobEnd::Chart { .. } => (0, 0, 0),
    }
}

fn number(song: &Song) -> u8 {
    refusal(&song.bytes(), 1 << 20, 1_000_000).0
}

const STATE: State = State { x: 0, y: 842_502_087, z: 3_579_807_591, w: 273_326_509 };

fn ask(kind: Kind) -> Single {
    Single {
        x: 0.0,
        y: 0.0,
        start: 0.0,
        sound: 0,
        kind,
        difficulty: 0.0,
        multiplier: 1.0,
        beat_length: 1000.0,
        velocity: 1.0,
        kiai: false,
        density: 2_147_483_647.0,
        prev_time: 0.0,
        prev_x: 0.0,
        prev_y: 0.0,
        prev_mask: 0,
        prev_last: 0,
        reverse_stair: false,
        columns: 4,
        state: STATE,
        allowance: 1_000,
    }
}

/// Runs a single object in a buffer for `room` notes, and gives its notes as a chart's reader would.
fn made(ask: &Single, room: usize) -> (SingleEnd, Vec<Note>) {
    let mut bytes = vec![0xA5; room * NOTE_BYTES];
    let end = single(ask, &mut bytes);
    let notes = match end {
        SingleEnd::Made { notes, .. } => notes as usize,
        SingleEnd::Refused { state, .. } => {
            assert_eq!(state, ask.state);
            0
        }
    };
    let (made, rest) = bytes.split_at(notes * NOTE_BYTES);
    assert!(rest.iter().all(|byte| *byte == 0xA5));
    let notes = made.chunks(NOTE_BYTES).map(|bytes| {
        let (note, zero_bits) = note_at(bytes);
        assert_eq!((note.object, zero_bits), (Some(0), 0));
        note
    });
    (end, notes.collect())
}

fn single_number(ask: &Single) -> u8 {
    match made(ask, 4096).0 {
        SingleEnd::Refused { number, .. } => number,
        SingleEnd::Made { .. } => 0,
    }
}

// Bench table

#[test]
fn generator() {
    let from_0 = || Random::from_words((0, 842_502_087, 3_579_807_591, 273_326_509), 9);
    assert_eq!(from_0().next_int(), 273_327_012);
    assert_eq!(from_0().next_int_range(0, 9), 1);
    assert_eq!(from_0().next_int_range(0, 7), 0);
    assert_eq!(from_0().next_double(), 273_327_012.0 / 2_147_483_648.0);
    assert_eq!(from_0().words(), Random::new(0).words());
}

#[test]
fn seeds() {
    let seed = |hp, cs, od, ar| {
        let song = Song { hp, cs, od, ar, ..plain() };
        chart(&song);
        SEED.get()
    };
    assert_eq!(seed(4.5, 4.0, 0.0, 0.0), 160);
    assert_eq!(seed(5.0, 4.0, 8.0, 9.0), 518);
}

#[test]
fn rounding() {
    assert_eq!(1000.5_f64.round_ties_even(), 1000.0);
    assert_eq!(1001.5_f64.round_ties_even(), 1002.0);
    assert_eq!((-0.5_f64).round_ties_even() as i32, 0);
    for (start, rounded) in [(1000.5, 1000.0_f64), (1001.5, 1002.0)] {
        let made = made(&Single { start, columns: 1, ..ask(slider(0, 0.0)) }, 9).1;
        assert_eq!(made[0].start, rounded.to_bits());
    }
}

#[test]
fn shares() {
    let columns = |sliders: usize, cs, od| {
        let mut objects = vec![object(0.0, slider(0, 10.0)); sliders];
        objects.resize(10, object(0.0, Kind::Circle));
        chart(&Song { cs, od, objects, ..plain() }).columns
    };
    assert_eq!(columns(2, 0.0, 5.0), 6);
    assert_eq!(columns(2, 0.0, 5.5), 7);
    assert_eq!(columns(6, 4.0, 8.0), 7);
    assert_eq!(columns(0, 4.0, 8.0), 7);
    assert_eq!(columns(7, 4.0, 8.0), 5);
    assert_eq!(chart(&Song { od: 0.0, ..plain() }).columns, 4);
    assert_eq!(chart(&Song { key_choice: 9, ..plain() }).columns, 9);
}

#[test]
fn slider_ends() {
    let whole = made(&Single { start: 1000.4, columns: 1, ..ask(slider(0, 100.0)) }, 9).1;
    assert_eq!(
        whole,
        [Note {
            column: 0,
            hold: true,
            object: Some(0),
            start: 1000.0_f64.to_bits(),
            duration: 1000.0_f64.to_bits(),
        }]
    );

    // Above difficulty 2.5 each row has a circle, the first one only with a sound.
    let spans = Single { difficulty: 5.0, sound: 2, ..ask(slider(2, 33.34)) };
    let notes = made(&spans, 99).1;
    let hold: Vec<_> = notes.iter().filter(|note| note.hold).collect();
    assert_eq!(hold.len(), 1);
    assert_eq!(hold[0].duration, 1000.0_f64.to_bits());
    let rows: Vec<_> =
        notes.iter().filter(|note| !note.hold).map(|note| f64::from_bits(note.start)).collect();
    assert_eq!(rows, [0.0, 333.0, 666.0, 999.0]);
    // The division left a remainder, so that the last pattern has only the hold.
    let SingleEnd::Made { mask, last, .. } = made(&spans, 99).0 else { panic!() };
    assert_eq!((mask, last), (1 << hold[0].column, hold[0].column.into()));
}

#[test]
fn end_times() {
    for (duration, is_hold) in [(99.9, false), (100.0, true)] {
        let notes = made(&ask(hold(duration)), 1).1;
        assert_eq!(notes.len(), 1);
        assert_eq!(notes[0].hold, is_hold);
    }
}

#[test]
fn reverse() {
    let circle = Single { start: 1000.0, prev_mask: 2, prev_last: 1, ..ask(Kind::Circle) };
    let (end, notes) = made(&circle, 9);
    assert_eq!(notes.len(), 1);
    assert_eq!(notes[0].column, 2);
    assert_eq!(
        end,
        SingleEnd::Made {
            notes: 1,
            mask: 4,
            last: 2,
            reverse_stair: false,
            state: STATE,
            draws: 0
        }
    );
}

#[test]
fn charttext() {
    let song = Song { key_choice: 9, objects: vec![object(1000.0, hold(300.0))], ..plain() };
    let (end, chart) = run(&song.bytes(), 65_536, 1_000_000);
    assert_eq!(end, JobEnd::Chart { length: 27, longest_search: 0 });
    assert_eq!(
        chart,
        Some(Chart {
            version: 2,
            columns: 9,
            draws: 1,
            notes: vec![Note {
                column: 1,
                hold: true,
                object: Some(0),
                start: 0x408F_4000_0000_0000,
                duration: 0x4072_C000_0000_0000
            }],
        })
    );
    assert_eq!(convert_only(&song.bytes()), Some((1, 1)));
    assert_eq!(prepare(&song.bytes()).unwrap().run().unwrap().notes(), 1);
}

// Meanings that the stand-ins give

#[test]
fn separation() {
    let under = |dx, dy| (Pos { x: dx, y: dy } - Pos { x: 0.0, y: 0.0 }).length() < 20.0;
    assert!(!under(12.0, 16.0));
    // The squares' sum is the float just below 400, whose root rounds to 20; that of the one before does not.
    let at = 16.0_f32.next_down();
    assert_eq!(12.0 * 12.0 + at * at, 400.0_f32.next_down());
    assert!(!under(12.0, at));
    let dy = 16.0_f32.next_down().next_down();
    assert_eq!(12.0 * 12.0 + dy * dy, 400.0_f32.next_down().next_down());
    assert!(under(12.0, dy));

    // 140 ms after a single note, a circle as near as this is put on its column without a draw.
    let circle = Single { start: 140.0, prev_mask: 1, prev_x: 12.0, ..ask(Kind::Circle) };
    for (prev_y, expected) in [(dy, 0), (at, 1), (16.0, 1)] {
        let SingleEnd::Made { draws, .. } = made(&Single { prev_y, ..circle }, 9).0 else {
            panic!()
        };
        assert_eq!(draws, expected);
    }
}

#[test]
fn columns_found_back() {
    for columns in 1..=9_u16 {
        for column in 0..=255_u16 {
            let at = (f32::from(column) * (512.0 / f32::from(columns))).ceil();
            assert_eq!(at >= 512.0, column >= columns);
            let found = ManiaObject::column(at, columns.into());
            assert_eq!(found, usize::from(column.min(columns - 1)));
        }
    }
}

// Refusal table

#[test]
fn refusal_1() {
    let header = plain().bytes();
    assert_eq!(header.len(), 32);
    assert_eq!(refusal(&header, 8, 0), (0, 0, 0));
    for length in 0..32 {
        assert_eq!(refusal(&header[..length], 8, 0), (1, 0, 0), "{length} bytes");
    }
    // Fields are whole before the buffer is looked at.
    assert_eq!(refusal(&header[..31], 7, 0), (1, 0, 0));
}

#[test]
fn refusals_2_to_4() {
    assert_eq!(number(&Song { version: 2, key_choice: 10, ..plain() }), 2);
    assert_eq!(number(&Song { key_choice: 10, hp: 10.5, ..plain() }), 3);
    for bad in [10.5, -1.0, -0.0, f32::NAN, f32::INFINITY, 10.0_f32.next_up()] {
        assert_eq!(number(&Song { hp: bad, ..plain() }), 4);
        assert_eq!(number(&Song { cs: bad, ..plain() }), 4);
        assert_eq!(number(&Song { od: bad, ..plain() }), 4);
        assert_eq!(number(&Song { ar: bad, ..plain() }), 4);
    }
    assert_eq!(number(&Song { multiplier: 0.4, ..plain() }), 0);
    assert_eq!(number(&Song { multiplier: 3.6, ..plain() }), 0);
    assert_eq!(number(&Song { multiplier: 0.4_f64.next_down(), ..plain() }), 4);
    assert_eq!(number(&Song { multiplier: 3.6_f64.next_up(), ..plain() }), 4);
    // A cut field comes after a bad one.
    let cut = Song { hp: 10.5, ..plain() }.bytes();
    assert_eq!(refusal(&cut[..5], 8, 0).0, 4);
    assert_eq!(refusal(&cut[..4], 8, 0).0, 1);
}

#[test]
fn refusal_5() {
    let beat = 1000.0;
    assert_eq!(number(&Song { timing: vec![(0.0, beat), (0.0, beat)], ..plain() }), 5);
    assert_eq!(number(&Song { timing: vec![(0.0, beat), (1.0, beat)], ..plain() }), 0);
    assert_eq!(number(&Song { timing: vec![(-0.0, beat)], ..plain() }), 5);
    assert_eq!(number(&Song { timing: vec![(0.0, 5.9)], ..plain() }), 5);
    assert_eq!(number(&Song { difficulty: vec![(0.0, 0.1), (-1.0, 1.0)], ..plain() }), 5);
    assert_eq!(number(&Song { difficulty: vec![(0.0, 0.1_f64.next_down())], ..plain() }), 5);
    assert_eq!(number(&Song { effect: vec![(0.0, true), (0.0, false)], ..plain() }), 5);
    assert_eq!(number(&Song { effect: vec![(16_777_215.5, true)], ..plain() }), 5);
    assert_eq!(number(&Song { breaks: vec![(1.0, 0.0)], ..plain() }), 5);
    assert_eq!(number(&Song { breaks: vec![(1.0, 1.0), (0.0, 0.5)], ..plain() }), 0);
    let cut = Song { breaks: vec![(f64::NAN, 0.0)], ..plain() }.bytes();
    assert_eq!(refusal(&cut[..40], 8, 0).0, 5);
    assert_eq!(refusal(&cut[..39], 8, 0).0, 1);
}

#[test]
fn refusal_6() {
    let song = Song { objects: vec![object(5.0, hold(1.0)), object(4.0, hold(1.0))], ..plain() };
    assert_eq!(number(&song), 6);
    // The order of starts comes before the duration's wholeness.
    let record = song.bytes();
    assert_eq!(refusal(&record[..record.len() - 8], 8, 0).0, 6);
    let one = |change: fn(&mut Object)| {
        number(&with(&plain(), |song| {
            song.objects.push(object(0.0, slider(0, 1.0)));
            change(&mut song.objects[0]);
        }))
    };
    assert_eq!(one(|_| {}), 0);
    assert_eq!(one(|o| o.x = -512.5), 6);
    assert_eq!(one(|o| o.y = 1024.5), 6);
    assert_eq!(one(|o| o.y = -0.0), 6);
    assert_eq!(one(|o| o.start = -0.0), 6);
    assert_eq!(one(|o| o.start = 16_777_216.0), 6);
    assert_eq!(one(|o| o.kind = slider(0, 131_072.5)), 6);
    assert_eq!(one(|o| o.kind = slider(299, 1.0)), 0);
    assert_eq!(one(|o| o.kind = slider(300, 1.0)), 6);
    // The repeats are refused before the distance's bit is looked for, but not before they are whole.
    let many = Song { objects: vec![object(0.0, slider(300, 1.0))], ..plain() }.bytes();
    assert_eq!(refusal(&many[..50], 8, 0).0, 6);
    assert_eq!(refusal(&many[..49], 8, 0).0, 1);
    assert_eq!(one(|o| o.kind = hold(-0.0)), 6);
    assert_eq!(one(|o| o.kind = Kind::Spinner { duration: f64::INFINITY }), 6);
}

#[test]
fn refusal_7() {
    let mut more = plain().bytes();
    more.push(0);
    assert_eq!(refusal(&more, 8, 0).0, 7);
    let song = Song { effect: vec![(0.0, true)], ..plain() };
    let mut record = song.bytes();
    assert_eq!(refusal(&record, 8, 0).0, 0);
    *record.last_mut().unwrap() |= 1;
    assert_eq!(refusal(&record, 7, 0).0, 7);
}

#[test]
fn refusal_8() {
    let late = object(0.0, slider(0, 131_072.0));
    let song = Song {
        timing: vec![(0.0, 60_000.0)],
        difficulty: vec![(0.0, 0.1)],
        objects: vec![object(0.0, hold(300.0)), late],
        ..plain()
    };
    assert_eq!(refusal(&song.bytes(), 1000, 9), (8, 1, 1));
    // An object before it can still refuse first.
    assert_eq!(refusal(&song.bytes(), chart_bytes(1) - 1, 9), (11, 0, 1));
    assert_eq!(refusal(&song.bytes(), 1000, 0), (12, 0, 0));
    assert_eq!(convert_only(&song.bytes()), None);

    let single = Single { beat_length: 60_000.0, velocity: 0.1, ..ask(slider(0, 131_072.0)) };
    assert_eq!(single_number(&single), 8);
    // 33,554,431 is reached, one more is not.
    let to = |distance| {
        single_number(&Single { start: 16_777_215.0, columns: 1, ..ask(slider(127, distance)) })
    };
    assert_eq!(to(13_107.2), 0);
    assert_eq!(to(13_107.201), 8);
}

#[test]
fn refusal_9() {
    let full = Single {
        columns: 8,
        prev_mask: 0xFE,
        prev_last: 7,
        ..ask(Kind::Spinner { duration: 0.0 })
    };
    assert_eq!(single_number(&full), 9);
    assert_eq!(single_number(&Single { allowance: 1, ..full }), 9);
    assert_eq!(single_number(&Single { allowance: 0, ..full }), 12);
    // All columns taken: stacking is allowed.
    assert_eq!(single_number(&Single { prev_mask: 0xFF, ..full }), 0);
    // A finish under a second takes column 0 without a draw.
    assert_eq!(single_number(&Single { sound: 4, allowance: 0, ..full }), 0);
}

#[test]
fn refusal_10() {
    let stair = Single {
        columns: 8,
        start: 90.0,
        prev_mask: 1,
        prev_last: 0,
        reverse_stair: true,
        allowance: 0,
        ..ask(Kind::Circle)
    };
    assert_eq!(single_number(&stair), 10);
    assert_eq!(single_number(&Single { columns: 7, ..stair }), 0);
    assert_eq!(single_number(&Single { reverse_stair: false, ..stair }), 0);
}

#[test]
fn refusal_11() {
    let song = Song { objects: vec![object(0.0, hold(300.0)); 3], ..plain() };
    let record = song.bytes();
    assert_eq!(refusal(&record, 7, 9), (11, 0, 0));
    assert_eq!(refusal(&record, 8, 0), (12, 0, 0));
    assert_eq!(refusal(&record, 8, 9), (11, 0, 1));
    assert_eq!(refusal(&record, chart_bytes(2) - 1, 9), (11, 1, 2));
    assert_eq!(refusal(&record, chart_bytes(2), 2), (12, 2, 2));
    assert_eq!(refusal(&record, chart_bytes(3) - 1, 3), (11, 2, 3));
    assert_eq!(refusal(&record, chart_bytes(3), 3), (0, 0, 0));
    let hold = ask(hold(300.0));
    assert_eq!(made(&hold, 0).0, SingleEnd::Refused { number: 11, state: STATE });
    assert_eq!(
        made(&Single { allowance: 0, ..hold }, 0).0,
        SingleEnd::Refused { number: 12, state: STATE }
    );
}

#[test]
fn refusal_12() {
    let song = Song { objects: vec![object(0.0, hold(300.0))], ..plain() };
    assert_eq!(refusal(&song.bytes(), 1000, 0), (12, 0, 0));
    assert_eq!(refusal(&song.bytes(), 1000, 1), (0, 0, 0));
    assert_eq!(single_number(&Single { allowance: 0, ..ask(hold(300.0)) }), 12);
}

// Zeros give only zeros: the first draw is the hold's own column, 0, which is taken, and no draw of the search leaves it.
#[test]
fn refusal_16() {
    let state = State { x: 0, y: 0, z: 0, w: 0 };
    let stuck =
        |allowance| single_number(&Single { prev_mask: 1, state, allowance, ..ask(hold(300.0)) });
    assert_eq!([0, 1, 4095, 4096].map(stuck), [12; 4]);
    assert_eq!([4097, 4098, 1_000_000].map(stuck), [16; 3]);
}

// A hold draws its own column; its other draws, here by songs that are one hold longer each, are its search's.
#[test]
fn longest_search() {
    let mut song = Song { key_choice: 2, objects: vec![object(1000.0, Kind::Circle)], ..plain() };
    let (mut before, mut longest, mut growths) = (chart(&song).draws, 0, 0);
    for second in 2..100 {
        song.objects.push(object(f64::from(second) * 1000.0, hold(300.0)));
        let (end, chart) = run(&song.bytes(), 1 << 12, 1000);
        let draws = chart.unwrap().draws;
        let search = draws - before - 1;
        growths += u32::from(search > longest);
        (before, longest) = (draws, longest.max(search));
        assert!(matches!(end, JobEnd::Chart { longest_search, .. } if longest_search == longest));
    }
    assert!(growths > 1 && longest < 90);
}

#[test]
fn refusal_13_and_order_of_single() {
    let mut bad = Single { prev_mask: 1 << 4, prev_last: 4, ..ask(hold(-1.0)) };
    bad.multiplier = 0.0;
    bad.beat_length = 0.0;
    assert_eq!(single_number(&bad), 13);
    bad.prev_mask = 0;
    assert_eq!(single_number(&bad), 13);
    bad.prev_last = 0;
    assert_eq!(single_number(&bad), 4);
    bad.multiplier = 1.0;
    assert_eq!(single_number(&bad), 5);
    bad.beat_length = 6.0;
    assert_eq!(single_number(&bad), 6);
    bad.kind = hold(0.0);
    assert_eq!(single_number(&bad), 0);

    let good = ask(Kind::Circle);
    assert_eq!(single_number(&good), 0);
    for columns in [0, 10, 33, u32::MAX] {
        assert_eq!(single_number(&Single { columns, ..good }), 13);
    }
    assert_eq!(single_number(&Single { prev_mask: 1 << 31, prev_last: 31, ..good }), 13);
    assert_eq!(single_number(&Single { prev_mask: 3, prev_last: 2, ..good }), 13);
    assert_eq!(single_number(&Single { prev_mask: 3, prev_last: 33, ..good }), 13);
    for difficulty in [f64::NAN, f64::NEG_INFINITY, 12.0_f64.next_up()] {
        assert_eq!(single_number(&Single { difficulty, ..good }), 4);
    }
    assert_eq!(single_number(&Single { difficulty: 12.0, ..good }), 0);
    assert_eq!(single_number(&Single { difficulty: -1e300, ..good }), 0);
    assert_eq!(single_number(&Single { velocity: 10.1, ..good }), 5);
    assert_eq!(single_number(&Single { sound: 16, ..good }), 6);
    assert_eq!(single_number(&Single { prev_x: -0.0, ..good }), 6);
    assert_eq!(single_number(&Single { prev_y: 1025.0, ..good }), 6);
    assert_eq!(single_number(&Single { prev_time: f64::INFINITY, ..good }), 6);
    assert_eq!(single_number(&Single { prev_time: -0.0, density: -0.0, ..good }), 0);
    assert_eq!(single_number(&Single { density: f64::NAN, ..good }), 6);
    assert_eq!(single_number(&Single { kind: slider(299, 0.0), ..good }), 0);
    for repeats in [300, 1023, 1024, u32::MAX] {
        assert_eq!(single_number(&Single { kind: slider(repeats, 0.0), ..good }), 6);
    }
    let node = Kind::Slider { repeats: 0, distance: None, node_sound: Some(16) };
    assert_eq!(single_number(&Single { kind: node, ..good }), 6);
}

#[test]
fn refusal_14() {
    type Change = fn(&mut [u8]);
    const LAST: f64 = 33_554_431.0;
    // A hold in column 3, in version 1 or, with object 1, in version 2.
    let write_in = |version: u8, start: f64, duration: f64| {
        let mut bytes = vec![version << 4 | 4, 0, 0, 1, 0, 0, 0, 0, 0x38];
        if version == 2 {
            bytes.extend([0, 0x80]);
        }
        bytes.extend(start.to_bits().to_be_bytes());
        bytes.extend(duration.to_bits().to_be_bytes());
        bytes
    };
    let changes: [Change; 9] = [
        |c| c[0] = 0x04,
        |c| c[0] = 0x34,
        |c| c[0] ^= 0x30,
        |c| c[0] &= 0xF0,
        |c| c[0] |= 0x0A,
        |c| c[0] -= 1,
        |c| c[if c[0] == 0x14 { 8 } else { 10 }] |= 1,
        |c| c[8] = 0x30,
        |c| c[3] = 0,
    ];
    for (version, object) in [(1, None), (2, Some(1))] {
        let good = write_in(version, 1.0, 2.0);
        let chart = read_chart(&good).unwrap();
        assert_eq!((chart.version, chart.notes[0].object), (version, object));
        for length in 0..good.len() {
            assert_eq!(read_chart(&good[..length]), None);
        }
        let mut more = good.clone();
        more.push(0);
        assert_eq!(read_chart(&more), None);
        for change in changes {
            let mut bad = good.clone();
            change(&mut bad);
            assert_eq!(read_chart(&bad), None);
        }
    }
    let write = |start: f64, duration: f64| write_in(2, start, duration);
    let good = write(1.0, 2.0);
    for (start, duration) in [
        (-0.0, 1.0),
        (-1.0, 1.0),
        (f64::NAN, 1.0),
        (1.0, f64::NAN),
        (1.0, f64::INFINITY),
        (f64::INFINITY, 1.0),
        (0.0, 0.0),
        (0.0, -0.0),
        (0.0, -1.0),
        (LAST, f64::from_bits(1)),
        (LAST - 0.5, 0.5_f64.next_up()),
        (0.5, LAST.next_down()),
        (f64::from_bits(1), LAST),
        (LAST - 1.0, 1.0_f64.next_up()),
    ] {
        assert_eq!(read_chart(&write(start, duration)), None, "{start} {duration}");
    }
    for (start, duration) in [
        (0.0, LAST),
        (0.5, LAST - 0.5),
        (LAST - 0.5, 0.5),
        (LAST - 0.75, 0.75_f64.next_down()),
        (f64::from_bits(1), f64::from_bits(1)),
        (f64::from_bits(1), LAST.next_down()),
        (LAST - 1.0, 1.0),
    ] {
        assert!(read_chart(&write(start, duration)).is_some(), "{start} {duration}");
    }
    // Two notes, the first in column 3: starts may stand, not fall, and of equal starts so may columns.
    let two = |column: u8, second: f64| {
        let mut bytes = good.clone();
        bytes[3] = 2;
        bytes.extend([column << 4, 0, 0]);
        bytes.extend(second.to_bits().to_be_bytes());
        bytes.extend([0; 8]);
        read_chart(&bytes).is_some()
    };
    assert!(two(3, 1.0) && two(0, 1.0_f64.next_up()) && two(0, LAST));
    assert!(!two(2, 1.0) && !two(0, 1.0));
    assert!(!two(3, 1.0_f64.next_down()) && !two(0, LAST.next_up()));
}

// What the object of a note rests on: x and y of a note are made equal, those of no other position are, and no y is read.
#[test]
fn a_note_s_y_is_free() {
    macro_rules! rust {
        ($($name:literal)*) => {
            [$(include_str!(concat!(env!("OUT_DIR"), "/rust/mania/", $name, ".rs"))),*]
        };
    }
    let files = rust!["object" "convert/mod" "convert/pattern" "convert/pattern_generator/mod" "convert/pattern_generator/hit_object"
        "convert/pattern_generator/path_object" "convert/pattern_generator/end_time_object"];
    let mut made = 0;
    for text in files {
        assert!(!text.contains("pos.y") && !text.contains("Pos {"));
        for (at, call) in text.match_indices("Pos::new") {
            let rest = &text[at + call.len()..];
            assert!(rest.starts_with("(pos, pos)") || rest.starts_with("(256.0, 192.0)"), "{}", &rest[..20]);
            made += 1;
        }
    }
    assert_eq!(made, 6);
}

// What `single` rests on: difficulty is only ever compared, and with these numbers.
#[test]
fn difficulty_is_compared_with_five_numbers() {
    let circle = include_str!(concat!(
        env!("OUT_DIR"),
        "/rust/mania/convert/pattern_generator/hit_object.rs"
    ));
    let slider = include_str!(concat!(
        env!("OUT_DIR"),
        "/rust/mania/convert/pattern_generator/path_object.rs"
    ));
    let end = include_str!(concat!(
        env!("OUT_DIR"),
        "/rust/mania/convert/pattern_generator/end_time_object.rs"
    ));
    assert!(!end.contains("conversion_diff"));
    for text in [circle, slider] {
        for (at, name) in text.match_indices("conversion_diff") {
            let rest = &text[at + name.len()..];
            let compared = ["2.0", "2.5", "3.0", "4.0", "6.5"]
                .iter()
                .any(|n| rest.starts_with(&format!(" > {n} ")));
            let passed = [" = self.inner.conv", "iculty();", ": f64,", ")\n"]
                .iter()
                .any(|n| rest.starts_with(n));
            assert!(compared || passed, "{}", &rest[..20]);
        }
    }
    for d in [
        -1e9,
        0.0,
        2.0,
        2.0_f64.next_up(),
        2.5,
        2.5_f64.next_up(),
        3.0,
        3.1,
        4.0,
        4.1,
        6.5,
        6.5_f64.next_up(),
        12.0,
    ] {
        // The difficulty as the unchanged function computes it for a map without objects.
        let hp = (representative(d) * 13.11 - 4.0) as f32;
        let computed = (0.0 + f64::from(hp + 4.0_f32.clamp(4.0, 7.0)) / 1.5 + 0.0 / 10_000.0 * 9.0)
            / 38.0
            * 5.0
            / 1.15;
        for bound in [2.0, 2.5, 3.0, 4.0, 6.5] {
            assert_eq!(d > bound, computed > bound);
        }
    }
}

// The job against a walk of single objects, on songs made by chance.

struct Dice(u64);

impl Dice {
    fn next(&mut self) -> u64 {
        self.0 =
            self.0.wrapping_mul(6_364_136_223_846_793_005).wrapping_add(1_442_695_040_888_963_407);
        let mut v = self.0 ^ self.0 >> 33;
        v = v.wrapping_mul(0xFF51_AFD7_ED55_8CCD);
        v ^ v >> 33
    }

    fn below(&mut self, n: u64) -> u64 {
        self.next() % n
    }

    fn of<T: Copy>(&mut self, list: &[T]) -> T {
        list[self.below(list.len() as u64) as usize]
    }

    fn to(&mut self, most: f64) -> f64 {
        self.below(1 << 32) as f64 / (1_u64 << 32) as f64 * most
    }
}

fn some_song(dice: &mut Dice) -> Song {
    let points = |dice: &mut Dice, most: u64| {
        let mut time = -1000.0;
        let count = dice.below(most);
        (0..count)
            .map(|_| {
                time += 1.0 + dice.to(3000.0);
                time
            })
            .collect::<Vec<f64>>()
    };
    let mut song = Song {
        key_choice: dice.below(10) as u8,
        hp: dice.to(10.0) as f32,
        cs: dice.of(&[0.0, 4.0, 4.5, 5.5, 7.0]),
        od: dice.to(10.0) as f32,
        ar: dice.to(10.0) as f32,
        multiplier: dice.of(&[0.4, 1.0, 1.4, 3.6]),
        timing: points(dice, 4)
            .into_iter()
            .map(|t| (t, dice.of(&[6.0, 300.0, 333.3, 1000.0, 60_000.0])))
            .collect(),
        difficulty: points(dice, 4)
            .into_iter()
            .map(|t| (t, dice.of(&[0.1, 0.7, 1.0, 3.3, 10.0])))
            .collect(),
        effect: points(dice, 4).into_iter().map(|t| (t, dice.below(2) == 1)).collect(),
        breaks: points(dice, 3).into_iter().map(|t| (t, t + dice.below(3000) as f64)).collect(),
        ..plain()
    };
    let count = dice.below(40);
    let pace = dice.of(&[30.0, 100.0, 160.0, 1000.0]);
    let still = dice.below(2) == 1;
    let mut start = dice.to(500.0);
    for _ in 0..count {
        start += match dice.below(5) {
            0 => 0.0,
            1 => dice.of(&[80.0, 90.0, 95.0, 105.0, 130.0, 140.0]),
            2 => (dice.to(pace)).round(),
            _ => dice.to(pace),
        };
        let kind = match dice.below(6) {
            0..3 => Kind::Circle,
            3..5 => Kind::Slider {
                repeats: if dice.below(2) == 0 { 0 } else { dice.below(9) as u32 },
                distance: (dice.below(9) > 0).then(|| dice.to(60.0)),
                node_sound: (dice.below(2) == 0).then(|| dice.below(16) as u32),
            },
            _ if dice.below(2) == 0 => Kind::Spinner { duration: dice.to(300.0) },
            _ => Kind::Hold { duration: dice.to(300.0) },
        };
        let (x, y) = if still {
            (100.0, 100.0)
        } else {
            (dice.to(700.0) as f32 - 100.0, dice.to(400.0) as f32)
        };
        let sound = dice.of(&[0, 0, 1, 2, 4, 8, 12, 15]);
        song.objects.push(Object { sound, x, y, start, kind });
    }
    song
}

/// The last point at or before a time.
fn in_force<T: Copy>(points: &[(f64, T)], time: f64) -> Option<T> {
    points.iter().rev().find(|(at, _)| *at <= time).map(|(_, value)| *value)
}

/// Notes and draws of a job, object by object, as document 01 tells it.
fn by_singles(song: &Song, columns: u32, seed: u32) -> Result<(Vec<Note>, u32), u8> {
    let gap = match (song.objects.first(), song.objects.last()) {
        (Some(first), Some(last)) => last.start - first.start,
        _ => 0.0,
    };
    let pause = song.breaks.iter().fold(0.0, |sum, (from, to)| sum + (to - from));
    let drain = match ((gap - pause) / 1000.0) as i32 {
        0 => 10_000,
        drain => drain,
    };
    let difficulty = (f64::from(song.hp + song.ar.clamp(4.0, 7.0)) / 1.5
        + song.objects.len() as f64 / f64::from(drain) * 9.0)
        / 38.0
        * 5.0
        / 1.15;

    let mut times: Vec<f64> = Vec::new();
    let mut density = 2_147_483_647.0;
    let push = |times: &mut Vec<f64>, density: &mut f64, time: f64| {
        times.push(time);
        let seven = &times[times.len().saturating_sub(7)..];
        if let [first, .., last] = seven {
            *density = (last - first) / seven.len() as f64;
        }
    };
    let mut state = State { x: seed, ..STATE };
    let (mut prev_time, mut prev_x, mut prev_y) = (0.0, 0.0, 0.0);
    let (mut prev_mask, mut prev_last, mut reverse_stair) = (0, 0, false);
    let mut draws = 0;
    let mut notes = Vec::new();

    for (index, o) in (0..).zip(&song.objects) {
        let beat_length = in_force(&song.timing, o.start)
            .or(song.timing.first().map(|point| point.1))
            .unwrap_or(1000.0);
        let velocity = in_force(&song.difficulty, o.start).unwrap_or(1.0);

        if let Kind::Circle = o.kind {
            push(&mut times, &mut density, o.start);
        }

        let ask = Single {
            x: o.x,
            y: o.y,
            start: o.start,
            sound: o.sound,
            kind: o.kind,
            difficulty: difficulty.min(12.0),
            multiplier: song.multiplier,
            beat_length,
            velocity,
            kiai: in_force(&song.effect, o.start).unwrap_or(false),
            density,
            prev_time,
            prev_x,
            prev_y,
            prev_mask,
            prev_last,
            reverse_stair,
            columns,
            state,
            allowance: u32::MAX,
        };
        let (end, more) = made(&ask, 64);
        match end {
            SingleEnd::Refused { number, .. } => return Err(number),
            SingleEnd::Made {
                mask,
                last,
                reverse_stair: stair,
                state: after,
                draws: taken,
                ..
            } => {
                (prev_mask, prev_last, reverse_stair, state) = (mask, last, stair, after);
                draws += taken;
            }
        }
        notes.extend(more.into_iter().map(|note| Note { object: Some(index), ..note }));

        match o.kind {
            Kind::Circle => (prev_time, prev_x, prev_y) = (o.start, o.x, o.y),
            Kind::Slider { repeats, distance, .. } => {
                let beat = beat_length * (f64::from((100.0 / velocity) as f32) / 100.0);
                let spans = f64::from(repeats + 1);
                let start = o.start.round_ties_even();
                let end = (start + distance.unwrap_or(0.0) * beat * spans * 0.01 / song.multiplier)
                    .floor();
                let span = ((end - start) as i64 / i64::from(repeats + 1)) as f64;
                for i in 0..=repeats + 1 {
                    prev_time = o.start + span * f64::from(i);
                    push(&mut times, &mut density, prev_time);
                }
                (prev_x, prev_y) = (o.x, o.y);
            }
            Kind::Spinner { duration } | Kind::Hold { duration } => {
                (prev_time, prev_x, prev_y) = (o.start + duration, 256.0, 192.0);
                push(&mut times, &mut density, prev_time);
            }
        }
    }

    // Times from 0 have their patterns' order.
    notes.sort_by_key(|note| (note.start, note.column));
    Ok((notes, draws))
}

#[test]
fn job_is_a_walk_of_singles() {
    let mut dice = Dice(1);
    for _ in 0..4000 {
        let song = some_song(&mut dice);
        let record = song.bytes();
        let (end, whole) = run(&record, 1 << 15, u32::MAX);
        let seed = SEED.get() as u32;
        let walked = by_singles(&song, columns_of(&song), seed);

        let Some(whole) = whole else {
            assert!(matches!(end, JobEnd::Refused { number, .. } if walked == Err(number)));
            continue;
        };
        assert_eq!(u32::from(whole.columns), columns_of(&song));
        assert_eq!(walked, Ok((whole.notes.clone(), whole.draws)));
        assert_eq!(convert_only(&record), Some((whole.notes.len() as u32, whole.draws)));

        let length = chart_bytes(whole.notes.len());
        assert_eq!(run(&record, length, whole.draws).0, end);

        // The notes of the first objects are those of a walk over them alone.
        let first = dice.below(song.objects.len() as u64 + 1) as usize;
        let of_first = whole.notes.iter().filter(|note| note.object < Some(first as u16));
        assert_eq!(of_first.count(), first_objects(&song, first).0);

        // With fewer draws the objects before the one that stops still get theirs.
        if whole.draws > 0 {
            let fewer = dice.below(whole.draws.into()) as u32;
            let (number, object, draws) = refusal(&record, length, fewer);
            assert_eq!((number, draws), (12, fewer));
            let object = object as usize;
            assert!(first_objects(&song, object).1 <= fewer);
            assert!(first_objects(&song, object + 1).1 > fewer);
        }

        // In a short buffer the notes before the object that stops have room, with its own not.
        if length > 8 {
            let short = 8 + dice.below(length as u64 - 8) as usize;
            let (number, object, draws) = refusal(&record, short, u32::MAX);
            let object = object as usize;
            let (notes, taken) = first_objects(&song, object + 1);
            assert_eq!((number, draws), (11, taken));
            assert!(chart_bytes(notes) > short);
            assert!(chart_bytes(first_objects(&song, object).0) <= short);
        }
    }
}

/// Notes and draws of the first objects, with the facts of the whole song.
fn first_objects(song: &Song, count: usize) -> (usize, u32) {
    let (map, mods) = read(&song.bytes()).unwrap();
    let walk = walk(&map, &mods, count, u64::MAX);
    (walk.end.unwrap().hit_objects.len(), walk.draws as u32)
}

fn columns_of(song: &Song) -> u32 {
    if song.key_choice > 0 {
        return song.key_choice.into();
    }
    let long = song
        .objects
        .iter()
        .filter(|o| matches!(o.kind, Kind::Slider { .. } | Kind::Spinner { .. }))
        .count();
    let od = song.od.round_ties_even();
    if !song.objects.is_empty() {
        let share = long as f64 / song.objects.len() as f64;
        if share < 0.2 {
            return 7;
        } else if share < 0.3 || song.cs.round_ties_even() >= 5.0 {
            return if od > 5.0 { 7 } else { 6 };
        } else if share > 0.6 {
            return if od > 4.0 { 5 } else { 4 };
        }
    }
    (od as u32 + 1).clamp(4, 7)
}

/// A single object made by chance, mostly within its ranges.
fn some_ask(dice: &mut Dice) -> Single {
    let columns = 1 + dice.below(9) as u32;
    let prev_mask = dice.below(1 << columns) as u32 & dice.of(&[u32::MAX, u32::MAX, 1, 0xFE]);
    let listed: Vec<u32> = (0..columns).filter(|c| prev_mask >> c & 1 == 1).collect();
    let time = |dice: &mut Dice| dice.of(&[0.0, 90.0, 1000.4, 1000.5, 16_777_215.0]);
    let start = time(dice) + dice.of(&[0.0, 0.0, -0.25]);
    let duration = dice.of(&[0.0, 99.9, 100.0, 999.0, 16_777_215.0]);
    let kind = match dice.below(4) {
        0 => Kind::Circle,
        1 => Kind::Spinner { duration },
        2 => Kind::Hold { duration },
        _ => Kind::Slider {
            repeats: dice.of(&[0, 0, 1, 2, 5, 8, 299, 300]),
            distance: (dice.below(9) > 0)
                .then(|| dice.of(&[1.0, 9.0, 11.0, 14.0, 18.0, 100.0, 131_072.0]))
                .map(|distance| distance * dice.of(&[1.0, 0.9, 0.1])),
            node_sound: (dice.below(2) == 0).then(|| dice.below(16) as u32),
        },
    };
    Single {
        x: dice.of(&[-512.0, 0.0, 100.0, 511.0, 1024.0]),
        start,
        sound: dice.below(16) as u32,
        difficulty: dice.of(&[-3.0, 2.0, 2.2, 2.7, 3.3, 5.0, 7.0, 12.0]),
        kiai: dice.below(2) == 1,
        density: dice.of(&[-1.0, 0.0, 500.0, 2_147_483_647.0]),
        prev_time: start - dice.of(&[-5.0, 80.0, 90.0, 100.0, 120.0, 130.0, 140.0, 900.0]),
        prev_x: dice.of(&[0.0, 100.0]),
        prev_mask,
        prev_last: listed.last().map_or(0, |_| dice.of(&listed)),
        reverse_stair: dice.below(2) == 1,
        columns,
        state: State { x: dice.next() as u32, y: dice.next() as u32, z: 1, w: dice.next() as u32 },
        allowance: dice.of(&[0, 1, 2, 5, 100_000]),
        ..ask(kind)
    }
}

// What document 01 says of every answer, and that nothing but its refusals stops a generator.
#[test]
fn singles_keep_their_word() {
    let mut dice = Dice(2);
    let mut met = [0; 17];
    for _ in 0..40_000 {
        let ask = some_ask(&mut dice);
        let (end, notes) = made(&ask, dice.of(&[1, 2100, 2100]));
        match end {
            SingleEnd::Refused { number, .. } => met[usize::from(number)] += 1,
            SingleEnd::Made { mask, last, reverse_stair, state, draws, .. } => {
                met[0] += 1;
                assert!(notes.iter().all(|note| u32::from(note.column) < ask.columns));
                assert!(if mask == 0 { last == 0 } else { mask >> last & 1 == 1 });
                assert!(draws <= ask.allowance);
                let mut random = Random::from_words(
                    (ask.state.x, ask.state.y, ask.state.z, ask.state.w),
                    u64::MAX,
                );
                for _ in 0..draws {
                    random.next_int();
                }
                assert_eq!(random.words(), (state.x, state.y, state.z, state.w));
                match ask.kind {
                    Kind::Circle => {
                        assert_eq!(
                            mask,
                            notes.iter().fold(0, |mask, note| mask | 1 << note.column)
                        );
                        assert_eq!(mask.count_ones() as usize, notes.len());
                    }
                    Kind::Slider { .. } => assert_eq!(reverse_stair, ask.reverse_stair),
                    _ => assert_eq!(
                        (mask, last, reverse_stair),
                        (ask.prev_mask, ask.prev_last, ask.reverse_stair)
                    ),
                }
            }
        }
    }
    for number in [0, 6, 8, 9, 10, 11, 12] {
        assert!(met[number] > 0, "{number} of {met:?}");
    }
    println!("{met:?}");
}

// Records with changed bits and lengths: the reader refuses or the job ends, and nothing else.
#[test]
fn broken_records_end() {
    let mut dice = Dice(3);
    for _ in 0..20_000 {
        let mut record = some_song(&mut dice).bytes();
        for _ in 0..dice.below(4) {
            let at = dice.below(record.len() as u64) as usize;
            record[at] ^= 1 << dice.below(8);
        }
        if dice.below(3) == 0 {
            record.truncate(dice.below(record.len() as u64) as usize);
        }
        let refusal = refusal(&record, 1 << 12, 100);
        if (1..=7).contains(&refusal.0) {
            assert_eq!((refusal.1, refusal.2), (0, 0));
        }
    }
}
