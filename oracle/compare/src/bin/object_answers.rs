//! Writes the single objects that the program `vectors` replays, with the unchanged Rust's answers. Arguments: the file, the seed (1).
//!
//! First a hold whose own column and every draw of its search fall on a taken column, under allowances up to and beyond the limit of a
//! search; then a slider with repeat counts about their limit, of which 299 make the most notes that an object makes, 602, in a buffer that
//! has room for them and in one that is a byte shorter; then random objects, so many of each answer. A file is its objects one after the
//! other, as `compare::entry` makes them.
//! What goes in: the parameters of `sumopine_object` up to the duration, in their order, and the four words of the state; flags and the kind
//! have 32 bits, mask and repeats 16, last column, columns and sounds 8. The numbers: the buffer's length, the allowance, number (0: made),
//! count, mask, last column, stair, state and draws. What is due are the notes. Buffers are lent as `lent_bytes` makes them.
//! Standard output is what `vectors` has to print of them.

use std::process::ExitCode;

use compare::{entry, lent_bytes};
use entry::{Kind, NOTE_BYTES, Single, SingleEnd, State};
use jobs::Rng;

const MADE: usize = 120;
/// Of each refusal.
const REFUSED: usize = 12;
/// Of a random object.
const MOST_NOTES: u32 = 40;
/// The refusals of the single-object entry.
const REFUSALS: [u8; 10] = [4, 5, 6, 8, 9, 10, 11, 12, 13, 16];
/// Room for the most notes of an object.
const ROOM: usize = NOTE_BYTES * 602;
/// Repeats, the buffer's length, and what is due: the number and the count of notes.
const REPEATS: [(u32, usize, (u8, u32)); 5] =
    [(298, ROOM, (0, 600)), (299, ROOM, (0, 602)), (299, ROOM - 1, (11, 0)), (300, ROOM, (6, 0)), (1023, ROOM, (6, 0))];
const ALLOWANCES: [u32; 7] = [0, 1, 4095, 4096, 4097, 4098, 1_000_000];

/// The generator gives only zeros, so that every column drawn is the first, which is taken.
fn stuck(allowance: u32) -> Single {
    Single {
        x: 0.0,
        y: 0.0,
        start: 1000.0,
        sound: 0,
        kind: Kind::Hold { duration: 300.0 },
        difficulty: 1.0,
        multiplier: 1.0,
        beat_length: 500.0,
        velocity: 1.0,
        kiai: false,
        density: 0.0,
        prev_time: 0.0,
        prev_x: 0.0,
        prev_y: 0.0,
        prev_mask: 1,
        prev_last: 0,
        reverse_stair: false,
        columns: 4,
        state: State { x: 0, y: 0, z: 0, w: 0 },
        allowance,
    }
}

/// Spans of 180 ms and a difficulty above 3: two notes in each row.
fn rows(repeats: u32) -> Single {
    Single {
        kind: Kind::Slider { repeats, distance: Some(18.0), node_sound: None },
        difficulty: 3.5,
        beat_length: 1000.0,
        prev_mask: 0,
        state: State { x: 0, y: 842_502_087, z: 3_579_807_591, w: 273_326_509 },
        ..stuck(1000)
    }
}

/// What goes in; `None` where a number is wider than its field, or a NaN, whose bits a host may choose.
fn input(ask: &Single) -> Option<Vec<u8>> {
    let (kind, repeats, distance, node, duration) = match ask.kind {
        Kind::Circle => (0_u32, 0, None, None, 0.0),
        Kind::Slider { repeats, distance, node_sound } => (1, repeats, distance, node_sound, 0.0),
        Kind::Spinner { duration } => (2, 0, None, None, duration),
        Kind::Hold { duration } => (3, 0, None, None, duration),
    };
    let double = |value: f64| (!value.is_nan()).then(|| value.to_be_bytes().to_vec());
    let single = |value: f32| (!value.is_nan()).then(|| value.to_be_bytes().to_vec());
    let word = |value: u32| Some(value.to_be_bytes().to_vec());
    let half = |value: u32| Some(u16::try_from(value).ok()?.to_be_bytes().to_vec());
    let byte = |value: u32| Some(vec![u8::try_from(value).ok()?]);
    let State { x, y, z, w } = ask.state;
    let fields = [
        double(ask.difficulty),
        double(ask.multiplier),
        double(ask.beat_length),
        double(ask.velocity),
        word(ask.kiai.into()),
        double(ask.density),
        double(ask.prev_time),
        single(ask.prev_x),
        single(ask.prev_y),
        half(ask.prev_mask),
        byte(ask.prev_last),
        word(ask.reverse_stair.into()),
        byte(ask.columns),
        single(ask.x),
        single(ask.y),
        double(ask.start),
        byte(ask.sound),
        word(kind),
        half(repeats),
        word(distance.is_some().into()),
        double(distance.unwrap_or(0.0)),
        word(node.is_some().into()),
        byte(node.unwrap_or(0)),
        double(duration),
        word(x),
        word(y),
        word(z),
        word(w),
    ];

    Some(fields.into_iter().collect::<Option<Vec<_>>>()?.concat())
}

/// An object's answer: its number (0: made), how many notes it has, and its entry, where it can be recorded.
fn answered(ask: &Single, length: usize) -> Option<(u8, u32, Vec<u8>)> {
    let input = input(ask)?;
    let (mut notes, mut other) = (lent_bytes(length), lent_bytes(length));
    let end = reference::single(ask, &mut notes);
    assert_eq!((end, &notes), (second::single(ask, &mut other), &other), "the two implementations differ");
    let (number, [count, mask, last, stair, draws], State { x, y, z, w }) = match end {
        SingleEnd::Made { notes, mask, last, reverse_stair, state, draws } => (0, [notes, mask, last, reverse_stair.into(), draws], state),
        SingleEnd::Refused { number, state } => (number, [0; 5], state),
    };
    let numbers = [length as u32, ask.allowance, number.into(), count, mask, last, stair, x, y, z, w, draws];

    Some((number, count, entry(&input, &numbers, &notes[..NOTE_BYTES * count as usize])))
}

fn main() -> ExitCode {
    let mut arguments = std::env::args().skip(1);
    let Some(path) = arguments.next() else {
        eprintln!("usage: object_answers FILE [SEED]");
        return ExitCode::from(2);
    };
    let mut rng = Rng::new(arguments.next().and_then(|text| text.parse().ok()).unwrap_or(1));
    let mut kept = [0; 32];
    let mut bytes = Vec::new();

    for allowance in ALLOWANCES {
        let (number, _, entry) = answered(&stuck(allowance), 100).expect("its numbers fit");
        kept[usize::from(number)] += 1;
        bytes.extend(entry);
    }
    for (repeats, length, due) in REPEATS {
        let (number, count, entry) = answered(&rows(repeats), length).expect("its numbers fit");
        assert_eq!((number, count), due, "{repeats} repeats");
        kept[usize::from(number)] += 1;
        bytes.extend(entry);
    }
    while kept[0] < MADE || REFUSALS.iter().any(|number| kept[usize::from(*number)] < REFUSED) {
        let (ask, length) = if rng.percent(50) { jobs::single(&mut rng) } else { jobs::damaged_single(&mut rng) };
        let Some((number, count, entry)) = answered(&ask, length) else { continue };
        let number = usize::from(number);
        if count <= MOST_NOTES && kept[number] < if number == 0 { MADE } else { REFUSED } {
            kept[number] += 1;
            bytes.extend(entry);
        }
    }

    if let Err(error) = std::fs::write(&path, &bytes) {
        eprintln!("{path}: {error}");
        return ExitCode::FAILURE;
    }
    println!("{} objects, 0 differ", kept.iter().sum::<usize>());
    println!("made: {}", kept[0]);
    for (number, count) in kept.iter().enumerate().skip(1).filter(|(_, count)| **count > 0) {
        println!("refused {number}: {count}");
    }
    eprintln!("{} bytes", bytes.len());

    ExitCode::SUCCESS
}
