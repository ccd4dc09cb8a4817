//! `sumopine_object`, called as a host in C calls it.

use entry::{Kind, Single, SingleEnd, State};

mod c {
    unsafe extern "C" {
        pub fn sumopine_object(
            difficulty: f64,
            multiplier: f64,
            beat: f64,
            velocity: f64,
            kiai: u32,
            density: f64,
            previous_time: f64,
            previous_x: f32,
            previous_y: f32,
            previous_mask: u32,
            previous_last: u32,
            previous_stair: u32,
            columns: u32,
            x: f32,
            y: f32,
            start: f64,
            sound: u32,
            kind: u32,
            repeats: u32,
            has_distance: u32,
            distance: f64,
            has_node: u32,
            node: u32,
            duration: f64,
            allowance: u32,
            state_x: *mut u32,
            state_y: *mut u32,
            state_z: *mut u32,
            state_w: *mut u32,
            notes: *mut u8,
            notes_len: usize,
            count: *mut u32,
            mask: *mut u32,
            last: *mut u32,
            stair: *mut u32,
            draws: *mut u32,
        ) -> u32;
    }
}

/// What an object gives to the host.
#[derive(Clone, Copy, Debug, PartialEq, Eq)]
pub struct Numbers {
    pub number: u32,
    pub count: u32,
    pub mask: u32,
    pub last: u32,
    pub stair: u32,
    pub draws: u32,
    pub state: State,
}

/// What include/sumopine.h says of each case.
impl From<SingleEnd> for Numbers {
    fn from(end: SingleEnd) -> Self {
        match end {
            SingleEnd::Made { notes, mask, last, reverse_stair, state, draws } => {
                Self { number: 0, count: notes, mask, last, stair: reverse_stair.into(), draws, state }
            }
            SingleEnd::Refused { number, state } => {
                Self { number: number.into(), count: 0, mask: 0, last: 0, stair: 0, draws: 0, state }
            }
        }
    }
}

/// A kind as numbers. What the kind has no use for is filled with `junk`, which must not matter.
#[derive(Clone, Copy, Debug)]
pub struct KindNumbers {
    pub kind: u32,
    pub repeats: u32,
    pub has_distance: u32,
    pub distance: f64,
    pub has_node: u32,
    pub node: u32,
    pub duration: f64,
}

impl KindNumbers {
    pub fn new(kind: Kind, junk: u64) -> Self {
        let float = f64::from_bits(junk);
        let flag = (junk as u32).max(1);
        let spare = Self {
            kind: 0,
            repeats: (junk >> 8) as u32,
            has_distance: junk as u32 & 1,
            distance: float,
            has_node: junk as u32 & 2,
            node: (junk >> 16) as u32,
            duration: float,
        };

        match kind {
            Kind::Circle => spare,
            Kind::Slider { repeats, distance, node_sound } => Self {
                kind: 1,
                repeats,
                has_distance: distance.map_or(0, |_| flag),
                distance: distance.unwrap_or(float),
                has_node: node_sound.map_or(0, |_| flag),
                node: node_sound.unwrap_or(spare.node),
                duration: float,
            },
            Kind::Spinner { duration } => Self { kind: 2, duration, ..spare },
            Kind::Hold { duration } => Self { kind: 3, duration, ..spare },
        }
    }
}

/// `sumopine_object`. The outputs are lent with all bits set, so that one that is not written shows.
pub fn convert(ask: &Single, kind: KindNumbers, notes: &mut [u8]) -> Numbers {
    let State { mut x, mut y, mut z, mut w } = ask.state;
    let [mut count, mut mask, mut last, mut stair, mut draws] = [u32::MAX; 5];
    let number = unsafe {
        c::sumopine_object(
            ask.difficulty,
            ask.multiplier,
            ask.beat_length,
            ask.velocity,
            ask.kiai.into(),
            ask.density,
            ask.prev_time,
            ask.prev_x,
            ask.prev_y,
            ask.prev_mask,
            ask.prev_last,
            ask.reverse_stair.into(),
            ask.columns,
            ask.x,
            ask.y,
            ask.start,
            ask.sound,
            kind.kind,
            kind.repeats,
            kind.has_distance,
            kind.distance,
            kind.has_node,
            kind.node,
            kind.duration,
            ask.allowance,
            &mut x,
            &mut y,
            &mut z,
            &mut w,
            notes.as_mut_ptr(),
            notes.len(),
            &mut count,
            &mut mask,
            &mut last,
            &mut stair,
            &mut draws,
        )
    };

    Numbers { number, count, mask, last, stair, draws, state: State { x, y, z, w } }
}
