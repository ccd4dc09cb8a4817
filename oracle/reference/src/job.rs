//! The job: record, walk of the unchanged `convert`, chart.

use entry::{JobEnd, Note};

use crate::{
    Beatmap, GameMods,
    chart::{HEAD, NOTE, maker_of, note_of, sort, write_head, write_notes},
    mania::convert::convert,
    record,
    stop::{ends_too_late, guarded},
    util::random::osu::{ALLOWANCE, DRAWS, LONGEST_SEARCH},
};

/// How a walk over the first objects ends, the draws it took and the most of one search.
pub struct Walk {
    pub end: Result<Beatmap, u8>,
    pub draws: u64,
    longest_search: u64,
}

/// Runs `convert` on the first objects only. It pairs objects with sounds, so with fewer sounds it
/// walks fewer objects, while all that it takes from the whole song stays.
pub fn walk(map: &Beatmap, mods: &GameMods, objects: usize, allowance: u64) -> Walk {
    let mut map = map.clone();
    map.hit_sounds.truncate(objects);

    walk_all(map, mods, allowance)
}

fn walk_all(mut map: Beatmap, mods: &GameMods, allowance: u64) -> Walk {
    ALLOWANCE.set(allowance);
    let end = guarded(|| {
        convert(&mut map, mods);
        map
    });

    Walk { end, draws: DRAWS.get(), longest_search: LONGEST_SEARCH.get() }
}

fn room(notes: usize) -> usize {
    HEAD + NOTE * notes
}

pub fn job(record: &[u8], chart: &mut [u8], allowance: u32) -> JobEnd {
    let end = try_job(record, chart, u64::from(allowance));

    if let JobEnd::Refused { .. } = end {
        chart.fill(0);
    }

    end
}

fn try_job(record: &[u8], chart: &mut [u8], allowance: u64) -> JobEnd {
    let refused = |number, object: usize, draws: u64| JobEnd::Refused {
        number,
        object: object as u32,
        draws: draws as u32,
    };

    let (map, mods) = match record::read(record) {
        Ok(song) => song,
        Err(number) => return refused(number, 0, 0),
    };

    if chart.len() < HEAD {
        return refused(11, 0, 0);
    }

    // 8 needs no draw, so the object that would meet it is known before; the walk may stop earlier.
    let late = map.hit_objects.iter().position(|object| ends_too_late(object, &map));
    let objects = late.unwrap_or(map.hit_objects.len());

    let stops = |walk: &Walk| match &walk.end {
        Ok(made) => chart.len() < room(made.hit_objects.len()),
        Err(_) => true,
    };

    let mut whole = walk(&map, &mods, objects, allowance);

    if !stops(&whole) {
        return match (late, whole.end) {
            (Some(object), _) => refused(8, object, whole.draws),
            (None, Ok(made)) => {
                let mut notes: Vec<Note> = made
                    .hit_objects
                    .iter()
                    .map(|note| note_of(note, made.cs, maker_of(note)))
                    .collect();
                sort(&mut notes);
                write_head(made.cs as u8, notes.len(), whole.draws as u32, chart);
                let length = room(notes.len());
                write_notes(notes.into_iter(), &mut chart[HEAD..]);

                JobEnd::Chart { length, longest_search: whole.longest_search as u32 }
            }
            (None, Err(_)) => unreachable!("a walk that ends in a refusal stops"),
        };
    }

    // A walk that stops does so on every longer stretch too: halve to the first object that stops.
    let mut goes = 0;
    let mut halts = objects;
    while halts - goes > 1 {
        let middle = goes + (halts - goes) / 2;
        let part = walk(&map, &mods, middle, allowance);

        if stops(&part) {
            halts = middle;
            whole = part;
        } else {
            goes = middle;
        }
    }

    refused(whole.end.err().unwrap_or(11), halts - 1, whole.draws)
}

/// A record read once, for timing the plain `convert`.
#[derive(Clone)]
pub struct Prepared {
    map: Beatmap,
    mods: GameMods,
}

/// Reads a record; `None` where it is refused with 1 to 8.
pub fn prepare(record: &[u8]) -> Option<Prepared> {
    let (map, mods) = record::read(record).ok()?;

    if map.hit_objects.iter().any(|object| ends_too_late(object, &map)) {
        return None;
    }

    Some(Prepared { map, mods })
}

/// What `convert` made of a map. It still holds the notes, so that their drop need not be timed.
pub struct Converted {
    map: Beatmap,
    draws: u64,
}

impl Converted {
    pub fn notes(&self) -> u32 {
        self.map.hit_objects.len() as u32
    }

    pub fn draws(&self) -> u32 {
        self.draws as u32
    }
}

impl Prepared {
    /// Runs `convert` and nothing else, with no limit on draws; `None` where it stops with 9 or 10.
    pub fn run(self) -> Option<Converted> {
        let walk = walk_all(self.map, &self.mods, u64::MAX);

        Some(Converted { map: walk.end.ok()?, draws: walk.draws })
    }

    /// Clones the map and runs `convert` on the clone. Notes and draws.
    pub fn convert(&self) -> Option<(u32, u32)> {
        let made = self.clone().run()?;

        Some((made.notes(), made.draws()))
    }
}

/// Notes and draws of the plain `convert`; `None` where the record or the conversion is refused.
pub fn convert_only(record: &[u8]) -> Option<(u32, u32)> {
    prepare(record)?.convert()
}
