//! Records that are mostly refused, each refusal from 1 to 8 often.

use crate::{
    records::{MOST_REPEATS, song},
    rng::Rng,
    song::{Field, Name, Object, Song, pack},
};
use entry::Kind;

/// A record with one or two faults; a few remain valid.
pub fn damaged(rng: &mut Rng) -> Vec<u8> {
    let song = small(rng);

    if rng.percent(6) {
        return extreme(rng, song).bytes();
    }

    let mut fields = song.fields();
    let faults = if rng.percent(25) { 2 } else { 1 };
    let mut bytes_fault = None;
    let mut repeats_end = None;

    for _ in 0..faults {
        match rng.below(17) {
            0 => set(rng, &mut fields, Name::Version),
            1 => set(rng, &mut fields, Name::KeyChoice),
            2..=7 => float(rng, &mut fields),
            8 | 9 => order(rng, &mut fields),
            10 => count(rng, &mut fields),
            11 => repeats_end = repeats(rng, &mut fields),
            fault => bytes_fault = Some(fault),
        }
    }

    let mut bytes = pack(&fields);

    match bytes_fault {
        Some(12..=14) => cut(rng, &fields, &mut bytes),
        Some(15) => surplus(rng, &fields, &mut bytes),
        Some(_) => {
            let bit = rng.index(bytes.len() * 8);
            bytes[bit / 8] ^= 0x80 >> (bit % 8);
        }
        None => {}
    }
    if let Some(end) = repeats_end
        && rng.percent(50)
    {
        // Within the field, or at the end of its last byte, which is often the field's own.
        bytes.truncate(end - rng.index(2));
    }

    bytes
}

/// A song of few objects, so that every field is met often.
fn small(rng: &mut Rng) -> Song {
    let mut song = song(rng);

    if rng.percent(90) {
        song.objects.truncate(rng.index(6));
    }
    song.timing.truncate(3);
    song.difficulty.truncate(3);
    song.effect.truncate(3);

    if song.breaks.is_empty() && rng.percent(50) {
        song.breaks
            .push((rng.uniform(-50.0, 50.0), rng.uniform(50.0, 500.0)));
    }

    song
}

/// A slider that may end beyond the limit, or just at it.
fn extreme(rng: &mut Rng, mut song: Song) -> Song {
    let start = match song.objects.last() {
        Some(object) => object.start,
        None => 0.0,
    };
    let later = rng.uniform(start, 16_777_215.0);
    let start = rng.pick(&[start, 16_777_215.0, later]);
    let repeats = rng.pick(&[0, 0, 1, 3, MOST_REPEATS]);
    let distance = if rng.percent(50) {
        // A span of 10 ms a pixel, so that the limit can be met exactly.
        song.multiplier = 1.0;
        song.timing = vec![(0.0, 1000.0)];
        song.difficulty.clear();
        let room = (33_554_431.0 - start.round_ties_even()) / 10.0 / f64::from(repeats + 1);
        (room + rng.pick(&[0.0, 0.09, 0.1, 0.11, -0.1, 1.0])).clamp(0.0, 131_072.0)
    } else {
        if rng.percent(80) {
            song.timing = vec![(-1.0, 60_000.0)];
        }
        rng.pick(&[131_072.0, 50_000.0, 3000.0])
    };
    let kind = Kind::Slider {
        repeats,
        distance: Some(distance),
        node_sound: None,
    };
    song.objects.push(Object {
        kind,
        sound: 0,
        x: 100.0,
        y: 100.0,
        start,
    });

    song
}

fn set(rng: &mut Rng, fields: &mut [Field], name: Name) {
    if let Some(field) = fields.iter_mut().find(|field| field.name == name) {
        field.value = rng.below(16);
    }
}

fn one_of(rng: &mut Rng, fields: &[Field], test: impl Fn(&Field) -> bool) -> Option<usize> {
    let found: Vec<usize> = (0..fields.len()).filter(|&i| test(&fields[i])).collect();

    (!found.is_empty()).then(|| rng.pick(&found))
}

/// A float field out of its range, or just within it.
fn float(rng: &mut Rng, fields: &mut [Field]) {
    // Kinds of fields are met alike, however many there are of each.
    let mut names: Vec<Name> = Vec::new();
    for field in fields.iter().filter(|field| field.name.bounds().is_some()) {
        if !names.contains(&field.name) {
            names.push(field.name);
        }
    }
    let name = rng.pick(&names);
    let Some(index) = one_of(rng, fields, |field| field.name == name) else {
        return;
    };
    let Some((low, high)) = name.bounds() else {
        return;
    };
    let field = &mut fields[index];
    let choice = rng.below(12);

    field.value = if field.width == 32 {
        let (low, high) = (low as f32, high as f32);
        u64::from(
            match choice {
                0 => f32::NAN,
                1 => f32::INFINITY,
                2 => f32::NEG_INFINITY,
                3 => -0.0,
                4 | 5 => low.next_down(),
                6 | 7 => high.next_up(),
                8 => low,
                9 => high,
                10 => f32::from_bits(rng.word() as u32),
                _ => -1e-45,
            }
            .to_bits(),
        )
    } else {
        match choice {
            0 => f64::NAN,
            1 => f64::INFINITY,
            2 => f64::NEG_INFINITY,
            3 => -0.0,
            4 | 5 => low.next_down(),
            6 | 7 => high.next_up(),
            8 => low,
            9 => high,
            10 => f64::from_bits(rng.word()),
            _ => -5e-324,
        }
        .to_bits()
    };
}

/// A time against the order of its list: equal to the one before, a float below it, or free.
fn order(rng: &mut Rng, fields: &mut [Field]) {
    let name = rng.pick(&[
        Name::BreakEnd,
        Name::TimingTime,
        Name::DifficultyTime,
        Name::EffectTime,
        Name::Start,
        Name::Start,
    ]);
    let Some(index) = one_of(rng, fields, |field| field.name == name) else {
        return;
    };
    let earlier = if name == Name::BreakEnd {
        Name::BreakStart
    } else {
        name
    };
    let before = fields[..index]
        .iter()
        .rev()
        .find(|field| field.name == earlier);
    let Some(before) = before.map(|field| f64::from_bits(field.value)) else {
        return;
    };
    let time = rng.pick(&[
        before,
        before.next_down(),
        before.next_up(),
        before - 1.0,
        before / 2.0,
    ]);
    // A negative zero is another fault.
    fields[index].value = if time == 0.0 { 0 } else { time.to_bits() };
}

/// A count of a list that is not its length.
fn count(rng: &mut Rng, fields: &mut [Field]) {
    let name = rng.pick(&[
        Name::Breaks,
        Name::Timing,
        Name::Difficulty,
        Name::Effect,
        Name::Objects,
    ]);
    if let Some(field) = fields.iter_mut().find(|field| field.name == name) {
        field.value = match rng.below(4) {
            0 => field.value + 1,
            1 => field.value.saturating_sub(1),
            2 => 0,
            _ => rng.below(1 << field.width),
        };
    }
}

/// A repeat count about the limit or above it. Gives how many bytes the record has up to the field's end.
fn repeats(rng: &mut Rng, fields: &mut [Field]) -> Option<usize> {
    let index = one_of(rng, fields, |field| field.name == Name::Repeats)?;
    let most = u64::from(MOST_REPEATS);
    fields[index].value = rng.pick(&[most - 1, most, most + 1, most + 2, 511, 512, 1023]);
    let end: usize = fields[..=index].iter().map(|field| field.width).sum();

    Some(end.div_ceil(8))
}

/// Cuts the record so that one field, of any kind, is the first that is not whole.
fn cut(rng: &mut Rng, fields: &[Field], bytes: &mut Vec<u8>) {
    let mut names: Vec<Name> = Vec::new();
    for field in fields {
        if !names.contains(&field.name) {
            names.push(field.name);
        }
    }

    // Short fields are seldom cut, as they must have a byte's end within or before them.
    let short = |name: &Name| matches!(name, Name::DistanceBit | Name::NodeBit | Name::NodeSound);
    let shorts: Vec<Name> = names.iter().copied().filter(short).collect();
    let names = if !shorts.is_empty() && rng.percent(20) {
        shorts
    } else {
        names
    };

    for _ in 0..20 {
        let name = rng.pick(&names);
        let Some(index) = one_of(rng, fields, |field| field.name == name) else {
            return;
        };
        let at: usize = fields[..index].iter().map(|field| field.width).sum();
        let (least, beyond) = (at.div_ceil(8), (at + fields[index].width).div_ceil(8));

        if least < beyond {
            bytes.truncate(least + rng.index(beyond - least));
            return;
        }
    }
}

/// A filling bit set, or bytes after the record.
fn surplus(rng: &mut Rng, fields: &[Field], bytes: &mut Vec<u8>) {
    let used: usize = fields.iter().map(|field| field.width).sum();
    let filling = (8 - used % 8) % 8;

    if filling > 0 && rng.percent(50) {
        if let Some(last) = bytes.last_mut() {
            *last |= 1 << rng.index(filling);
        }
    } else {
        for _ in 0..rng.between(1, 3) {
            bytes.push(if rng.percent(70) { 0 } else { rng.word() as u8 });
        }
    }
}
