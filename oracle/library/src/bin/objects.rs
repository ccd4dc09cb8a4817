//! `sumopine_object` against the unchanged Rust, on random and damaged single objects.
//! Arguments: how many objects (1,000,000), the seed (1). Every notes buffer stands between guard bytes, which must stay as they are.
//! One object in 64 is also lent with a number that is no kind's, which must be refused by 6, or before by 13, 4 or 5.
//! One in 8 is also lent with one of its numbers raised by a multiple of 256 or 65,536, which a narrower parameter in C would cut to the
//! number as it was. It must be refused by 13 (columns, mask, last column), or by 6 (sound, repeats, node sound) unless 13, 4 or 5 comes before.
//! Prints how often each answer was met, and the differences.

use std::collections::BTreeMap;
use std::process::ExitCode;
use std::time::Instant;

use compare::lent_bytes;
use entry::{Kind, Single, SingleEnd};
use jobs::Rng;
use library::object::{KindNumbers, Numbers, convert};

/// Guard bytes on either side.
const GUARD: usize = 64;

/// What the Rust gives, and whether the library gives the same numbers and bytes for these numbers of the kind.
fn same(ask: &Single, kind: KindNumbers, length: usize) -> (SingleEnd, bool) {
    let mut expected = lent_bytes(length + 2 * GUARD);
    let mut notes = expected.clone();
    let inner = GUARD..GUARD + length;
    let end = reference::single(ask, &mut expected[inner.clone()]);
    let numbers = convert(ask, kind, &mut notes[inner]);

    (end, numbers == Numbers::from(end) && notes == expected)
}

/// The same object as a slider that no record can hold: what a number that is no kind's stands for.
fn without_kind(ask: &Single) -> Single {
    Single { kind: Kind::Slider { repeats: u32::MAX, distance: None, node_sound: None }, ..*ask }
}

/// Raises a number by a multiple of 2^width.
fn raise(rng: &mut Rng, number: &mut u32, width: u32) {
    let high = u32::MAX >> width;
    let by = if rng.percent(50) { 1 } else { 1 + rng.below(u64::from(high)) as u32 };
    *number = *number & !(high << width) | by << width;
}

/// One of the six numbers beyond its field's width. The first answer that can come: 13 for a number of the columns or of the pattern, else 6.
fn beyond_a_field(rng: &mut Rng, ask: &mut Single) -> u8 {
    let slider = matches!(ask.kind, Kind::Slider { .. });
    match rng.below(if slider { 6 } else { 4 }) {
        0 => raise(rng, &mut ask.columns, 8),
        1 => raise(rng, &mut ask.prev_mask, 16),
        2 => raise(rng, &mut ask.prev_last, 8),
        field => {
            match &mut ask.kind {
                Kind::Slider { repeats, .. } if field == 4 => raise(rng, repeats, 16),
                Kind::Slider { node_sound, .. } if field == 5 => raise(rng, node_sound.get_or_insert(0), 8),
                _ => raise(rng, &mut ask.sound, 8),
            }
            return 6;
        }
    }
    13
}

fn name(end: SingleEnd) -> String {
    match end {
        SingleEnd::Made { .. } => "notes".to_string(),
        SingleEnd::Refused { number, .. } => format!("refused {number:2}"),
    }
}

fn main() -> ExitCode {
    let mut arguments = std::env::args().skip(1).map_while(|text| text.parse::<u64>().ok());
    let count = arguments.next().unwrap_or(1_000_000);
    let mut rng = Rng::new(arguments.next().unwrap_or(1));
    let mut answers: BTreeMap<String, u64> = BTreeMap::new();
    let (mut differences, mut kindless, mut beyond) = (0_u64, 0_u64, [0_u64; 2]);
    let begun = Instant::now();

    for index in 0..count {
        let (ask, length) = if rng.percent(80) { jobs::single(&mut rng) } else { jobs::damaged_single(&mut rng) };
        let kind = KindNumbers::new(ask.kind, rng.word());
        let (end, mut alike) = same(&ask, kind, length);
        *answers.entry(name(end)).or_default() += 1;

        if index % 64 == 0 {
            let number = (rng.word() as u32).max(4) >> rng.below(30);
            let other = KindNumbers { kind: number.max(4), ..kind };
            let (end, refused_alike) = same(&without_kind(&ask), other, length);
            alike &= refused_alike && matches!(end, SingleEnd::Refused { number: 4..=6 | 13, .. });
            kindless += 1;
        }
        if index % 8 == 0 {
            let mut wide = ask;
            let number = beyond_a_field(&mut rng, &mut wide);
            let (end, refused_alike) = same(&wide, KindNumbers::new(wide.kind, rng.word()), length);
            let SingleEnd::Refused { number: given, .. } = end else { panic!("the Rust's wrapper takes {wide:?}") };
            alike &= refused_alike && (given == number || number == 6 && matches!(given, 4 | 5 | 13));
            beyond[usize::from(number == 6)] += 1;
        }
        if !alike {
            differences += 1;
            if differences <= 10 {
                println!("object {index} differs: {ask:?}");
            }
        }
    }

    for (answer, met) in &answers {
        println!("{answer:12} {met:>12}");
    }
    println!(
        "{count} single objects, {kindless} of them also without a kind, {} with columns or pattern and {} with a number of the object beyond its field: \
         {differences} differences, {} s",
        beyond[0],
        beyond[1],
        begun.elapsed().as_secs()
    );
    if differences == 0 { ExitCode::SUCCESS } else { ExitCode::FAILURE }
}
