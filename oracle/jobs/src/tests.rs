use entry::{JobEnd, SingleEnd, State, chart_bytes};

use crate::{
    Name, Need, Rng, Song, announced_slider, announced_song, chart, damaged, damaged_chart,
    damaged_single, lent, pack, record,
    records::{STEP, squares},
    single, song, state_giving,
};

/// The first three values from a state, by the document's step.
fn values(state: State) -> [u32; 3] {
    let mut words = [state.x, state.y, state.z, state.w];

    std::array::from_fn(|_| {
        let t = words[0] ^ (words[0] << 11);
        let new = words[3] ^ (words[3] >> 19) ^ t ^ (t >> 8);
        words = [words[1], words[2], words[3], new];
        new & 0x7fff_ffff
    })
}

#[test]
fn states_give_the_wanted_values() {
    let mut rng = Rng::new(3);

    for _ in 0..1000 {
        let wanted = std::array::from_fn(|_| rng.word() as u32 & 0x7fff_ffff);
        let tops = std::array::from_fn(|_| rng.percent(50));
        assert_eq!(
            values(state_giving(wanted, tops, rng.word() as u32)),
            wanted
        );
    }
}

#[test]
fn the_same_seed_gives_the_same_inputs() {
    let all = |seed| {
        let mut rng = Rng::new(seed);
        (0..50)
            .map(|_| {
                let asks = format!("{:?} {:?}", single(&mut rng), damaged_single(&mut rng));
                let figures = format!(
                    "{:?} {:?}",
                    announced_song(&mut rng),
                    announced_slider(&mut rng)
                );
                let charts = (chart(&mut rng), damaged_chart(&mut rng));
                (
                    record(&mut rng),
                    damaged(&mut rng),
                    asks,
                    figures,
                    charts,
                    lent(&mut rng, None),
                )
            })
            .collect::<Vec<_>>()
    };

    assert!(all(5) == all(5));
    assert!(all(5) != all(6));
}

#[test]
fn a_header_takes_32_bytes() {
    let fields = Song::default().fields();
    assert_eq!(fields.iter().map(|field| field.width).sum::<usize>(), 256);
    let bytes = pack(&fields);
    assert_eq!(bytes.len(), 32);
    assert_eq!(bytes[0], 0x10);
    assert_eq!(fields[6].name, Name::Multiplier);
    assert_eq!(bytes[17..25], 1.0_f64.to_be_bytes());
}

#[test]
fn songs_are_not_refused_by_their_fields() {
    let mut rng = Rng::new(7);
    let mut buffer = vec![0; 1 << 21];

    for _ in 0..1000 {
        if let JobEnd::Refused { number, .. } =
            second::job(&song(&mut rng).bytes(), &mut buffer, u32::MAX)
        {
            assert_eq!(number, 8);
        }
    }
}

/// How often a sum of squares is so many steps above 400, from four below to four above.
fn count_steps(counts: &mut [u32; 9], here: (f32, f32), there: (f32, f32)) {
    let steps = f64::from(squares(here, there) - 400.0) / f64::from(STEP);
    if steps.abs() <= 4.0 {
        counts[(steps + 4.0) as usize] += 1;
    }
}

#[test]
fn separations_lie_around_20_often() {
    let mut rng = Rng::new(17);
    let (mut in_songs, mut in_singles) = ([0; 9], [0; 9]);

    for _ in 0..1000 {
        for pair in song(&mut rng).objects.windows(2) {
            count_steps(
                &mut in_songs,
                (pair[1].x, pair[1].y),
                (pair[0].x, pair[0].y),
            );
        }
        let ask = single(&mut rng).0;
        count_steps(&mut in_singles, (ask.x, ask.y), (ask.prev_x, ask.prev_y));
    }

    assert!(in_songs.iter().all(|&count| count > 100), "{in_songs:?}");
    assert!(in_singles.iter().all(|&count| count > 5), "{in_singles:?}");
}

#[test]
fn damage_meets_each_refusal() {
    let mut rng = Rng::new(11);
    let mut jobs = [0; 17];
    let mut singles = [0; 17];
    let mut buffer = vec![0; 1 << 18];

    for _ in 0..5000 {
        if let JobEnd::Refused { number, .. } = second::job(&damaged(&mut rng), &mut buffer, 1000) {
            jobs[number as usize] += 1;
        }
        let (ask, length) = damaged_single(&mut rng);
        if let SingleEnd::Refused { number, .. } = second::single(&ask, &mut buffer[..length]) {
            singles[number as usize] += 1;
        }
    }

    assert!((1..=8).all(|number| jobs[number] > 20), "{jobs:?}");
    assert!(
        [4, 5, 6, 8, 11, 12, 13]
            .iter()
            .all(|&number| singles[number] > 20),
        "{singles:?}"
    );
}

#[test]
fn what_is_needed_is_lent_often() {
    let mut rng = Rng::new(13);
    let need = Need {
        draws: 40,
        length: chart_bytes(30),
    };
    let exact = (0..1000)
        .filter(|_| lent(&mut rng, Some(need)) == (need.draws, need.length))
        .count();
    assert!(exact > 50);
}
