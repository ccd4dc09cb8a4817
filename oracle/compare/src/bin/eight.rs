//! Random jobs of 8 columns through both implementations. None may be refused by 9 or 10, and none may meet a previous pattern of more
//! than five columns or of column 0 alone.
//! Arguments: how many (10,000,000), the seed (1). Prints how often each answer and each size of a previous pattern was met.

use std::collections::BTreeMap;
use std::process::ExitCode;

use entry::JobEnd;
use jobs::Rng;
use second::hits;

/// As `charttext` has them.
const ALLOWANCE: u32 = 1_000_000;
const BUFFER: usize = 65_536;

fn main() -> ExitCode {
    let mut arguments = std::env::args().skip(1).map_while(|text| text.parse::<u64>().ok());
    let count = arguments.next().unwrap_or(10_000_000);
    let seed = arguments.next().unwrap_or(1);
    let mut rng = Rng::new(seed);
    let (mut first, mut other) = (vec![0; BUFFER], vec![0; BUFFER]);
    let mut answers: BTreeMap<u8, u64> = BTreeMap::new();
    let mut wrong = 0u64;
    hits::start();

    for index in 0..count {
        let record = jobs::song_of_8(&mut rng).bytes();
        let end = reference::job(&record, &mut first, ALLOWANCE);
        let differs = end != second::job(&record, &mut other, ALLOWANCE) || first != other;
        let number = match end {
            JobEnd::Chart { .. } => 0,
            JobEnd::Refused { number, .. } => number,
        };
        *answers.entry(number).or_default() += 1;
        if differs || number == 9 || number == 10 {
            wrong += 1;
            println!("job {index}: {end:?}");
            other.copy_from_slice(&first);
        }
    }

    let mut five = 0;
    for (name, met) in hits::NAMES.iter().zip(hits::take()).filter(|(name, _)| name.starts_with("previous_8")) {
        println!("{name:40} {met:>12}");
        match *name {
            "previous_8_five" => five = met,
            "previous_8_more" | "previous_8_column_0_alone" => wrong += met,
            _ => {}
        }
    }
    for (number, met) in answers {
        println!("{:40} {met:>12}", if number == 0 { "chart".to_string() } else { format!("refused {number:2}") });
    }
    println!("{count} jobs of 8 columns from seed {seed}: {wrong} wrong");

    // Without a pattern of five columns the songs would be too tame to show anything.
    if wrong == 0 && five > 0 { ExitCode::SUCCESS } else { ExitCode::FAILURE }
}
