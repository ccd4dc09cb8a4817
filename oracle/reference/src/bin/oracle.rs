//! `oracle job ALLOWANCE BUFFER_LEN < record`: a job's chart as text, as `charttext` prints it.
//!
//! `oracle bytes ALLOWANCE BUFFER_LEN FILL < record`: a job in a buffer of bytes FILL, in the words of crates/worked_songs: the answer on a
//! line, then every byte of the buffer on a line.

use std::{
    env,
    io::{self, Read, Write},
    process::ExitCode,
};

use entry::JobEnd;

fn text(record: &[u8], allowance: u32, buffer: usize) -> String {
    let mut chart = vec![0; buffer];

    match reference::job(record, &mut chart, allowance) {
        JobEnd::Refused { number, object, draws } => {
            format!("refused {number} object {object} draws {draws}\n")
        }
        JobEnd::Chart { length, .. } => {
            reference::read_chart(&chart[..length]).expect("a written chart reads back").text()
        }
    }
}

fn bytes(record: &[u8], allowance: u32, buffer: usize, fill: u8) -> String {
    let mut chart = vec![fill; buffer];
    let answer = match reference::job(record, &mut chart, allowance) {
        JobEnd::Refused { number, object, draws } => format!("refusal {number} {object} {draws}"),
        JobEnd::Chart { length, longest_search } => format!("accepted {length} {longest_search}"),
    };
    let bytes: Vec<String> = chart.iter().map(u8::to_string).collect();

    format!("{answer}\n{}\n", bytes.join(" "))
}

/// What the words ask for, of the record on standard input.
fn asked(words: &[&str]) -> Option<String> {
    let mut record = Vec::new();
    let mut read = || io::stdin().read_to_end(&mut record).ok();

    match *words {
        ["job", allowance, buffer] => {
            let (allowance, buffer) = allowance.parse().ok().zip(buffer.parse().ok())?;
            read()?;
            Some(text(&record, allowance, buffer))
        }
        ["bytes", allowance, buffer, fill] => {
            let (allowance, buffer) = allowance.parse().ok().zip(buffer.parse().ok())?;
            let fill = fill.parse().ok()?;
            read()?;
            Some(bytes(&record, allowance, buffer, fill))
        }
        _ => None,
    }
}

fn main() -> ExitCode {
    let words: Vec<String> = env::args().skip(1).collect();
    let words: Vec<&str> = words.iter().map(String::as_str).collect();

    let Some(answer) = asked(&words) else {
        eprintln!("usage: oracle job ALLOWANCE BUFFER_LEN < record\n       oracle bytes ALLOWANCE BUFFER_LEN FILL < record");
        return ExitCode::from(2);
    };

    match io::stdout().write_all(answer.as_bytes()) {
        Ok(()) => ExitCode::SUCCESS,
        Err(error) => {
            eprintln!("{error}");
            ExitCode::FAILURE
        }
    }
}
