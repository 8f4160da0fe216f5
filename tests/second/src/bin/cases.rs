//! Writes random cases for comparing two keepers, or a tally of them.
//!
//! `cases SEED COUNT` writes the cases, `cases --tally SEED COUNT` the tally.

use second::generate::lines::line;
use second::generate::random::Random;
use second::generate::tally::Tally;
use std::io::{self, BufWriter, Write};
use std::process::ExitCode;

fn main() -> ExitCode {
    let mut words: Vec<String> = std::env::args().skip(1).collect();
    let tally_only = words.first().is_some_and(|word| word == "--tally");
    if tally_only {
        words.remove(0);
    }
    let Some((seed, count)) = numbers(&words) else {
        eprintln!("usage: cases [--tally] SEED COUNT");
        return ExitCode::from(2);
    };
    match write_cases(seed, count, tally_only) {
        Ok(()) => ExitCode::SUCCESS,
        Err(_) => ExitCode::FAILURE,
    }
}

/// The seed and the count.
fn numbers(words: &[String]) -> Option<(u64, u64)> {
    match words {
        [seed, count] => Some((seed.parse().ok()?, count.parse().ok()?)),
        _ => None,
    }
}

fn write_cases(seed: u64, count: u64, tally_only: bool) -> io::Result<()> {
    let mut random = Random::new(seed);
    let mut tally = Tally::default();
    let mut out = BufWriter::new(io::stdout().lock());
    for _ in 0..count {
        let case = line(&mut random, &mut tally);
        if !tally_only {
            writeln!(out, "{case}")?;
        }
    }
    if tally_only {
        for text in tally.lines() {
            writeln!(out, "{text}")?;
        }
    }
    out.flush()
}
