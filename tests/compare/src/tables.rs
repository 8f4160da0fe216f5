//! Tables, loaded by the keeper and by the second implementation.

use crate::keeper::Memory;
use second::generate::random::Random;
use second::generate::tables;
use second::{Bench, Refusal};
use std::fmt;

/// How many tables were answered with each number, 0 for taken.
pub struct Tally {
    answers: [u64; 8],
}

impl fmt::Display for Tally {
    fn fmt(&self, out: &mut fmt::Formatter) -> fmt::Result {
        let count: u64 = self.answers.iter().sum();
        write!(out, "tables: {count} compared, taken {}", self.answers[0])?;
        for (number, answer) in self.answers.iter().enumerate().skip(1) {
            let before = if number == 1 { "refused " } else { "" };
            write!(out, ", {before}{number}: {answer}")?;
        }
        Ok(())
    }
}

/// The first table that the two load differently.
pub struct Difference {
    seed: u64,
    number: u64,
    table: Vec<u8>,
    what: String,
}

impl fmt::Display for Difference {
    fn fmt(&self, out: &mut fmt::Formatter) -> fmt::Result {
        writeln!(out, "seed {}, table {} differs", self.seed, self.number)?;
        write!(out, "bytes: ")?;
        for byte in &self.table {
            write!(out, "{byte:02x}")?;
        }
        write!(out, "\n{}", self.what)
    }
}

/// Compares so many random tables.
pub fn compare(seed: u64, count: u64) -> Result<Tally, Difference> {
    let mut random = Random::new(seed);
    let mut answers = [0; 8];
    for number in 0..count {
        let table = if random.percent(50) {
            tables::any(&mut random)
        } else {
            tables::of_any_size(&mut random)
        };
        match same(&table) {
            Ok(answer) => answers[answer] += 1,
            Err(what) => {
                return Err(Difference {
                    seed,
                    number,
                    table,
                    what,
                })
            }
        }
    }
    Ok(Tally { answers })
}

/// The number that both answer a table with, 0 for taken, or how they differ.
fn same(table: &[u8]) -> Result<usize, String> {
    let loaded = second::load(table);
    let answer = match &loaded {
        Ok(_) => (0, 0),
        Err(Refusal { number, index }) => (u32::from(*number), u32::from(*index)),
    };
    // No cell that must be zero is right unless it is written.
    let mut memory = Memory::filled(true);
    let answered = memory.load(table);
    if answered != answer {
        return Err(format!(
            "keeper: {}\nsecond: {}",
            shown(answered),
            shown(answer)
        ));
    }
    let right = Memory::from(&loaded.unwrap_or_else(|_| Bench::empty()));
    if memory != right {
        return Err(memory.difference(&right));
    }
    Ok(answer.0 as usize)
}

/// An answer in words.
fn shown((number, index): (u32, u32)) -> String {
    match number {
        0 if index == 0 => "taken".to_string(),
        _ => format!("refused {number}, index {index}"),
    }
}
