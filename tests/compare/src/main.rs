//! Compares the proved keeper with the second implementation.
//!
//! `compare tables SEED COUNT` loads random tables with both,
//! `compare writer SEED COUNT` writes tables from random lists with both,
//! `compare benches SEED COUNT` asks both about random benches,
//! `compare records SEED COUNT` gives both random logs, a record at a time, from
//! so many random benches; `compare feed SEED COUNT` gives them so many logs in
//! random pieces; `compare questions SEED COUNT` asks every question and calls
//! every method on so many random benches and on damaged ones; `compare
//! unordered SEED COUNT` asks for wake sets of damaged memories; `compare saved
//! SEED COUNT` saves so many random benches and damaged ones with both, restores
//! whole, changed and stray forms, and breaks logs off; `compare c_host SEED
//! COUNT` makes the calls of a C host in so many rounds of tables, logs,
//! questions and stray states. It ends with status 1 at the first difference,
//! and where 200 or more benches, lists or rounds leave out an answer of
//! document 01 or of requests One, Four and Five.
//! `compare bench` times both, and the calls of a C host.

mod answers;
mod benches;
mod breaks;
mod c_calls;
mod c_host;
mod c_speed;
mod c_strays;
mod c_tally;
mod deepest;
mod feed;
mod keeper;
mod layout;
mod lent;
mod logs;
mod questions;
mod records;
mod saved;
mod speed;
mod starts;
mod tables;
mod unordered;
mod writer;

use std::process::ExitCode;

fn main() -> ExitCode {
    let words: Vec<String> = std::env::args().skip(1).collect();
    let words: Vec<&str> = words.iter().map(String::as_str).collect();
    if let Err(what) = layout::probe() {
        println!("the memory: {what}");
        return ExitCode::FAILURE;
    }
    let Some(outcome) = outcome(&words) else {
        eprintln!(
            "usage: compare tables|writer|benches|unordered|records|questions|saved|c_host|feed SEED COUNT, or compare bench"
        );
        return ExitCode::from(2);
    };
    match outcome {
        Ok(tally) => {
            println!("{tally}");
            ExitCode::SUCCESS
        }
        Err(difference) => {
            println!("{difference}");
            ExitCode::FAILURE
        }
    }
}

/// What a comparison says; none where the words ask for none.
fn outcome(words: &[&str]) -> Option<Result<String, String>> {
    let (what, seed, count) = match words {
        ["bench"] => return Some(speed::compare()),
        [what, seed, count] => (what, seed.parse().ok()?, count.parse().ok()?),
        _ => return None,
    };
    match *what {
        "tables" => Some(
            tables::compare(seed, count)
                .map(|tally| tally.to_string())
                .map_err(|difference| difference.to_string()),
        ),
        "writer" => Some(writer::compare(seed, count)),
        "benches" => Some(benches::compare(seed, count)),
        "unordered" => Some(unordered::compare(seed, count)),
        "records" => Some(records::compare(seed, count)),
        "questions" => Some(questions::compare(seed, count)),
        "feed" => Some(feed::compare(seed, count)),
        "saved" => Some(saved::compare(seed, count)),
        "c_host" => Some(c_host::compare(seed, count)),
        _ => None,
    }
}
