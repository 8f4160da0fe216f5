//! How fast the keeper is beside the second implementation: one log, given to both in turn; two
//! logs that wake the largest wake sets over and over; and a bench saved and restored. How fast the
//! calls of a C host are beside the keeper's own feed.

use crate::c_speed;
use crate::deepest;
use crate::keeper::Memory;
use second::generate::hosts::write;
use second::generate::random::Random;
use second::generate::tables::Draft;
use second::{Bench, MAX_DEVICES, MAX_LINKS, MAX_PIECE, NO_CALLBACK};
use std::fmt;
use std::hint::black_box;
use std::time::Instant;

/// The seed of the table and the log.
const SEED: u64 = 1;
/// The records of the log.
const RECORDS: usize = 100_000;
/// How often each keeper is given the log.
const RUNS: usize = 101;
/// How often a bench is saved and restored in one run.
const SAVES: usize = 100;
/// How often the last device of a worst case is woken.
const ROUNDS: usize = 50;

/// Times both keepers: the lines to print, or how they differ.
pub fn compare() -> Result<String, String> {
    let (bench, log) = log();
    let (ours, second) = both(&bench, &log, RUNS)?;
    let (chain, fan) = (worst(&deepest::parents())?, worst(&deepest::fan())?);
    let kept = kept(&bench)?;
    let calls = c_speed::compare(&bench, &log)?;
    Ok(format!(
        "bench: {RECORDS} records, {} devices, {} links, pieces of {MAX_PIECE} bytes, {RUNS} runs each\n\
         keeper: {ours}\nsecond: {second}\nthe deepest chain, {chain}\nthe widest fan, {fan}\n{kept}\n{calls}\n\
         ratio of medians {:.2}\nratio {:.2}",
        bench.n,
        bench.m,
        ours.median / second.median,
        ours.best / second.best
    ))
}

/// The times of both keepers over a log, in so many runs each, or how they differ.
fn both(bench: &Bench, log: &[u8], runs: usize) -> Result<(Times, Times), String> {
    let memory = Memory::from(bench);
    let (mut right, mut replies) = (Vec::<u8>::new(), Vec::<u8>::new());
    give(bench, Bench::feed, log, MAX_PIECE, |piece| {
        right.extend(piece)
    })?;
    give(&memory, Memory::feed, log, MAX_PIECE, |piece| {
        replies.extend(piece)
    })?;
    if replies != right || replies.len() != log.len() {
        return Err("bench: the replies differ".to_string());
    }
    let (mut ours, mut second) = (Vec::new(), Vec::new());
    for _ in 0..runs {
        ours.push(time(&memory, Memory::feed, log, MAX_PIECE)?);
        second.push(time(bench, Bench::feed, log, MAX_PIECE)?);
    }
    Ok((Times::of(ours), Times::of(second)))
}

/// Both keepers over a log that wakes the last device of a table and lets all sleep again, over and
/// over: the words to print.
fn worst(table: &[u8]) -> Result<String, String> {
    let start = second::load(table).expect("the table is good");
    let last = start.n - 1;
    let mut bench = start.clone();
    let mut log = Vec::new();
    let mut add = |bench: &mut Bench, kind: u8, device: u8| {
        let record = write(kind, device, 0);
        bench.record(record);
        log.extend(record);
    };
    for device in 0..=last {
        add(&mut bench, 1, device);
    }
    for _ in 0..ROUNDS {
        add(&mut bench, 9, last);
        while bench.callback != NO_CALLBACK {
            let asked = bench.asked;
            add(&mut bench, 13, asked);
        }
        for device in (0..=last).rev() {
            add(&mut bench, 8, device);
            add(&mut bench, 13, device);
        }
    }
    let (ours, second) = both(&start, &log, RUNS)?;
    Ok(format!(
        "{} records: keeper {ours}; second {second}; ratio {:.2}",
        log.len() / 4,
        ours.best / second.best
    ))
}

/// Both keepers save a bench and restore it: the words to print.
fn kept(bench: &Bench) -> Result<String, String> {
    let memory = Memory::from(bench);
    let form = second::save(bench).map_err(|number| format!("bench: not saved, {number}"))?;
    let mut buffer = vec![0; form.len()];
    if memory.save(&mut buffer) != 0 || buffer != form {
        return Err("bench: the saved forms differ".to_string());
    }
    let mut left = memory.clone();
    let ours_saving = often(|| memory.save(black_box(&mut buffer)));
    let ours_restoring = often(|| left.restore(black_box(&form)));
    let second_saving = often(|| second::save(black_box(bench)));
    let second_restoring = often(|| second::restore(black_box(&form)));
    Ok(format!(
        "a bench of {} bytes: keeper saves it in {ours_saving:.0} ns and restores it in {ours_restoring:.0}; \
         second {second_saving:.0} and {second_restoring:.0}",
        form.len()
    ))
}

/// The best time of something, in nanoseconds.
pub fn often<T>(mut what: impl FnMut() -> T) -> f64 {
    let mut best = f64::INFINITY;
    for _ in 0..RUNS {
        let before = Instant::now();
        for _ in 0..SAVES {
            black_box(what());
        }
        best = best.min(before.elapsed().as_nanos() as f64 / SAVES as f64);
    }
    best
}

/// Gives a keeper the whole log, a piece of so many bytes at a time; the replies to each are handed
/// on.
pub fn give<B: Clone, E: fmt::Display>(
    start: &B,
    feed: impl Fn(&mut B, &[u8], &mut [u8]) -> Result<usize, E>,
    log: &[u8],
    size: usize,
    mut each: impl FnMut(&[u8]),
) -> Result<(), String> {
    let mut bench = start.clone();
    let mut buffer = [0; MAX_PIECE];
    for piece in log.chunks(size) {
        let replies = feed(&mut bench, piece, &mut buffer)
            .map_err(|number| format!("bench: a piece refused with {number}"))?;
        each(&buffer[..4 * replies]);
    }
    Ok(())
}

/// The time that a keeper takes for the log in pieces of so many bytes, in nanoseconds a record.
pub fn time<B: Clone, E: fmt::Display>(
    start: &B,
    feed: impl Fn(&mut B, &[u8], &mut [u8]) -> Result<usize, E>,
    log: &[u8],
    size: usize,
) -> Result<f64, String> {
    let before = Instant::now();
    give(start, feed, log, size, |replies| {
        black_box(replies);
    })?;
    Ok(before.elapsed().as_nanos() as f64 * 4.0 / log.len() as f64)
}

/// The best and the median of several times.
struct Times {
    best: f64,
    median: f64,
}

impl Times {
    fn of(mut times: Vec<f64>) -> Times {
        times.sort_by(f64::total_cmp);
        Times {
            best: times[0],
            median: times[times.len() / 2],
        }
    }
}

impl fmt::Display for Times {
    fn fmt(&self, out: &mut fmt::Formatter) -> fmt::Result {
        let Times { best, median } = self;
        write!(out, "best {best:.1}, median {median:.1} ns a record")
    }
}

/// The bench of the largest table, and the log of a host at work on it.
fn log() -> (Bench, Vec<u8>) {
    let mut random = Random::new(SEED);
    let table = Draft::good(&mut random, MAX_DEVICES, MAX_LINKS.into()).bytes();
    let start = second::load(&table).expect("the table is good");
    let (mut bench, mut log) = (start.clone(), Vec::new());
    for _ in 0..RECORDS {
        let record = next_record(&mut random, &bench);
        bench.record(record);
        log.extend(record);
    }
    (start, log)
}

/// The host answers the open callback; else it sets the status of a failed or
/// disabled device, enables it, gives up one that it holds, or asks for another.
fn next_record(random: &mut Random, bench: &Bench) -> [u8; 4] {
    if bench.callback != NO_CALLBACK && random.percent(98) {
        return write(13, bench.asked, result(random));
    }
    let device = random.below(bench.n.into()) as u8;
    let row = usize::from(device);
    let kind = if bench.error[row] != 0 {
        random.one_of(&[10, 11])
    } else if bench.depth[row] > 0 {
        random.one_of(&[1, 1, 10, 11])
    } else if bench.holds[row] > 0 {
        random.one_of(&[3, 5, 6, 6, 6, 6, 6, 6])
    } else {
        random.one_of(&[2, 4, 4, 7, 7, 7, 7, 8, 8, 8, 8, 8, 8, 9, 12])
    };
    let value = if kind == 12 { random.below(2) } else { 0 };
    write(kind, device, value as i16)
}

/// A callback's result: mostly 0, now and then busy, seldom an error.
fn result(random: &mut Random) -> i16 {
    match random.below(100) {
        0..=95 => 0,
        96..=98 => -16,
        _ => -5,
    }
}
