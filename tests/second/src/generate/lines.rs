//! The lines: load, run, from, sound, write, and those of one call on a bench.

use super::calls::{ask_line, feed_line, request_line};
use super::damage::{changed, damaged};
use super::hosts::{any_host, Host, Session};
use super::lists;
use super::random::Random;
use super::tables;
use super::tally::Tally;
use super::text::{hex, state};
use crate::bench::*;
use crate::count::counted;
use crate::table::{load, Refusal};
use crate::write::write;

/// One random case, complete by itself.
pub fn line(random: &mut Random, tally: &mut Tally) -> String {
    match random.below(112) {
        0..=17 => load_line(random, tally),
        18..=36 => run_line(random, tally),
        37..=48 => from_line(random, tally),
        49..=58 => sound_line(random, tally),
        59..=77 => feed_line(random, tally),
        78..=88 => ask_line(random, tally),
        89..=99 => request_line(random, tally),
        _ => write_line(random, tally),
    }
}

/// The number and the index of what is not refused.
const TAKEN: Refusal = Refusal {
    number: 0,
    index: 0,
};

fn load_line(random: &mut Random, tally: &mut Tally) -> String {
    let table = tables::any(random);
    let answer = load(&table).err().unwrap_or(TAKEN);
    tally.add("0 lines", "load".to_string());
    tally.add("6 load", answer.number.to_string());
    format!("load {} {} {}", hex(&table), answer.number, answer.index)
}

/// A good small table and its bench.
fn fresh(random: &mut Random, most: u8) -> (Vec<u8>, Bench) {
    let table = tables::small(random, most);
    let bench = load(&table).expect("the table is good");
    (table, bench)
}

/// Plays a whole log in one session.
fn play(random: &mut Random, session: &mut Session, records: u64) {
    let host = any_host(random);
    if random.percent(80) {
        session.enable_all(random);
    }
    session.play(random, host, records);
    session.leave_rest(random);
}

fn run_line(random: &mut Random, tally: &mut Tally) -> String {
    tally.add("0 lines", "run".to_string());
    let (table, bench) = fresh(random, 7);
    let mut session = Session::new(bench, tally);
    let records = random.from_to(20, 53);
    play(random, &mut session, records);
    let counts: Vec<String> = (0..session.bench.n)
        .map(|device| counted(&session.log, &session.replies, device))
        .map(|(gets, puts)| format!("{gets},{puts}"))
        .collect();
    let (log, replies) = (hex(&session.log), hex(&session.replies));
    format!(
        "run {} {log} {replies} {} {}",
        hex(&table),
        counts.join(","),
        state(&session.bench)
    )
}

/// A bench that a log of no concern has led to.
pub fn reached(random: &mut Random) -> Bench {
    let (_, bench) = fresh(random, 9);
    let mut unheard = Tally::default();
    let mut session = Session::new(bench, &mut unheard);
    let records = random.from_to(1, 30);
    play(random, &mut session, records);
    session.bench
}

fn from_line(random: &mut Random, tally: &mut Tally) -> String {
    tally.add("0 lines", "from".to_string());
    let before = reached(random);
    let start = changed(random, &before);
    let mut session = Session::new(start.clone(), tally);
    let records = random.from_to(20, 59);
    let host = random.one_of(&[Host::Steady, Host::Steady, Host::Lively, Host::Rude]);
    session.play(random, host, records);
    session.leave_rest(random);
    let (log, replies) = (hex(&session.log), hex(&session.replies));
    format!(
        "from {} {log} {replies} {}",
        state(&start),
        state(&session.bench)
    )
}

fn sound_line(random: &mut Random, tally: &mut Tally) -> String {
    let before = reached(random);
    let bench = match random.below(10) {
        0 => before,
        1 => changed(random, &before),
        _ => damaged(random, &before),
    };
    let answer = u8::from(bench.sound());
    tally.add("0 lines", "sound".to_string());
    tally.add("7 sound", answer.to_string());
    format!("sound {} {answer}", state(&bench))
}

/// Two lists and a buffer: `write DEVICES LINKS BUFFER NUMBER INDEX BUFFER`.
fn write_line(random: &mut Random, tally: &mut Tally) -> String {
    let lists = lists::small(random);
    let length = 7 + lists.devices.len() + lists.links.len();
    let room = match random.below(10) {
        0..=2 => length,
        3..=6 => length + random.from_to(1, 10) as usize,
        7 | 8 => length - 1,
        _ => random.below(length as u64) as usize,
    };
    let buffer: Vec<u8> = (0..room).map(|_| random.byte()).collect();
    let mut after = buffer.clone();
    let written = write(&lists.devices, &lists.links, &mut after);
    let answer = written.err().unwrap_or(TAKEN);
    tally.add("0 lines", "write".to_string());
    tally.add("9 write", answer.number.to_string());
    format!(
        "write {} {} {} {} {} {}",
        hex(&lists.devices),
        hex(&lists.links),
        hex(&buffer),
        answer.number,
        answer.index,
        hex(&after)
    )
}
