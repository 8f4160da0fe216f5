//! The lines of one call on a bench, sound or not: feed, ask and request.

use super::damage::{changed, damaged};
use super::hosts::{any_host, next_record, write, Session};
use super::lines::reached;
use super::random::Random;
use super::tally::Tally;
use super::text::{hex, state};
use crate::bench::*;
use crate::feed::MAX_PIECE;

/// A bench that a log has led to, mostly a sound one.
fn any_bench(random: &mut Random) -> Bench {
    let bench = reached(random);
    match random.below(10) {
        0..=3 => bench,
        4..=6 => changed(random, &bench),
        _ => damaged(random, &bench),
    }
}

/// A piece with a buffer: `feed STATE PIECE BUFFER NUMBER REPLIES BUFFER STATE`.
pub fn feed_line(random: &mut Random, tally: &mut Tally) -> String {
    let start = any_bench(random);
    let piece = piece(random, &start);
    let buffer = buffer(random, &start, &piece);
    let (mut bench, mut after) = (start.clone(), buffer.clone());
    let (number, replies) = match bench.feed(&piece, &mut after) {
        Ok(replies) => (0, replies),
        Err(number) => (number, 0),
    };
    tally.add("0 lines", "feed".to_string());
    tally.add("8 feed", number.to_string());
    format!(
        "feed {} {} {} {number} {replies} {} {}",
        state(&start),
        long(&piece),
        hex(&buffer),
        hex(&after),
        state(&bench)
    )
}

/// The bytes of a log, cut anywhere; random ones for a bench that isn't sound; now and then zeros,
/// as many as may be or one more.
fn piece(random: &mut Random, start: &Bench) -> Vec<u8> {
    if random.percent(15) {
        return vec![0; MAX_PIECE + random.below(2) as usize];
    }
    if !start.sound() {
        return (0..random.below(10)).map(|_| random.byte()).collect();
    }
    let mut unheard = Tally::default();
    let mut session = Session::new(start.clone(), &mut unheard);
    let host = any_host(random);
    let records = random.below(7);
    session.play(random, host, records);
    session.leave_rest(random);
    let cut = random.below(4).min(session.log.len() as u64) as usize;
    session.log.truncate(session.log.len() - cut);
    session.log
}

/// Random bytes, as many as the replies take, and now and then more or fewer; few for a long piece.
fn buffer(random: &mut Random, start: &Bench, piece: &[u8]) -> Vec<u8> {
    let needed = (usize::from(start.count) + piece.len()) / 4 * 4;
    let room = match random.below(10) {
        0..=3 => needed,
        4..=7 => needed + random.from_to(1, 9) as usize,
        _ => needed.saturating_sub(random.from_to(1, 4) as usize),
    };
    (0..room.min(40)).map(|_| random.byte()).collect()
}

/// Bytes in hex, and a long row of zeros as its length.
fn long(bytes: &[u8]) -> String {
    if bytes.len() < MAX_PIECE {
        return hex(bytes);
    }
    format!("0*{}", bytes.len())
}

/// Every question about a device: `ask STATE DEVICE OTHER NUMBER:VALUE ..`.
pub fn ask_line(random: &mut Random, tally: &mut Tally) -> String {
    let bench = any_bench(random);
    let (p, q) = (any_device(random, &bench), any_device(random, &bench));
    let answers = [
        bench.status_of(p).map(u32::from),
        bench.user_holds(p).map(u32::from),
        bench.usage_count(p),
        bench.child_count(p).map(u32::from),
        bench.parents_above(p),
        bench.wakes_with(p, q).map(u32::from),
    ];
    tally.add("0 lines", "ask".to_string());
    let mut line = format!("ask {} {p} {q}", state(&bench));
    for answer in answers {
        let (number, value) = match answer {
            Ok(value) => (0, value),
            Err(number) => (number, 0),
        };
        tally.add("9 ask", number.to_string());
        line += &format!(" {number}:{value}");
    }
    line
}

/// A device, mostly a known one.
fn any_device(random: &mut Random, bench: &Bench) -> u8 {
    match random.below(10) {
        0 => random.byte(),
        1 => bench.n,
        _ => random.below(u64::from(bench.n).max(1)) as u8,
    }
}

/// A request by itself: `request STATE RECORD NUMBER REPLY STATE`.
pub fn request_line(random: &mut Random, tally: &mut Tally) -> String {
    let start = any_bench(random);
    let record = if start.sound() {
        let host = any_host(random);
        next_record(random, &start, host)
    } else {
        let kind = random.from_to(1, 13) as u8;
        write(kind, any_device(random, &start), 0)
    };
    let mut bench = start.clone();
    let (number, reply) = match bench.request(record) {
        Ok(reply) => (0, reply),
        Err(number) => (number, [0; 4]),
    };
    tally.add("0 lines", "request".to_string());
    tally.add("9 request", number.to_string());
    format!(
        "request {} {} {number} {} {}",
        state(&start),
        hex(&record),
        hex(&reply),
        state(&bench)
    )
}
