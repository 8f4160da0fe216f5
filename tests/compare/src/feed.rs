//! Random logs from random sound benches, cut into random pieces with refused ones between: what
//! each piece is answered, the whole reply buffer and the whole bench of both keepers.

use crate::answers::{self, ENOUGH};
use crate::benches::damaged_cell;
use crate::keeper::Memory;
use crate::logs::{Cut, Log};
use crate::starts::{self, Start};
use second::generate::damage::damaged;
use second::generate::random::Random;
use second::{Bench, MAX_PIECE};
use std::time::{Duration, Instant};

/// Compares the keepers on so many logs: the tally, or the first difference.
pub fn compare(seed: u64, count: u64) -> Result<String, String> {
    let began = Instant::now();
    let mut random = Random::new(seed);
    let noise = Noise::new(&mut random);
    let mut tally = Tally::default();
    for number in 0..count {
        let (start, _) = starts::ALL[number as usize % starts::ALL.len()];
        log(&mut random, &noise, &mut tally, start)
            .map_err(|what| format!("seed {seed}, log {number}: {what}"))?;
    }
    tally.complete(count)?;
    Ok(tally.line(count, began.elapsed()))
}

/// One log, from a bench of this sort.
fn log(random: &mut Random, noise: &Noise, tally: &mut Tally, start: Start) -> Result<(), String> {
    let bench = starts::bench(random, start);
    let log = Log::written(random, &mut tally.answers, start, &bench);
    let mut pair = Pair::new(bench.clone(), noise, tally);
    let cut = Cut::any(random, log.bytes.len());
    let mut rest = &log.bytes[..];
    while !rest.is_empty() {
        let (piece, after) = rest.split_at(cut.next(random).min(rest.len()));
        pair.pieces(random, piece)
            .map_err(|what| format!("byte {}: {what}", log.bytes.len() - rest.len()))?;
        rest = after;
    }
    if pair.replies != log.replies {
        return Err("the joined replies are not those to the records alone".to_string());
    }
    if (pair.second, pair.replies) != uncut(bench, &log.bytes) {
        return Err("the second answers otherwise when the log is not cut".to_string());
    }
    Ok(())
}

/// The second's bench and its joined replies after a log in pieces as long as may be.
fn uncut(mut bench: Bench, log: &[u8]) -> (Bench, Vec<u8>) {
    let mut joined = Vec::new();
    let mut buffer = [0; MAX_PIECE];
    for piece in log.chunks(MAX_PIECE) {
        let replies = bench.feed(piece, &mut buffer).expect("the piece is good");
        joined.extend(&buffer[..4 * replies]);
    }
    (bench, joined)
}

/// Random bytes to take pieces and reply buffers from.
pub struct Noise(Vec<u8>);

impl Noise {
    pub fn new(random: &mut Random) -> Noise {
        Noise((0..65_536).map(|_| random.byte()).collect())
    }

    pub fn bytes(&self, random: &mut Random, length: usize) -> &[u8] {
        let from = random.below((self.0.len() - length) as u64) as usize;
        &self.0[from..from + length]
    }
}

/// A bench of each keeper, and the joined replies.
struct Pair<'a> {
    keeper: Memory,
    second: Bench,
    replies: Vec<u8>,
    noise: &'a Noise,
    tally: &'a mut Tally,
}

impl<'a> Pair<'a> {
    fn new(bench: Bench, noise: &'a Noise, tally: &'a mut Tally) -> Pair<'a> {
        Pair {
            keeper: Memory::from(&bench),
            second: bench,
            replies: Vec::new(),
            noise,
            tally,
        }
    }

    /// A piece that both take, often behind some that they refuse.
    fn pieces(&mut self, random: &mut Random, piece: &[u8]) -> Result<(), String> {
        while random.percent(25) {
            if random.percent(40) {
                self.damaged(random, piece)?;
            } else {
                self.refused(random, piece)?;
            }
        }
        self.taken(random, piece)
    }

    /// The bytes of the replies to a piece.
    fn needed(&self, piece: &[u8]) -> usize {
        (usize::from(self.second.count) + piece.len()) / 4 * 4
    }

    /// A piece with room for its replies, and often more.
    fn taken(&mut self, random: &mut Random, piece: &[u8]) -> Result<(), String> {
        let more = random.one_of(&[0, 0, 0, 1, 2, 3, 4, 100, 5_000]);
        let buffer = self.noise.bytes(random, self.needed(piece) + more);
        self.tally.before(&self.second);
        match same(&mut self.keeper, &mut self.second, piece, buffer)? {
            Ok(replies) => {
                self.tally.taken(&replies);
                self.replies.extend(replies);
                Ok(())
            }
            Err(number) => Err(format!("a good piece refused with {number}")),
        }
    }

    /// The next piece, another one or one that is too long.
    fn stray<'p>(&self, random: &mut Random, next: &'p [u8]) -> &'p [u8]
    where
        'a: 'p,
    {
        let length = match random.below(4) {
            0 => return next,
            1 => random.below(900),
            2 => random.one_of(&[4_097, 4_098, 4_099, 4_100]),
            _ => random.from_to(4_097, 9_000),
        };
        self.noise.bytes(random, length as usize)
    }

    /// A piece that is too long, or has no room for its replies, or both.
    fn refused(&mut self, random: &mut Random, next: &[u8]) -> Result<(), String> {
        let piece = self.stray(random, next);
        let needed = self.needed(piece);
        let room = if piece.len() > MAX_PIECE && random.percent(50) {
            needed + random.one_of(&[0, 1, 5_000])
        } else if needed > 0 {
            random.one_of(&[0, needed / 2, needed - 4, needed - 1])
        } else {
            return Ok(());
        };
        let buffer = self.noise.bytes(random, room);
        match same(&mut self.keeper, &mut self.second, piece, buffer)? {
            Ok(_) => Err("a bad piece was taken".to_string()),
            Err(number) => self.tally.refused(number),
        }
    }

    /// Any piece on a bench with a field or two or any cell damaged. Some are still sound, and may
    /// take it.
    fn damaged(&mut self, random: &mut Random, next: &[u8]) -> Result<(), String> {
        let mut keeper = if random.percent(50) {
            Memory::from(&damaged(random, &self.second))
        } else {
            damaged_cell(random, &self.keeper)
        };
        let piece = self.stray(random, next);
        let room = random.one_of(&[0, piece.len(), piece.len() + 4]);
        let buffer = self.noise.bytes(random, room);
        let Some(mut second) = keeper.bench() else {
            unsound(&mut keeper, piece, buffer)?;
            return self.tally.refused(21);
        };
        match same(&mut keeper, &mut second, piece, buffer)? {
            Ok(_) => Ok(()),
            Err(number) => self.tally.refused(number),
        }
    }
}

/// A bench that the second has no fields for is not sound: a piece is refused with 21, and bench
/// and buffer stay.
fn unsound(keeper: &mut Memory, piece: &[u8], buffer: &[u8]) -> Result<(), String> {
    let before = keeper.clone();
    let mut replies = buffer.to_vec();
    let answer = keeper.feed(piece, &mut replies);
    if answer != Err(21) || *keeper != before || replies != buffer {
        return Err(format!("answer {answer:?} for a value beyond its field"));
    }
    Ok(())
}

/// One piece to both, with a buffer of these bytes: the replies, or the number that both refuse it
/// with; else how the two differ.
pub fn same(
    keeper: &mut Memory,
    second: &mut Bench,
    piece: &[u8],
    buffer: &[u8],
) -> Result<Result<Vec<u8>, u32>, String> {
    let before = keeper.clone();
    let (mut replies, mut right) = (buffer.to_vec(), buffer.to_vec());
    let answer = keeper.feed(piece, &mut replies);
    let expected = second.feed(piece, &mut right).map_err(u32::from);
    if answer != expected {
        return Err(format!("answer {answer:?}, not {expected:?}"));
    }
    if let Some(at) = (0..right.len()).find(|&at| replies[at] != right[at]) {
        let (byte, right) = (replies[at], right[at]);
        return Err(format!("byte {at} of the replies: {byte}, not {right}"));
    }
    let expected = Memory::from(&*second);
    if *keeper != expected {
        return Err(keeper.difference(&expected));
    }
    let written = 4 * answer.unwrap_or(0);
    if replies[written..] != buffer[written..] {
        return Err("bytes past the replies have changed".to_string());
    }
    if answer.is_err() && *keeper != before {
        return Err("a refused piece has changed the bench".to_string());
    }
    replies.truncate(written);
    Ok(answer.map(|_| replies))
}

/// What was met.
#[derive(Default)]
struct Tally {
    answers: answers::Tally,
    /// Pieces taken, by how many bytes were carried before them.
    carried: [u64; 4],
    /// Pieces taken, by the kind of the callback that was open before them.
    open: [u64; 4],
    /// Replies by kind.
    replies: [u64; 5],
    /// Pieces refused with 21, 22 and 23.
    refused: [u64; 3],
}

impl Tally {
    /// A bench before a piece that is taken.
    fn before(&mut self, bench: &Bench) {
        self.carried[usize::from(bench.count)] += 1;
        self.open[usize::from(bench.callback)] += 1;
    }

    fn taken(&mut self, replies: &[u8]) {
        for reply in replies.chunks_exact(4) {
            self.replies[usize::from(reply[0])] += 1;
        }
    }

    fn refused(&mut self, number: u32) -> Result<(), String> {
        match number {
            21..=23 => self.refused[number as usize - 21] += 1,
            _ => return Err(format!("refused with {number}")),
        }
        Ok(())
    }

    /// Everything was met, if there were enough logs.
    fn complete(&self, logs: u64) -> Result<(), String> {
        let met = [&self.carried[..], &self.open, &self.replies, &self.refused];
        if logs >= ENOUGH && met.concat().contains(&0) {
            return Err(format!("a count is 0: {}", self.shown()));
        }
        self.answers.complete(logs)
    }

    fn line(&self, logs: u64, time: Duration) -> String {
        let records: u64 = self.replies.iter().sum();
        let speed = records as f64 / time.as_secs_f64();
        format!(
            "feed: {logs} logs, {records} records, {speed:.0} a second, {}",
            self.shown()
        )
    }

    fn shown(&self) -> String {
        let listed = |counts: &[u64], names: &[&str]| -> String {
            let each = names.iter().zip(counts);
            let each: Vec<String> = each
                .map(|(name, count)| format!("{name}: {count}"))
                .collect();
            each.join(", ")
        };
        format!(
            "pieces taken {}, refused {}; carried before a piece {}; open before a piece {}; replies {}",
            self.carried.iter().sum::<u64>(),
            listed(&self.refused, &["21", "22", "23"]),
            listed(&self.carried, &["0", "1", "2", "3"]),
            listed(&self.open, &["none", "suspend", "resume", "idle"]),
            listed(
                &self.replies,
                &["finished", "suspend", "resume", "idle", "refused"]
            ),
        )
    }
}
