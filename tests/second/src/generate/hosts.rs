//! Hosts: who writes the records of a log.

use super::random::Random;
use super::tally::Tally;
use crate::bench::*;
use crate::record::FINISHED;

/// The ways a host behaves.
#[derive(Clone, Copy)]
pub enum Host {
    /// Answers the open callback and asks for things otherwise.
    Steady,
    /// The same, but mostly looks for what leads to something.
    Lively,
    /// Often answers nonsense.
    Rude,
    /// Writes nearly random bytes.
    Noise,
}

const ALL: [Host; 8] = [
    Host::Steady,
    Host::Steady,
    Host::Lively,
    Host::Lively,
    Host::Lively,
    Host::Rude,
    Host::Rude,
    Host::Noise,
];

pub fn any_host(random: &mut Random) -> Host {
    random.one_of(&ALL)
}

/// A log as it is written, with the bench it leads to.
pub struct Session<'a> {
    pub bench: Bench,
    pub log: Vec<u8>,
    pub replies: Vec<u8>,
    tally: &'a mut Tally,
}

impl<'a> Session<'a> {
    pub fn new(bench: Bench, tally: &'a mut Tally) -> Session<'a> {
        Session {
            bench,
            log: Vec::new(),
            replies: Vec::new(),
            tally,
        }
    }

    /// Feeds bytes of at most one record's end.
    fn send(&mut self, bytes: &[u8]) {
        let before = self.bench.clone();
        let mut reply = [0; 4];
        let taken = self.bench.feed(bytes, &mut reply);
        self.log.extend(bytes);
        if taken.expect("the bench is sound") == 1 {
            self.replies.extend(reply);
            self.tally.record(&before, bytes, reply);
        }
    }

    /// Completes carried bytes to a record.
    fn complete(&mut self, random: &mut Random) {
        if self.bench.count > 0 {
            let last = random.one_of(&[0, 0, 1]);
            let missing = 4 - usize::from(self.bench.count);
            let mut bytes = vec![last; missing];
            bytes[missing - 1] = 0;
            self.send(&bytes);
        }
    }

    /// Enables every device, now and then leaving one out.
    pub fn enable_all(&mut self, random: &mut Random) {
        self.complete(random);
        for device in 0..self.bench.n {
            if random.percent(93) {
                self.send(&[1, device, 0, 0]);
            }
        }
    }

    /// Records of one host.
    pub fn play(&mut self, random: &mut Random, host: Host, records: u64) {
        self.complete(random);
        for _ in 0..records {
            let record = next_record(random, &self.bench, host);
            self.send(&record);
        }
    }

    /// Sometimes 1 to 3 bytes over.
    pub fn leave_rest(&mut self, random: &mut Random) {
        if random.percent(25) {
            let record = next_record(random, &self.bench, Host::Steady);
            let rest = random.from_to(1, 3) as usize;
            self.send(&record[..rest]);
        }
    }
}

/// The record that a host writes next.
pub fn next_record(random: &mut Random, bench: &Bench, host: Host) -> [u8; 4] {
    match host {
        Host::Steady => polite(random, bench, &STEADY_KINDS),
        Host::Lively => lively(random, bench),
        Host::Rude if random.percent(60) => polite(random, bench, &STEADY_KINDS),
        Host::Rude => rude(random, bench),
        Host::Noise => noise(random, bench),
    }
}

/// Passes over a few records whose answers are dull.
fn lively(random: &mut Random, bench: &Bench) -> [u8; 4] {
    for _ in 0..4 {
        let record = polite(random, bench, &LIVELY_KINDS);
        let [kind, _, low, high] = bench.clone().record(record);
        let code = i16::from_le_bytes([low, high]);
        let dull = match code {
            0 => record[0] == 12,
            code => record[0] != 13 && code != -EBUSY && code != -EINPROGRESS,
        };
        if kind != FINISHED || !dull {
            return record;
        }
    }
    polite(random, bench, &LIVELY_KINDS)
}

const STEADY_KINDS: [u8; 23] = [
    1, 1, 1, 2, 3, 4, 4, 5, 5, 6, 6, 7, 8, 8, 9, 9, 9, 10, 10, 11, 11, 12, 12,
];
const LIVELY_KINDS: [u8; 17] = [1, 4, 4, 5, 6, 6, 6, 7, 7, 8, 8, 9, 9, 9, 10, 11, 12];

/// Answers an open callback, with few slips; else a request.
fn polite(random: &mut Random, bench: &Bench, kinds: &[u8]) -> [u8; 4] {
    if bench.callback != NO_CALLBACK && random.percent(90) {
        return write(13, bench.asked, answer(random));
    }
    if random.percent(15) {
        if let Some(device) = near_limit(random, bench) {
            return write(random.one_of(&[2, 3, 4]), device, 0);
        }
    }
    let device = random.below(u64::from(bench.n)) as u8;
    let kind = random.one_of(kinds);
    let value = if kind == 12 {
        random.below(2) as i16
    } else {
        0
    };
    write(kind, device, value)
}

/// A random device, if its holds or its disable depth are near their limit.
fn near_limit(random: &mut Random, bench: &Bench) -> Option<u8> {
    let device = random.below(u64::from(bench.n)) as u8;
    let row = usize::from(device);
    (bench.holds[row] + 2 > MAX_HOLDS || bench.depth[row] > 253).then_some(device)
}

/// The bytes of a record.
pub fn write(kind: u8, device: u8, value: i16) -> [u8; 4] {
    let [low, high] = value.to_le_bytes();
    [kind, device, low, high]
}

/// A callback's value: mostly 0.
fn answer(random: &mut Random) -> i16 {
    match random.below(20) {
        0..=14 => 0,
        15 => -EAGAIN,
        16 => -EBUSY,
        17 => -5,
        18 => random.one_of(&[-1, -13, -22, -75, -115, -4_095]),
        _ => -(random.from_to(1, 4_095) as i16),
    }
}

/// A wrong kind, device or value, or a result that wasn't asked for.
fn rude(random: &mut Random, bench: &Bench) -> [u8; 4] {
    let device = random.below(u64::from(bench.n)) as u8;
    let kind = random.from_to(1, 13) as u8;
    if bench.callback != NO_CALLBACK && random.percent(50) {
        let other = (bench.asked + 1) % bench.n;
        return write(13, random.one_of(&[other, bench.target]), answer(random));
    }
    match random.below(7) {
        0 => write(random.one_of(&[0, 14, 15, 22, 128, 255]), device, 0),
        1 => write(kind, bench.n + random.below(3) as u8, 0),
        2 => write(kind, random.one_of(&[64, 254, 255]), 0),
        3 => write(kind, device, wrong_value(random)),
        4 => write(12, device, random.one_of(&[-1, 0, 1, 2, 256])),
        5 => write(13, device, random.one_of(&[0, -5, 1, -4_095, -4_096])),
        _ => write(kind, device, 0),
    }
}

fn wrong_value(random: &mut Random) -> i16 {
    random.one_of(&[1, 2, -1, 255, 256, -4_095, -4_096, 32_767, -32_768])
}

/// Bytes that are nearly random.
fn noise(random: &mut Random, bench: &Bench) -> [u8; 4] {
    if random.percent(15) {
        return [(); 4].map(|_| random.byte());
    }
    let kind = random.below(16) as u8;
    let device = random.below(u64::from(bench.n) + 1) as u8;
    write(kind, device, random.one_of(&[0, 0, 0, 0, 0, 1, -1, -11, 2]))
}
