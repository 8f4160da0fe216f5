//! Random logs from random sound benches, a record at a time: the reply and the whole bench of both keepers.

use crate::answers::Tally;
use crate::keeper::Memory;
use crate::layout::{self, field};
use crate::starts::{self, Start};
use second::generate::hosts::{any_host, next_record, write, Host};
use second::generate::random::Random;
use second::{Bench, MAX_HOLDS, NO_CALLBACK};

/// Compares the keepers on a log from each of so many benches: the tally, or the first difference.
pub fn compare(seed: u64, count: u64) -> Result<String, String> {
    most_used().map_err(|what| format!("the most used device: {what}"))?;
    let mut random = Random::new(seed);
    let mut tally = Tally::default();
    let (mut sorts, mut open) = ([0; starts::ALL.len()], [0; 4]);
    for number in 0..count {
        let which = number as usize % starts::ALL.len();
        let start = starts::ALL[which].0;
        let bench = starts::bench(&mut random, start);
        sorts[which] += 1;
        open[usize::from(bench.callback)] += 1;
        log(&mut random, &mut tally, start, bench)
            .map_err(|what| format!("seed {seed}, bench {number}: {what}"))?;
    }
    tally.complete(count)?;
    let sorts: Vec<String> = (starts::ALL.iter().zip(sorts))
        .map(|((_, name), count)| format!("{name} {count}"))
        .collect();
    let [none, suspend, resume, idle] = open;
    Ok(format!(
        "records: {count} benches ({}; open at the start: none {none}, suspend {suspend}, resume {resume}, idle {idle}), {}",
        sorts.join(", "),
        tally.line()
    ))
}

/// Every use count from the most holds on. 63 consumers of device 0, the most
/// that a table has room for, are active, and are set suspended one by one.
fn most_used() -> Result<(), String> {
    let mut table = b"TWB\x01\x00\x40\x3f".to_vec();
    table.extend([255, 0].repeat(64));
    table.extend((1..64).flat_map(|consumer| [consumer, 0, 1]));
    let bench = second::load(&table).map_err(|refusal| format!("refused {}", refusal.number))?;
    let mut tally = Tally::default();
    let mut pair = Pair::new(bench, &mut tally);
    pair.send_each((0..64).map(|device| write(10, device, 0)))?;
    pair.send(write(1, 0, 0))?;
    for consumer in 1..64 {
        layout::set(&mut pair.keeper, field::HOLDS, 0, MAX_HOLDS.into());
        pair.second.holds[0] = MAX_HOLDS;
        pair.send_each([8, 7, 6, 8, 3, 4, 3, 9].map(|kind| write(kind, 0, 0)))?;
        pair.send(write(11, consumer, 0))?;
    }
    pair.sound()?;
    match tally.most_used() {
        32_830 => Ok(()),
        usage => Err(format!("greatest use count {usage}, not 32830")),
    }
}

/// One log.
fn log(random: &mut Random, tally: &mut Tally, start: Start, bench: Bench) -> Result<(), String> {
    let mut pair = Pair::new(bench, tally);
    pair.sound()?;
    if start == Start::Loaded {
        pair.send_each(enabling(random, &pair.second))?;
    }
    let writer = Writer::from(random, start, &pair.second);
    for number in 0..random.from_to(1, 800) {
        let record = writer.next(random, &pair.second);
        pair.send(record)
            .map_err(|what| format!("record {number}: {what}"))?;
    }
    pair.sound()
}

/// Mostly records that enable the devices, now and then leaving one out.
pub fn enabling(random: &mut Random, bench: &Bench) -> Vec<[u8; 4]> {
    if !random.percent(85) {
        return Vec::new();
    }
    let enabled = (0..bench.n).filter(|_| random.percent(93));
    enabled.map(|device| write(1, device, 0)).collect()
}

/// A bench of each keeper.
struct Pair<'a> {
    keeper: Memory,
    second: Bench,
    tally: &'a mut Tally,
}

impl<'a> Pair<'a> {
    fn new(bench: Bench, tally: &'a mut Tally) -> Pair<'a> {
        Pair {
            keeper: Memory::from(&bench),
            second: bench,
            tally,
        }
    }

    /// One record to both.
    fn send(&mut self, record: [u8; 4]) -> Result<(), String> {
        let before = self.second.clone();
        let right = self.second.record(record);
        self.tally.add(&before, record, right);
        let reply = self.keeper.step(record);
        if reply != right {
            return Err(format!(
                "{record:02x?}: reply {reply:02x?}, not {right:02x?}"
            ));
        }
        let second = Memory::from(&self.second);
        if self.keeper != second {
            let what = self.keeper.difference(&second);
            return Err(format!("{record:02x?}: {what}"));
        }
        Ok(())
    }

    /// Records in turn.
    fn send_each(&mut self, records: impl IntoIterator<Item = [u8; 4]>) -> Result<(), String> {
        records.into_iter().try_for_each(|record| self.send(record))
    }

    /// Both say that the bench is sound.
    fn sound(&self) -> Result<(), String> {
        match (self.keeper.sound(), self.second.sound()) {
            (true, true) => Ok(()),
            verdicts => Err(format!(
                "sound by the keeper and by the second: {verdicts:?}"
            )),
        }
    }
}

/// Who writes the records of a log.
#[derive(Clone, Copy)]
pub enum Writer {
    /// A host of the second implementation's cases.
    Host(Host),
    /// A host whose callbacks fail with each code as often.
    Failing,
    /// A host that mostly asks about one device, often the last.
    About(u8),
    /// Bytes of every value.
    Bytes,
}

impl Writer {
    /// Who writes a log from a bench of this sort.
    pub fn from(random: &mut Random, start: Start, bench: &Bench) -> Writer {
        match start {
            Start::Crowded => Writer::About(0),
            _ => Writer::any(random, bench),
        }
    }

    fn any(random: &mut Random, bench: &Bench) -> Writer {
        match random.below(10) {
            0..=5 => Writer::Host(any_host(random)),
            6 | 7 => Writer::Failing,
            8 => {
                let device = random.below(bench.n.into()) as u8;
                Writer::About(random.one_of(&[device, bench.n - 1]))
            }
            _ => Writer::Bytes,
        }
    }

    /// The next record; now and then another writes it.
    pub fn next(self, random: &mut Random, bench: &Bench) -> [u8; 4] {
        let writer = if random.percent(12) {
            Writer::any(random, bench)
        } else {
            self
        };
        match writer {
            Writer::Host(host) => next_record(random, bench, host),
            Writer::Failing if bench.callback != NO_CALLBACK && random.percent(90) => {
                failing(random, bench)
            }
            Writer::About(device) if bench.callback == NO_CALLBACK && random.percent(60) => {
                write(random.from_to(1, 12) as u8, device, 0)
            }
            Writer::Failing | Writer::About(_) => next_record(random, bench, Host::Lively),
            Writer::Bytes => bytes(random, bench),
        }
    }
}

/// A result of the open callback: 0, each special code as often, any other, or a wrong one.
fn failing(random: &mut Random, bench: &Bench) -> [u8; 4] {
    let value = match random.below(12) {
        0..=2 => 0,
        3 => -(random.from_to(1, 4_095) as i16),
        _ => random.one_of(&[-11, -13, -16, -5, -22, -75, -115, -1, -4_095]),
    };
    match random.below(20) {
        0 => write(13, random.byte(), value),
        1 => write(13, bench.asked, wrong_value(random)),
        2 => write(13, bench.target, value),
        _ => write(13, bench.asked, value),
    }
}

/// A value that no result has.
fn wrong_value(random: &mut Random) -> i16 {
    match random.below(4) {
        0 => random.from_to(1, 32_767) as i16,
        1 => -(random.from_to(4_096, 32_767) as i16),
        _ => random.one_of(&[1, 2, 256, 4_095, 32_767, -4_096, -4_097, -32_768]),
    }
}

/// Bytes of every value; often a kind that exists, a device below n, a value near a bound.
fn bytes(random: &mut Random, bench: &Bench) -> [u8; 4] {
    let [mut kind, mut device, low, high] = [(); 4].map(|_| random.byte());
    let mut value = i16::from_le_bytes([low, high]);
    if random.percent(70) {
        kind %= 15;
    }
    if random.percent(70) {
        device %= bench.n;
    }
    if random.percent(70) {
        value = random.one_of(&[
            0, 0, 0, 0, 1, 2, -1, -2, 255, 256, -4_094, -4_095, -4_096, -4_097, 32_767, -32_768,
        ]);
    }
    write(kind, device, value)
}
