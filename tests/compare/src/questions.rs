//! Random benches, sound and damaged: every question about every device, known or not, and every
//! method of both keepers.

use crate::answers::ENOUGH;
use crate::benches::damaged_cell;
use crate::keeper::Memory;
use crate::starts;
use second::generate::damage::damaged;
use second::generate::hosts::write;
use second::generate::random::Random;
use second::Bench;

/// The questions by their numbers. The last one is about two devices.
const QUESTIONS: [&str; 6] = [
    "status",
    "user holds",
    "usage count",
    "child count",
    "parents above",
    "wake set",
];
const WAKE_SET: u8 = 5;

/// The refusals.
const UNSOUND: u64 = 21;
const UNKNOWN: u64 = 24;

/// A question's answers as they are counted.
const ANSWERS: [&str; 4] = ["21", "24", "zero", "more"];

/// The first and the last kind of records that a method makes, and the first with a value.
const KINDS: std::ops::RangeInclusive<u8> = 1..=13;
const FIRST_WITH_VALUE: u8 = 12;

/// Compares the keepers on so many benches and on damaged ones: the tally, or the first difference.
pub fn compare(seed: u64, count: u64) -> Result<String, String> {
    let mut random = Random::new(seed);
    let mut tally = Tally::default();
    for number in 0..count {
        let (start, _) = starts::ALL[number as usize % starts::ALL.len()];
        let bench = starts::bench(&mut random, start);
        for (sort, pair) in pairs(&mut random, bench).into_iter().enumerate() {
            pair.questions(&mut random, &mut tally)
                .and_then(|()| pair.methods(&mut random, &mut tally))
                .map_err(|what| format!("seed {seed}, bench {number}, variant {sort}: {what}"))?;
        }
    }
    tally.complete(count)?;
    Ok(tally.line(count))
}

/// A bench of each keeper; the second has none where a cell is beyond its fields, and so beyond
/// every limit.
struct Pair {
    keeper: Memory,
    second: Option<Bench>,
}

/// The bench itself, one with a field or two damaged, and one with any cell damaged.
fn pairs(random: &mut Random, bench: Bench) -> [Pair; 3] {
    let other = damaged(random, &bench);
    let keeper = damaged_cell(random, &Memory::from(&bench));
    let second = keeper.bench();
    let whole = |bench: Bench| Pair {
        keeper: Memory::from(&bench),
        second: Some(bench),
    };
    [whole(bench), whole(other), Pair { keeper, second }]
}

impl Pair {
    /// How many devices there are.
    fn devices(&self) -> u8 {
        self.second.as_ref().map_or(0, |bench| bench.n)
    }

    /// Every question about every device. The last one is asked with some others of each, and with
    /// every other of one.
    fn questions(&self, random: &mut Random, tally: &mut Tally) -> Result<(), String> {
        let n = self.devices();
        let one = any_device(random, n);
        for device in 0..=u8::MAX {
            for question in 0..WAKE_SET {
                self.question(tally, question, device, random.byte())?;
            }
            let last = n.saturating_sub(1);
            for other in [0, device, last, n, u8::MAX, any_device(random, n)] {
                self.question(tally, WAKE_SET, device, other)?;
            }
            self.question(tally, WAKE_SET, one, device)?;
        }
        Ok(())
    }

    fn question(&self, tally: &mut Tally, question: u8, p: u8, q: u8) -> Result<(), String> {
        let right = match &self.second {
            Some(bench) => asked(bench, question, p, q).map_or_else(u64::from, |x| 256 * x),
            None => UNSOUND,
        };
        let answer = self.keeper.ask(question, p, q);
        tally.question(question, right);
        if answer != right {
            let name = QUESTIONS[usize::from(question)];
            return Err(format!("{name} of {p} ({q}): {answer:#x}, not {right:#x}"));
        }
        Ok(())
    }

    /// Every method, for the device asked, the target, any device, and one or two unknown ones.
    fn methods(&self, random: &mut Random, tally: &mut Tally) -> Result<(), String> {
        let n = self.devices();
        let (asked, target) = (self.second.as_ref()).map_or((0, 0), |b| (b.asked, b.target));
        for kind in KINDS {
            for device in [asked, target, any_device(random, n), n, u8::MAX] {
                let value = if kind < FIRST_WITH_VALUE {
                    0
                } else {
                    random.one_of(&[0, 0, 1, 2, -1, -5, -11, -13, -16, -4_095, -4_096, 256])
                };
                self.method(tally, write(kind, device, value))?;
            }
        }
        Ok(())
    }

    fn method(&self, tally: &mut Tally, record: [u8; 4]) -> Result<(), String> {
        let mut keeper = self.keeper.clone();
        let reply = keeper.request(record);
        let mut second = self.second.clone();
        let right = (second.as_mut()).map_or(Err(UNSOUND as u8), |bench| bench.request(record));
        tally.method(record[0], right.is_ok());
        let right = right.unwrap_or_else(|number| [number, 0, 0, 0]);
        if reply != right {
            return Err(format!(
                "{record:02x?}: reply {reply:02x?}, not {right:02x?}"
            ));
        }
        let after = second.map_or_else(|| self.keeper.clone(), |bench| Memory::from(&bench));
        if keeper != after {
            let what = keeper.difference(&after);
            return Err(format!("{record:02x?}: {what}"));
        }
        Ok(())
    }
}

/// What the second tells.
fn asked(bench: &Bench, question: u8, p: u8, q: u8) -> Result<u64, u8> {
    Ok(match question {
        0 => bench.status_of(p)?.into(),
        1 => bench.user_holds(p)?.into(),
        2 => bench.usage_count(p)?.into(),
        3 => bench.child_count(p)?.into(),
        4 => bench.parents_above(p)?.into(),
        _ => bench.wakes_with(p, q)?.into(),
    })
}

/// A device of n, any byte where there is none.
fn any_device(random: &mut Random, n: u8) -> u8 {
    match n {
        0 => random.byte(),
        n => random.below(n.into()) as u8,
    }
}

/// How often each answer was met.
#[derive(Default)]
struct Tally {
    questions: [[u64; ANSWERS.len()]; QUESTIONS.len()],
    /// The replies to each kind: the refusals, and the others.
    methods: [[u64; 2]; 14],
}

impl Tally {
    fn question(&mut self, question: u8, answer: u64) {
        let class = match answer {
            UNSOUND => 0,
            UNKNOWN => 1,
            0 => 2,
            _ => 3,
        };
        self.questions[usize::from(question)][class] += 1;
    }

    fn method(&mut self, kind: u8, replied: bool) {
        self.methods[usize::from(kind)][usize::from(replied)] += 1;
    }

    /// Every answer was met, if there were enough benches.
    fn complete(&self, benches: u64) -> Result<(), String> {
        if benches < ENOUGH {
            return Ok(());
        }
        for (name, counts) in QUESTIONS.iter().zip(self.questions) {
            if let Some(class) = counts.iter().position(|&count| count == 0) {
                return Err(format!("{name}, answer {}: never met", ANSWERS[class]));
            }
        }
        for kind in KINDS {
            if self.methods[usize::from(kind)].contains(&0) {
                return Err(format!("method {kind}: never refused, or never replied"));
            }
        }
        Ok(())
    }

    /// The counts on one line.
    fn line(&self, benches: u64) -> String {
        let mut line = format!("questions: {benches} benches, each also damaged");
        for (name, counts) in QUESTIONS.iter().zip(self.questions) {
            let counts: Vec<String> = (ANSWERS.iter().zip(counts))
                .map(|(answer, count)| format!("{answer}: {count}"))
                .collect();
            line += &format!("; {name}: {}", counts.join(", "));
        }
        let sum = |which: usize| self.methods.iter().map(|counts| counts[which]).sum::<u64>();
        format!("{line}; methods: 21: {}, replied: {}", sum(0), sum(1))
    }
}
