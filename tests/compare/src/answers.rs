//! How often each answer was met, beside the answers that document 01, with request Three, gives to each kind of record.

use second::{
    Bench, FINISHED, IDLE_CALLBACK, MAX_HOLDS, NO_CALLBACK, REFUSED, RESUME_CALLBACK, SUSPENDED,
    SUSPEND_CALLBACK,
};

/// From so many benches on, every answer must have been met.
pub const ENOUGH: u64 = 200;

/// The classes of answers: finished with a code, asks, refusals by their number.
const CLASSES: [&str; 18] = [
    "0",
    "1",
    "-11",
    "-13",
    "-16",
    "-22",
    "-75",
    "-115",
    "other",
    "ask 1",
    "ask 2",
    "ask 3",
    "refused 11",
    "refused 12",
    "refused 13",
    "refused 14",
    "refused 15",
    "malformed",
];

/// The codes of the first classes.
const CODES: [i16; 8] = [0, 1, -11, -13, -16, -22, -75, -115];

/// The class of refusal 11; those of 12 to 15 follow it.
const REFUSALS: usize = CODES.len() + 4;

/// Document 01: the answers to each kind; for results by the callback that is
/// open, and for resume by whether the device asked is the one requested.
const GIVEN: [(&str, &[&str]); 18] = [
    ("other kinds", &["refused 11"]),
    ("kind 1", &["0", "-75"]),
    ("kind 2", &["0", "-75"]),
    ("kind 3", &["0", "-75"]),
    ("kind 4", &["1", "-13", "-16", "-22", "-75", "ask 2"]),
    ("kind 5", &["0", "-75"]),
    ("kind 6", &["0", "-11", "-13", "-16", "-22", "-75", "ask 3"]),
    ("kind 7", &["-11", "-13", "-16", "-22", "ask 3"]),
    ("kind 8", &["1", "-11", "-13", "-16", "-22", "ask 1"]),
    ("kind 9", &["1", "-13", "-16", "-22", "ask 2"]),
    ("kind 10", &["0", "-11", "-16"]),
    ("kind 11", &["0", "-11", "-16"]),
    ("kind 12", &["0", "-16"]),
    ("kind 13 none open", &["refused 14"]),
    (
        "kind 13 suspend",
        &["0", "-11", "-13", "-16", "-22", "-75", "-115", "other"],
    ),
    (
        "kind 13 resume",
        &["0", "-11", "-13", "-16", "-22", "-75", "-115", "other"],
    ),
    ("kind 13 resume for another", &["-16", "ask 2"]),
    (
        "kind 13 idle",
        &["-11", "-13", "-16", "-22", "-75", "-115", "other", "ask 1"],
    ),
];

/// Document 01: well-formed records but results are answered so while a callback is open.
const BUSY: &str = "-115";

/// What a device may be whose put and idle ends with 0.
const SPARED: [&str; 5] = ["held", "linked alone", "asleep", "disabled", "failed"];

/// The counts.
#[derive(Default)]
pub struct Tally {
    answers: [[u64; CLASSES.len()]; GIVEN.len()],
    /// Puts with idle that ended with 0, by what the device was.
    spared: [u64; SPARED.len()],
    /// Suspend tests of a device with a use count beyond the most holds.
    beyond: u64,
    /// The greatest use count of a device that a suspend test was asked of.
    most_used: u32,
}

impl Tally {
    /// One record on a bench, and its reply.
    pub fn add(&mut self, before: &Bench, record: [u8; 4], reply: [u8; 4]) {
        self.answers[row(before, record)][class(reply)] += 1;
        let [kind, device, ..] = record;
        if (6..=8).contains(&kind) && before.callback == NO_CALLBACK && reply[0] != REFUSED {
            let put = u32::from(kind == 6);
            let usage = before.usage(device.into()).saturating_sub(put);
            self.most_used = self.most_used.max(usage);
            self.beyond += u64::from(usage > MAX_HOLDS.into());
        }
        if kind == 6 && class(reply) == 0 {
            let device = usize::from(device);
            let is = [
                before.holds[device] > 1,
                before.holds[device] == 1,
                before.status[device] == SUSPENDED,
                before.depth[device] > 0,
                before.error[device] > 0,
            ];
            for (count, is) in self.spared.iter_mut().zip(is) {
                *count += u64::from(is);
            }
        }
    }

    /// Every answer that document 01 gives was met, if there were enough benches, and no other.
    pub fn complete(&self, benches: u64) -> Result<(), String> {
        for (row, counts) in self.answers.iter().enumerate() {
            for (class, &count) in counts.iter().enumerate() {
                let what = || format!("{}, answer {}", GIVEN[row].0, CLASSES[class]);
                match (given(row, class), count) {
                    (false, 1..) => return Err(format!("{}: not in document 01", what())),
                    (true, 0) if benches >= ENOUGH => return Err(format!("{}: never met", what())),
                    _ => {}
                }
            }
        }
        if let (ENOUGH.., Some(never)) = (benches, self.spared.iter().position(|&n| n == 0)) {
            return Err(format!("kind 6, 0, {}: never met", SPARED[never]));
        }
        if benches >= ENOUGH && self.beyond == 0 {
            return Err(format!("use count beyond {MAX_HOLDS}: never met"));
        }
        Ok(())
    }

    pub fn most_used(&self) -> u32 {
        self.most_used
    }

    /// The counts on one line.
    pub fn line(&self) -> String {
        let records: u64 = self.answers.iter().flatten().sum();
        let mut line = format!(
            "{records} records, greatest use count {}, beyond {MAX_HOLDS}: {}",
            self.most_used, self.beyond
        );
        for (name, count) in SPARED.iter().zip(self.spared) {
            line += &format!(", put and idle of a device {name}: {count}");
        }
        for (class, name) in CLASSES.iter().enumerate().skip(REFUSALS).take(5) {
            let count: u64 = self.answers.iter().map(|counts| counts[class]).sum();
            line += &format!(", {name}: {count}");
        }
        for (row, (name, _)) in GIVEN.iter().enumerate() {
            let met: Vec<String> = (0..CLASSES.len())
                .filter(|&class| given(row, class))
                .map(|class| format!("{}: {}", CLASSES[class], self.answers[row][class]))
                .collect();
            line += &format!("; {name}: {}", met.join(", "));
        }
        line
    }
}

/// The row of a record in the table of answers.
fn row(before: &Bench, record: [u8; 4]) -> usize {
    let own = before.asked == before.target;
    match (record[0], before.callback) {
        (kind @ 1..=12, _) => usize::from(kind),
        (13, NO_CALLBACK) => 13,
        (13, SUSPEND_CALLBACK) => 14,
        (13, RESUME_CALLBACK) => 15 + usize::from(!own),
        (13, IDLE_CALLBACK) => 17,
        _ => 0,
    }
}

/// The class of a reply.
fn class(reply: [u8; 4]) -> usize {
    let [kind, _, low, high] = reply;
    match (kind, i16::from_le_bytes([low, high])) {
        (FINISHED, code) => {
            let class = CODES.iter().position(|&known| known == code);
            class.unwrap_or(CODES.len())
        }
        (1..=3, 0) => CODES.len() + usize::from(kind),
        (REFUSED, number @ 11..=15) => REFUSALS + number as usize - 11,
        _ => CLASSES.len() - 1,
    }
}

/// Document 01 gives this answer to this row.
fn given(row: usize, class: usize) -> bool {
    let (_, answers) = GIVEN[row];
    let class = CLASSES[class];
    let refused = row > 0 && ["refused 12", "refused 13"].contains(&class);
    let busy = (1..=12).contains(&row) && class == BUSY;
    let not_asked = row > 13 && class == "refused 15";
    answers.contains(&class) || refused || busy || not_asked
}
