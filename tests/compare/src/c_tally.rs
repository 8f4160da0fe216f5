//! What a C host was answered, and what it had lent.

use crate::answers::ENOUGH;
use crate::c_calls::Question;
use crate::lent::Buffer;
use second::{Bench, FORM, MAX_PIECE};

/// What must be met, in groups.
const GROUPS: [(&str, &[&str]); 19] = [
    ("load", &["taken", "1", "2", "3", "4", "5", "6", "7", "8"]),
    ("feed", &["taken", "21", "22", "23"]),
    (
        "ask",
        &["21", "24 for a question", "for a part", "for a second part"],
    ),
    ("status", &["0", "1", "2", "3"]),
    ("use count", &["0", "more"]),
    ("child count", &["0", "more"]),
    ("user holds", &["0", "more"]),
    ("wake set", &["0", "1"]),
    ("parents above", &["0", "more"]),
    (
        "answered with an unknown second part that is not asked about",
        &["met"],
    ),
    (
        "24 with a known low byte",
        &["question", "part", "second part"],
    ),
    (
        "24 with a known low half",
        &["question", "part", "second part"],
    ),
    (
        "two faults",
        &[
            "a table's, not 8",
            "21, not 22",
            "21, not 23",
            "22, not 23",
            "21, not 24",
        ],
    ),
    (
        "open at a feed taken",
        &["none", "suspend", "resume", "idle"],
    ),
    ("open at an answer", &["none", "suspend", "resume", "idle"]),
    (
        "state bytes",
        &["exact", "longer", "one short", "shorter", "empty", "null"],
    ),
    ("null", &["table", "piece", "replies"]),
    (
        "bytes of a piece",
        &["0 taken", "4096 taken", "4097 refused"],
    ),
    (
        "room for the replies",
        &["exact", "longer", "one byte short", "none"],
    ),
];

const LOAD: usize = 0;
const FEED: usize = 1;
const ASK: usize = 2;
/// The first of the questions, in the order of their numbers.
const QUESTIONS: usize = 3;
const NOT_ASKED_ABOUT: usize = 9;
const LOW_BYTE: usize = 10;
const LOW_HALF: usize = 11;
const TWO_FAULTS: usize = 12;
const OPEN_AT_FEED: usize = 13;
const OPEN_AT_ANSWER: usize = 14;
const STATE_BYTES: usize = 15;
const NULL: usize = 16;
const PIECE: usize = 17;
const ROOM: usize = 18;

/// The numbers of the questions about status and wake set.
const STATUS: u32 = 0;
pub const WAKE_SET: u32 = 4;
/// The first number that is no question's.
pub const UNKNOWN: u32 = 6;

/// How often each was met.
#[derive(Default)]
pub struct Tally {
    groups: [[u64; 9]; GROUPS.len()],
    calls: u64,
}

impl Tally {
    fn add(&mut self, group: usize, class: usize) {
        self.groups[group][class] += 1;
    }

    fn add_if(&mut self, met: bool, group: usize, class: usize) {
        self.groups[group][class] += u64::from(met);
    }

    /// A table loaded into state bytes.
    pub fn load(&mut self, table: &Buffer, state: &Buffer, result: i32) {
        self.calls += 1;
        self.state(state);
        self.add_if(table.is_null(), NULL, 0);
        self.add(LOAD, -result as usize);
        let short = state.bytes.len() < FORM;
        self.add_if(short && result < 0 && result != -8, TWO_FAULTS, 0);
    }

    /// A piece fed against state bytes.
    pub fn feed(&mut self, state: &Buffer, piece: &Buffer, replies: &Buffer, result: i32) {
        self.calls += 1;
        self.state(state);
        self.add_if(piece.is_null(), NULL, 1);
        self.add_if(replies.is_null(), NULL, 2);
        let (length, room) = (piece.bytes.len(), replies.bytes.len());
        let carried = match result {
            -21 => 0,
            _ => usize::from(state.bytes[CARRIED]),
        };
        let needed = (carried + length) / 4 * 4;
        let (long, short) = (length > MAX_PIECE, room < needed);
        self.add_if(result == -21 && long, TWO_FAULTS, 1);
        self.add_if(result == -21 && short, TWO_FAULTS, 2);
        self.add_if(result == -22 && short, TWO_FAULTS, 3);
        self.add_if(result == -22 && length == MAX_PIECE + 1, PIECE, 2);
        self.add_if(result == -23 && room + 1 == needed, ROOM, 2);
        self.add_if(result == -23 && room == 0, ROOM, 3);
        if result < 0 {
            self.add(FEED, (-result - 20) as usize);
        } else {
            self.add(FEED, 0);
            self.add(OPEN_AT_FEED, state.bytes[CALLBACK].into());
            self.add_if(length == 0, PIECE, 0);
            self.add_if(length == MAX_PIECE, PIECE, 1);
            self.add(ROOM, usize::from(room > needed));
        }
    }

    /// A question to state bytes, and the bench that they begin with.
    pub fn ask(&mut self, state: &Buffer, bench: Option<&Bench>, asked: Question, result: i32) {
        self.calls += 1;
        self.state(state);
        let n = bench.map_or(0, |bench| bench.n.into());
        let [question, part, second] = asked;
        let pair = question == WAKE_SET;
        let unknown = [question >= UNKNOWN, part >= n, pair && second >= n];
        match result {
            -21 => {
                self.add(ASK, 0);
                self.add_if(question >= UNKNOWN || part >= 64, TWO_FAULTS, 4);
            }
            -24 => self.unknown([UNKNOWN, n, n], asked, unknown),
            _ => {
                let class = match question {
                    STATUS => result as usize,
                    _ => usize::from(result > 0),
                };
                self.add(QUESTIONS + question as usize, class);
                self.add_if(!pair && second >= n, NOT_ASKED_ABOUT, 0);
                self.add(OPEN_AT_ANSWER, state.bytes[CALLBACK].into());
            }
        }
    }

    /// A question refused for a number at or beyond its limit. It is counted where that is one
    /// number alone.
    fn unknown(&mut self, limits: [u32; 3], asked: Question, unknown: [bool; 3]) {
        let which = match unknown {
            [true, false, false] => 0,
            [false, true, false] => 1,
            [false, false, true] => 2,
            _ => return,
        };
        let (number, limit) = (asked[which], limits[which]);
        self.add(ASK, 1 + which);
        self.add_if(number % 256 < limit, LOW_BYTE, which);
        self.add_if(number % 65_536 < limit, LOW_HALF, which);
    }

    fn state(&mut self, state: &Buffer) {
        let class = match state.bytes.len() {
            FORM => 0,
            length if length > FORM => 1,
            length if length == FORM - 1 => 2,
            0 => 4 + usize::from(state.is_null()),
            _ => 3,
        };
        self.add(STATE_BYTES, class);
    }

    /// Everything was met, if there were enough rounds.
    pub fn complete(&self, rounds: u64) -> Result<(), String> {
        for ((name, classes), counts) in GROUPS.iter().zip(self.groups) {
            let met = &counts[..classes.len()];
            if let (ENOUGH.., Some(never)) = (rounds, met.iter().position(|&count| count == 0)) {
                return Err(format!("{name}, {}: never met", classes[never]));
            }
        }
        Ok(())
    }

    /// The counts on one line.
    pub fn line(&self, rounds: u64) -> String {
        let mut line = format!("c_host: {rounds} rounds, {} calls", self.calls);
        for ((name, classes), counts) in GROUPS.iter().zip(self.groups) {
            let counts: Vec<String> = (classes.iter().zip(counts))
                .map(|(class, count)| format!("{class}: {count}"))
                .collect();
            line += &format!("; {name}: {}", counts.join(", "));
        }
        line
    }
}

/// Where a saved state has the open callback, and how many bytes it carries.
const CALLBACK: usize = 1_670;
const CARRIED: usize = 1_673;
