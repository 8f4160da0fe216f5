//! Random logs, and how they are cut into pieces.

use crate::answers::Tally;
use crate::records::{enabling, Writer};
use crate::starts::Start;
use second::generate::random::Random;
use second::{Bench, MAX_PIECE};
use std::mem::take;

/// A log, and the replies to its records, one at a time.
#[derive(Default)]
pub struct Log {
    pub bytes: Vec<u8>,
    pub replies: Vec<u8>,
}

impl Log {
    /// Written from a bench of this sort, as the second's replies come. Its first bytes complete
    /// those that the bench carries, and its last ones may be no whole record.
    pub fn written(random: &mut Random, tally: &mut Tally, start: Start, bench: &Bench) -> Log {
        let mut bench = bench.clone();
        let mut log = Log::default();
        if start == Start::Loaded {
            for record in enabling(random, &bench) {
                log.write(tally, &mut bench, record);
            }
        }
        let writer = Writer::from(random, start, &bench);
        let most = random.one_of(&[20, 200, 200, 800, 800, 3_000]);
        for _ in 0..random.from_to(0, most) {
            let record = writer.next(random, &bench);
            log.write(tally, &mut bench, record);
        }
        let rest = random.below(4 - u64::from(bench.count)) as usize;
        log.bytes.extend(&writer.next(random, &bench)[..rest]);
        log
    }

    /// One record more; the bytes that the bench carries are its first.
    fn write(&mut self, tally: &mut Tally, bench: &mut Bench, mut record: [u8; 4]) {
        let carried = usize::from(take(&mut bench.count));
        record[..carried].copy_from_slice(&take(&mut bench.carried)[..carried]);
        let before = bench.clone();
        let reply = bench.record(record);
        tally.add(&before, record, reply);
        self.bytes.extend(&record[carried..]);
        self.replies.extend(reply);
    }
}

/// How a log is cut.
#[derive(Clone, Copy)]
pub enum Cut {
    /// Into a few bytes each, or none.
    Short,
    /// Into some hundred bytes each.
    Middle,
    /// Into the longest pieces, or nearly so.
    Long,
    /// Into all of these.
    Mixed,
}

impl Cut {
    /// Any cut for a log of so many bytes; a long one has few short pieces.
    pub fn any(random: &mut Random, bytes: usize) -> Cut {
        if bytes > MAX_PIECE {
            random.one_of(&[Cut::Middle, Cut::Long, Cut::Long, Cut::Mixed])
        } else {
            random.one_of(&[Cut::Short, Cut::Middle, Cut::Mixed])
        }
    }

    /// The length of the next piece.
    pub fn next(self, random: &mut Random) -> usize {
        match self {
            Cut::Short => random.one_of(&[0, 1, 1, 1, 2, 2, 3, 4, 7]),
            Cut::Middle => random.from_to(4, 900) as usize,
            Cut::Long => MAX_PIECE - random.one_of(&[0, 0, 0, 1, 2, 3]),
            Cut::Mixed => random
                .one_of(&[Cut::Short, Cut::Middle, Cut::Long])
                .next(random),
        }
    }
}
